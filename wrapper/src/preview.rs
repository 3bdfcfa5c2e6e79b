//! What a preview answers.

use std::ops::Range;

/// Document 02, request (a): "a part of the edit list or a part of the image, as
/// the last edit of that key decides, and a second answer says which, or
/// missing."
///
/// ```
/// use quote_store::{calls, encode, Edit, Preview, Store};
///
/// let mut store = Store::fresh(8)?;
/// store.apply(&[Edit::Insert { key: 101, value: b"101.25" }])?;
/// let mut image = store.image().to_vec();
/// let edits = encode(&[Edit::Insert { key: 105, value: b"99.50" }]);
/// let place = calls::lookup(&image, 101)?.unwrap();
/// assert_eq!(calls::preview(&image, &edits, 105), Ok(Preview::InList(10..15)));
/// assert_eq!(calls::preview(&image, &edits, 101), Ok(Preview::InImage(place.clone())));
/// assert_eq!(calls::preview(&image, &edits, 107), Ok(Preview::Missing));
///
/// // An empty value, which a store may hold from before, is not a missing one. (The
/// // length of a value stands 8 bytes before it.)
/// image[place.start - 8] = 0;
/// let empty = Preview::InImage(place.start..place.start);
/// assert_eq!(calls::preview(&image, &edits, 101), Ok(empty));
/// # Ok::<(), quote_store::Refusal>(())
/// ```
#[derive(Clone, Debug, PartialEq, Eq)]
pub enum Preview {
    /// The value is this part of the edit list: the last edit of the key is an
    /// insert or update.
    InList(Range<usize>),
    /// The value is this part of the image: no edit has the key.
    InImage(Range<usize>),
    /// The key would not be there.
    Missing,
}

impl Preview {
    /// From the numbers of an accepted call, the edit number left out.
    pub(crate) fn of([place, offset, length]: [usize; 3]) -> Preview {
        let part = offset..offset + length;
        match place {
            0 => Preview::Missing,
            1 => Preview::InList(part),
            2 => Preview::InImage(part),
            _ => unreachable!("the store names one of two buffers or neither, not {place}"),
        }
    }
}
