//! Document 01, 'Edits': the edit list.

/// One edit of a transaction.
///
/// ```
/// use quote_store::{Edit, Refusal, Store};
///
/// let mut store = Store::fresh(8)?;
/// store.apply(&[
///     Edit::Insert { key: 7, value: b"old" },
///     Edit::Update { key: 7, value: b"new" },
///     Edit::Insert { key: 8, value: b"99.50" },
///     Edit::Delete { key: 7 },
/// ])?;
/// assert_eq!((store.get(7), store.get(8)), (None, Some(&b"99.50"[..])));
///
/// let empty = Edit::Update { key: 8, value: b"" };
/// assert_eq!(store.apply(&[empty]), Err(Refusal::EmptyValue { edit: 0 }));
/// # Ok::<(), Refusal>(())
/// ```
///
/// The value of an insert or update has 1 to 200 bytes. Nothing is refused before
/// the list is: an empty value is put into it as it is, and refused with the list, by
/// [`EmptyValue`](crate::Refusal::EmptyValue), as one too long is by
/// [`LongValue`](crate::Refusal::LongValue). A store may hold empty values from
/// before document 02 (g): they are found, and can be updated to longer ones or
/// deleted.
#[derive(Clone, Copy, Debug, PartialEq, Eq)]
pub enum Edit<'a> {
    /// A new key with its value.
    Insert { key: u64, value: &'a [u8] },
    /// A new value for a key that is there.
    Update { key: u64, value: &'a [u8] },
    /// The key and its value dropped.
    Delete { key: u64 },
}

/// The bytes of an edit before its value: "kind, value length, key (8)".
const HEAD: usize = 10;

/// The edits end to end, as [`calls::transaction`](crate::calls::transaction)
/// and [`calls::preview`](crate::calls::preview) read them: "kind, value
/// length, key (8), value".
///
/// Nothing is refused here: an empty value has length 0 in the list, and the calls
/// refuse that. A length is one byte. A value of more than 255 bytes is cut to 255,
/// which is refused as the whole would be, since 200 are the most.
///
/// ```
/// use quote_store::{encode, Edit};
///
/// let list = encode(&[Edit::Update { key: 258, value: b"9" }, Edit::Delete { key: 1 }]);
/// assert_eq!(list[..11], [2, 1, 2, 1, 0, 0, 0, 0, 0, 0, b'9']);
/// assert_eq!(list[11..], [3, 0, 1, 0, 0, 0, 0, 0, 0, 0]);
/// assert_eq!(encode(&[Edit::Insert { key: 1, value: b"" }]), [1, 0, 1, 0, 0, 0, 0, 0, 0, 0]);
/// ```
pub fn encode(edits: &[Edit]) -> Vec<u8> {
    let mut list = Vec::new();
    for edit in edits {
        edit.push(&mut list);
    }
    list
}

/// The value that stands at this offset of the edits' list, which is not
/// refused, so that no value was cut.
pub(crate) fn value_at<'a>(edits: &[Edit<'a>], offset: usize) -> Option<&'a [u8]> {
    let mut start = 0;
    edits.iter().find_map(|edit| {
        let (_, _, value) = edit.parts();
        let at = start + HEAD;
        start = at + value.len();
        (at == offset).then_some(value)
    })
}

impl<'a> Edit<'a> {
    /// Kind, key and value.
    fn parts(self) -> (u8, u64, &'a [u8]) {
        match self {
            Edit::Insert { key, value } => (1, key, value),
            Edit::Update { key, value } => (2, key, value),
            Edit::Delete { key } => (3, key, &[]),
        }
    }

    fn push(self, list: &mut Vec<u8>) {
        let (kind, key, value) = self.parts();
        let length = value.len().min(255);
        list.extend([kind, length as u8]);
        list.extend(key.to_le_bytes());
        list.extend(&value[..length]);
    }
}
