//! What accepted calls answer.

/// Document 01: "The answer names the commit place: a header, the root word or
/// the log."
///
/// ```
/// use quote_store::{CommitPlace, Edit, Store};
///
/// let mut store = Store::fresh(8)?;
/// let commit = store.apply(&[Edit::Insert { key: 101, value: b"101.25" }])?;
/// assert_eq!(commit.place, CommitPlace::Header { page: 2 });
/// # Ok::<(), quote_store::Refusal>(())
/// ```
#[derive(Clone, Copy, Debug, PartialEq, Eq)]
pub enum CommitPlace {
    /// The header of this page, the only one that the edits change; not on
    /// [`Device::Words`](crate::Device::Words).
    Header { page: usize },
    /// The root word: the edits made a new root, an index page or a top page.
    Root,
    /// The log, for edits that change more than one header, or a header and the
    /// root word; on [`Device::Words`](crate::Device::Words) for any header.
    Log,
}

/// An accepted transaction.
///
/// ```
/// use quote_store::{Edit, Store};
///
/// let mut store = Store::fresh(8)?;
/// let commit = store.apply(&[Edit::Insert { key: 101, value: &[1; 8] }])?;
/// assert_eq!((commit.bytes, commit.flushes), (120, 2));
/// assert_eq!(store.take_tape().len(), 120);
/// # Ok::<(), quote_store::Refusal>(())
/// ```
#[derive(Clone, Copy, Debug, PartialEq, Eq)]
pub struct Commit {
    pub place: CommitPlace,
    /// The tape bytes used.
    pub bytes: usize,
    /// The flush commands on the tape; barriers are not counted. With line stores a
    /// list of one insert or update that its leaf has room for has 6 at most, and 2
    /// barriers, and one of a delete that leaves the leaf a quote has 1, and 1
    /// barrier: this is proved.
    pub flushes: usize,
}

impl Commit {
    /// From the numbers of an accepted call, the edit number left out.
    pub(crate) fn of([place, page, bytes, flushes]: [usize; 4]) -> Commit {
        let place = match place {
            1 => CommitPlace::Header { page },
            2 => CommitPlace::Root,
            3 => CommitPlace::Log,
            _ => unreachable!("the store names one of three places, not {place}"),
        };
        Commit {
            place,
            bytes,
            flushes,
        }
    }
}

/// An accepted recovery; without bytes if no commit was waiting.
///
/// ```
/// use quote_store::{calls, Recovery, Store};
///
/// let image = Store::fresh(8)?.image().to_vec();
/// let mut work = image.clone();
/// let recovery = calls::recover(&image, &mut work, &mut [])?;
/// assert_eq!(recovery, Recovery { bytes: 0, flushes: 0 });
/// # Ok::<(), quote_store::Refusal>(())
/// ```
#[derive(Clone, Copy, Debug, PartialEq, Eq)]
pub struct Recovery {
    /// The tape bytes used.
    pub bytes: usize,
    /// The flush commands on the tape; barriers are not counted.
    pub flushes: usize,
}
