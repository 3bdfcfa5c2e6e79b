//! The quote store for programs in Rust: quotes by key in persistent memory, a
//! whole list of edits in one transaction, and after a power failure the store
//! before it or the store after it.
//!
//! [`Store`] holds everything in memory of its own and is the place to begin.
//! [`calls`] has each call of the proved library on buffers that the program
//! lends, for a program whose image is the persistent memory itself.
//! [`Device`] says what the memory writes whole, a line or only a word.
//! [`calls::cuts`] is for tests: every way in which a power failure may cut a
//! small tape.
//! docs/USING.md in the repository says what a device must do with the commands
//! and how long calls take; its README has the limits and the words.
//!
//! ```
//! use quote_store::{Edit, Store};
//!
//! let mut store = Store::fresh(8)?;
//! store.apply(&[
//!     Edit::Insert { key: 101, value: b"101.25" },
//!     Edit::Insert { key: 105, value: b"99.50" },
//! ])?;
//! // A curve shift: looked at before it is sent, then both quotes or neither.
//! let shift = [
//!     Edit::Update { key: 101, value: b"101.50" },
//!     Edit::Update { key: 105, value: b"99.75" },
//! ];
//! assert_eq!(store.preview(&shift, 101)?, Some(&b"101.50"[..]));
//! store.apply(&shift)?;
//! assert_eq!(store.get(101), Some(&b"101.50"[..]));
//! # Ok::<(), quote_store::Refusal>(())
//! ```
//!
//! # Two books into one
//!
//! [`Store::merge`] makes a store with the quotes of two. Its leaves are as full as
//! they can be, so it also moves the quotes of one store to another size: merged with
//! a store that has none.
//!
//! # When a store is full
//!
//! A store with too few free pages refuses inserts, and in time updates too,
//! with [`Refusal::PagesOut`]. Its quotes then move to a larger one, empty values
//! of before [`Refusal::EmptyValue`] too.
//!
//! ```
//! use quote_store::{Edit, Refusal, Store};
//!
//! let mut small = Store::fresh(8)?;
//! let value = b"101.25";
//! let full = (1..).find_map(|key| small.apply(&[Edit::Insert { key, value }]).err());
//! assert_eq!(full, Some(Refusal::PagesOut { edit: 0 }));
//!
//! let mut large = Store::merge(&small, &Store::fresh(8)?, 64)?;
//! assert!(large.iter().eq(&small));
//! large.apply(&[Edit::Insert { key: 1000, value }])?;
//! # Ok::<(), Refusal>(())
//! ```

pub mod calls;
mod commit;
mod cuts;
mod device;
mod edit;
mod preview;
mod refusal;
mod store;

pub use commit::{Commit, CommitPlace, Recovery};
pub use cuts::{Cut, Cuts};
pub use device::Device;
pub use edit::{encode, Edit};
pub use preview::Preview;
pub use refusal::Refusal;
pub use store::{Iter, Store};

/// The program of the README runs as it stands there.
#[cfg(doctest)]
#[doc = include_str!("../../README.md")]
struct Readme;

/// The bytes of a page; an image has 8 to 64 of them.
///
/// ```
/// let mut image = vec![0; 8 * quote_store::PAGE];
/// assert_eq!(quote_store::calls::format(&mut image), Ok(()));
/// ```
pub const PAGE: usize = 1024;

/// The largest key; the smallest is 1.
///
/// ```
/// use quote_store::{calls, Refusal, Store, LAST_KEY};
///
/// let image = Store::fresh(8)?.image().to_vec();
/// assert_eq!(calls::lookup(&image, LAST_KEY), Ok(None));
/// assert_eq!(calls::lookup(&image, LAST_KEY + 1), Err(Refusal::KeyRange { edit: 0 }));
/// # Ok::<(), Refusal>(())
/// ```
pub const LAST_KEY: u64 = 999_999_999_999;

/// The most bytes that a value has; one that an edit brings has at least 1.
///
/// ```
/// use quote_store::{Edit, Refusal, Store, LONGEST_VALUE};
///
/// let mut store = Store::fresh(8)?;
/// let value = [7; LONGEST_VALUE + 1];
/// store.apply(&[Edit::Insert { key: 1, value: &value[1..] }])?;
/// let refused = store.apply(&[Edit::Insert { key: 2, value: &value }]);
/// assert_eq!(refused, Err(Refusal::LongValue { edit: 0 }));
/// # Ok::<(), Refusal>(())
/// ```
pub const LONGEST_VALUE: usize = 200;

/// A tape of this length is never too short for either transaction on an image of
/// this length, which is proved: 100 bytes a line. `include/quote_store.h` says
/// why, beside QUOTE_TAPE_SIZE. It holds a recovery too.
///
/// ```
/// assert_eq!(quote_store::tape_length(8 * quote_store::PAGE), 12_800);
/// ```
pub const fn tape_length(image_length: usize) -> usize {
    image_length / LINE * 100
}

/// The bytes of a line, the unit of a flush; a page has 16. A barrier is for all
/// lines flushed before it.
///
/// ```
/// use quote_store::{calls, LINE, PAGE};
///
/// // No line keeps a store that is not durable.
/// let (image, mut work) = ([0; 8 * PAGE], [9; 8 * PAGE]);
/// calls::cut(&image, &mut work, &[], 0, &[0; 8 * PAGE / LINE])?;
/// assert_eq!(work, image);
/// # Ok::<(), quote_store::Refusal>(())
/// ```
pub const LINE: usize = 64;

/// The most commands of a tape whose cuts [`calls::count_cuts`] counts and
/// [`calls::nth_cut`] gives; it then has 8,191 cuts at most.
///
/// ```
/// use quote_store::{calls, Refusal, MOST_CUT_COMMANDS, PAGE};
///
/// let image = [0; 8 * PAGE];
/// let flush_line_0 = [3, 0, 0, 0];
/// let most = flush_line_0.repeat(MOST_CUT_COMMANDS);
/// assert_eq!(calls::count_cuts(&image, &most), Ok(13));
/// let more = [&most[..], &flush_line_0].concat();
/// assert_eq!(calls::count_cuts(&image, &more), Err(Refusal::LongTape));
/// ```
pub const MOST_CUT_COMMANDS: usize = 12;
