//! The two kinds of device.

/// What the device of a store writes whole when the power fails. Nothing in an
/// image says on which one it is: a program that works with memory of words alone
/// says so each time that it makes or opens a store.
///
/// ```
/// use quote_store::{CommitPlace, Device, Edit, Store};
///
/// let insert = [Edit::Insert { key: 101, value: b"101.25" }];
/// let mut store = Store::fresh(8)?;
/// assert_eq!(store.apply(&insert)?.place, CommitPlace::Header { page: 2 });
///
/// let mut store = Store::fresh_on(Device::Words, 8)?;
/// assert_eq!(store.apply(&insert)?.place, CommitPlace::Log);
/// # Ok::<(), quote_store::Refusal>(())
/// ```
#[derive(Clone, Copy, Debug, Default, PartialEq, Eq)]
pub enum Device {
    /// A line of 64 bytes: its commands are word stores, line stores, flushes and
    /// barriers.
    #[default]
    Lines,
    /// A word of 8 bytes alone: its commands are word stores, flushes and barriers.
    /// Each header that a transaction changes goes through the log.
    Words,
}
