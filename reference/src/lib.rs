//! The quote store once more, written from documents 01 and 02 alone, in the
//! plainest way. It is no part of the proved store: the proved one is compared
//! with it.

pub mod cost;
pub mod cuts;
pub mod device;
pub mod edits;
pub mod image;
pub mod ledger;
pub mod merge;
pub mod numbers;
pub mod page;
pub mod preview;
pub mod recovery;
pub mod sheet;
pub mod tape;
pub mod transaction;

/// Document 01, 'Each call and when it says no': "A refusal gives its number
/// and edit number from 0 (0 unless 5 to 11 in a transaction)." Document 02 (a)
/// has them in a preview too, and (g) has 19 "with its edit's number".
#[derive(Clone, Copy, Debug, PartialEq, Eq)]
pub struct Refusal {
    pub number: u8,
    pub edit: usize,
}

/// A refusal that names no edit.
pub fn refuse<T>(number: u8) -> Result<T, Refusal> {
    Err(Refusal { number, edit: 0 })
}
