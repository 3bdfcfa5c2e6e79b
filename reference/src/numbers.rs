//! Answers as the numbers of the proved library's C interface, to compare the
//! two.

use crate::preview::Preview;
use crate::recovery::Recovered;
use crate::tape::CommitPlace;
use crate::transaction::Accepted;
use crate::Refusal;

/// A transaction's: 0 or the refusal's number, and five numbers: edit number,
/// kind of the commit place (1 header, 2 root word, 3 log), page of a header,
/// bytes and flushes.
pub fn of_transaction(answer: &Result<Accepted, Refusal>) -> (u8, [u64; 5]) {
    match answer {
        Ok(accepted) => {
            let (kind, page) = match accepted.place {
                CommitPlace::Header { page } => (1, page),
                CommitPlace::Root => (2, 0),
                CommitPlace::Log => (3, 0),
            };
            let five = [0, kind, page, accepted.bytes, accepted.flushes];
            (0, five.map(|number| number as u64))
        }
        Err(refusal) => (refusal.number, [refusal.edit as u64, 0, 0, 0, 0]),
    }
}

/// Recovery's: 0 or the refusal's number; bytes and flushes only if accepted.
pub fn of_recovery(answer: &Result<Recovered, Refusal>) -> (u8, Option<[u64; 2]>) {
    match answer {
        Ok(recovered) => {
            let two = [recovered.bytes, recovered.flushes];
            (0, Some(two.map(|number| number as u64)))
        }
        Err(refusal) => (refusal.number, None),
    }
}

/// Whether work holds the image after this refusal of a transaction or a
/// recovery. "From 8 on" goes by the order of judging, in which 19 comes before
/// 8: document 02 (g) has it "in the list check".
pub fn work_holds_image(number: u8) -> bool {
    (8..=13).contains(&number)
}

/// A preview's: 0 or the refusal's number, and four numbers: edit number, which
/// buffer has the value (1 the edit list, 2 the image, 0 none), offset and
/// length.
pub fn of_preview(answer: &Result<Preview, Refusal>) -> (u8, [u64; 4]) {
    match answer {
        Ok(found) => {
            let four = match *found {
                Preview::InList { offset, length } => [0, 1, offset, length],
                Preview::InImage { offset, length } => [0, 2, offset, length],
                Preview::Missing => [0; 4],
            };
            (0, four.map(|number| number as u64))
        }
        Err(refusal) => (refusal.number, [refusal.edit as u64, 0, 0, 0]),
    }
}
