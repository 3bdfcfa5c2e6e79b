//! Redo-log transactions of document 002.
//!
//! The rules:
//! - Section 4.2: each write puts its new bytes into the log as a record: here
//!   address, length, "a pointer to the previous redo log record for that
//!   object", and the bytes; records lie end to end. Commit persists the log;
//!   then the state COMMITTED; then the log is applied and the writes are
//!   persisted; then the state IDLE. One barrier each, four in all.
//! - Section 5: allocations cost no more barriers: their log goes with the first,
//!   their bits with the third.
//! - Section 3: a new object is written with no log, and is durable with the
//!   first barrier.
//!
//! A write is a range of changed words, counted once, and two are one where no
//! more clean bytes are between them than a second record would add. Left out,
//! in favour of redo: that a program writes header fields anew with each edit;
//! the bitmap of writers in each object and the table for lookups, which need not
//! persist; the chunks of the log and where it ends.

use super::allocation::log_and_bits;
use super::change::{bytes, joined, lines, Change};
use super::{stored, Counts, BARRIER, WORD_MADE_DURABLE};

const ADDRESS_LENGTH_PREVIOUS: usize = 24;

pub fn counts(change: &Change) -> Counts {
    let writes = joined(change.in_old_pages(), ADDRESS_LENGTH_PREVIOUS);
    let log = ADDRESS_LENGTH_PREVIOUS * writes.len() + bytes(writes.iter());
    let log = stored(log, log.div_ceil(64));
    let new_pages = stored(bytes(change.in_new_pages()), lines(change.in_new_pages()));
    let applied = stored(bytes(change.in_old_pages()), lines(change.in_old_pages()));
    let (allocations, bits) = log_and_bits(change.taken.len() + change.freed.len());
    let commit = log + new_pages + allocations + BARRIER + WORD_MADE_DURABLE;
    commit + applied + bits + BARRIER + WORD_MADE_DURABLE
}

#[cfg(test)]
mod tests {
    use super::*;

    /// A record of 32 bytes, the state, the data, the state.
    #[test]
    fn one_word() {
        let change = Change::of(&[(2096, 2104)], &[], &[]);
        let hand = Counts {
            flushes: 4,
            barriers: 4,
            bytes: 32 + 8 + 8 + 8,
        };
        assert_eq!(counts(&change), hand);
    }

    /// 32 clean bytes, then 24: records of 24 + 8 and 24 + 40 bytes, two lines;
    /// the data are three words in two lines.
    #[test]
    fn three_words_in_two_lines() {
        let change = Change::of(&[(2048, 2056), (2088, 2096), (2120, 2128)], &[], &[]);
        let hand = Counts {
            flushes: 2 + 1 + 2 + 1,
            barriers: 4,
            bytes: (32 + 64) + 8 + 24 + 8,
        };
        assert_eq!(counts(&change), hand);
    }

    #[test]
    fn a_new_page_for_an_old_one() {
        let change = Change::of(&[(2048, 2056), (7168, 7184)], &[7], &[3]);
        let hand = Counts {
            // Log, new page, allocation log; state; data, bits; state.
            flushes: 3 + 1 + 2 + 1,
            barriers: 4,
            bytes: (32 + 16 + 32) + 8 + (8 + 16) + 8,
        };
        assert_eq!(counts(&change), hand);
    }
}
