//! Undo-log transactions of document 002.
//!
//! The rules:
//! - Section 4.1: before each write its old bytes go to the log as a record:
//!   sentinel, transaction version, contents, checksum, 8 bytes each but the
//!   contents, which are here address, length and the old bytes. One barrier
//!   each. Then the log's tail is stored, and flushed with what comes next.
//!   Records lie end to end, the first at a line's start.
//! - Commit: the writes are flushed, one barrier; a commit record, here one
//!   with no contents, one barrier.
//! - Only if memory was allocated or freed (section 5): the bits are made
//!   durable, then the state IDLE, one barrier each.
//! - Section 3: a new object is written with no log and flushed by the commit.
//!
//! A write is a range of changed words, counted once, and two are one where no
//! more clean bytes are between them than a second record would add. Left out,
//! in favour of undo: that a program writes header fields anew with each edit;
//! the chunks of the log and its tail after the commit record; the version
//! number; states that need not persist.

use super::allocation::log_and_bits;
use super::change::{bytes, joined, lines, Change};
use super::{stored, Counts, BARRIER, WORD_MADE_DURABLE};

const SENTINEL_VERSION_CHECKSUM: usize = 24;
const ADDRESS_AND_LENGTH: usize = 16;

pub fn counts(change: &Change) -> Counts {
    let mut log = Log::default();
    let head = SENTINEL_VERSION_CHECKSUM + ADDRESS_AND_LENGTH;
    for write in joined(change.in_old_pages(), head) {
        log.append(ADDRESS_AND_LENGTH + write.len());
        // The tail lies in a line by itself.
        log.counts += stored(8, 1);
    }
    let requests = change.taken.len() + change.freed.len();
    let (allocations, bits) = log_and_bits(requests);
    let data = stored(bytes(change.ranges.iter()), lines(change.ranges.iter()));
    log.counts += data + allocations + BARRIER;
    log.append(0);
    match requests {
        0 => log.counts,
        _ => log.counts + bits + BARRIER + WORD_MADE_DURABLE,
    }
}

/// The log so far: where the next record goes, and what it cost.
#[derive(Default)]
struct Log {
    end: usize,
    counts: Counts,
}

impl Log {
    /// A record and its barrier.
    fn append(&mut self, contents: usize) {
        let record = self.end..self.end + SENTINEL_VERSION_CHECKSUM + contents;
        self.end = record.end;
        self.counts += stored(record.len(), lines([record].iter())) + BARRIER;
    }
}

#[cfg(test)]
mod tests {
    use super::*;

    /// A write of 8 bytes: a record of 48 bytes in line 0 and the tail; the
    /// data line; a commit record of 24 bytes in lines 0 and 1.
    #[test]
    fn one_word() {
        let change = Change::of(&[(2096, 2104)], &[], &[]);
        let hand = Counts {
            flushes: (1 + 1) + 1 + 2,
            barriers: 3,
            bytes: (48 + 8) + 8 + 24,
        };
        assert_eq!(counts(&change), hand);
    }

    /// 40 clean bytes between two words of a line: one record of 40 + 56 bytes in
    /// lines 0 and 1, and a commit record from 96 to 120 in line 1.
    #[test]
    fn two_words_of_a_line() {
        let change = Change::of(&[(2048, 2056), (2096, 2104)], &[], &[]);
        let hand = Counts {
            flushes: (2 + 1) + 1 + 1,
            barriers: 3,
            bytes: (96 + 8) + 16 + 24,
        };
        assert_eq!(counts(&change), hand);
    }

    /// 48 clean bytes: two records of 48 bytes, the second in lines 0 and 1; two
    /// data lines; a commit record from 96 to 120.
    #[test]
    fn two_words_apart() {
        let change = Change::of(&[(2048, 2056), (2104, 2112)], &[], &[]);
        let hand = Counts {
            flushes: (1 + 1) + (2 + 1) + 1 + 1,
            barriers: 4,
            bytes: 2 * (48 + 8) + 16 + 24,
        };
        assert_eq!(counts(&change), hand);
    }

    /// A new page is not logged; its request is, and its bit and the state
    /// follow the commit.
    #[test]
    fn a_new_page() {
        let change = Change::of(&[(7168, 7184)], &[7], &[]);
        let hand = Counts {
            // Data, allocation log; commit record; bit; state.
            flushes: (1 + 1) + 1 + 1 + 1,
            barriers: 1 + 1 + 1 + 1,
            bytes: (16 + 16) + 24 + 8 + 8,
        };
        assert_eq!(counts(&change), hand);
    }
}
