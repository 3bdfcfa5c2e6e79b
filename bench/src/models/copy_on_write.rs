//! Copy-on-write transactions of document 002.
//!
//! The rules:
//! - Section 4.3: an object is a wrapper and its payload. Here a page is an
//!   object, and so is line 0 of page 0. Before a write the payload is copied
//!   whole, and the wrapper gets pointers to the new and the old one, and the
//!   writer; the write set lists the object. All that is persisted by the first
//!   barrier, the state COMMITTED by the second.
//! - Cleanup: in each wrapper the new payload becomes the real one and the
//!   pointer to it is cleared, and the old payload is freed: third barrier. The
//!   state IDLE: fourth. Then the writer is cleared, with no flush.
//! - Section 5: the log of allocations, one for each copy, and of the old
//!   payloads freed goes with the first barrier, their bits with the third.
//! - Section 3: a new page is written as it is; its wrapper, one pointer, too.
//!
//! Left out: with smaller objects less would be copied, and there would be more
//! wrappers; the paper says that the objects are the program's. Copies are
//! aligned to lines. A wrapper lies in one line, and no two in the same.

use super::allocation::log_and_bits;
use super::change::{bytes, lines, Change};
use super::{stored, Counts, BARRIER, WORD_MADE_DURABLE};
use reference::device::{LINE, PAGE};
use std::collections::BTreeSet;

const POINTER: usize = 8;

pub fn counts(change: &Change) -> Counts {
    let pages: BTreeSet<usize> = change.in_old_pages().map(|r| r.start / PAGE).collect();
    let objects = pages.len();
    let payloads: usize = pages.iter().map(|&page| payload(page)).sum();
    let copies = stored(payloads, payloads / LINE);
    let opened = stored(3 * POINTER * objects, objects);
    let new_pages = stored(bytes(change.in_new_pages()), lines(change.in_new_pages()));
    let made = stored(POINTER * change.taken.len(), change.taken.len());
    let set = POINTER * objects;
    let set = stored(set, set.div_ceil(LINE));
    let requests = 2 * objects + change.taken.len() + change.freed.len();
    let (allocations, bits) = log_and_bits(requests);
    let first = copies + opened + new_pages + made + set + allocations + BARRIER;
    let cleaned = stored(2 * POINTER * objects, objects);
    let writers = stored(POINTER * objects, 0);
    first + WORD_MADE_DURABLE + cleaned + bits + BARRIER + WORD_MADE_DURABLE + writers
}

/// How many bytes are copied with this page.
fn payload(page: usize) -> usize {
    match page {
        0 => LINE,
        _ => PAGE,
    }
}

#[cfg(test)]
mod tests {
    use super::*;

    /// Two words of one page: the page, its wrapper, the write set, a log of
    /// two requests; the state; the wrapper and the bits; the state.
    #[test]
    fn one_page() {
        let change = Change::of(&[(2048, 2056), (3000, 3008)], &[], &[]);
        let hand = Counts {
            flushes: (16 + 1 + 1 + 1) + 1 + (1 + 1) + 1,
            barriers: 4,
            bytes: (1024 + 24 + 8 + 32) + 8 + (16 + 16) + 8 + 8,
        };
        assert_eq!(counts(&change), hand);
    }

    /// The root word and a new page for an old one: line 0 is copied, with two
    /// requests for it and one for each page.
    #[test]
    fn the_root_and_a_new_page() {
        let change = Change::of(&[(8, 16), (7168, 7184)], &[7], &[3]);
        let hand = Counts {
            flushes: (1 + 1 + 1 + 1 + 1 + 1) + 1 + (1 + 1) + 1,
            barriers: 4,
            bytes: (64 + 24 + 16 + 8 + 8 + 64) + 8 + (16 + 32) + 8 + 8,
        };
        assert_eq!(counts(&change), hand);
    }
}
