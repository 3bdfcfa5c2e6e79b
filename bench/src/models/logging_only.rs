//! Slot-header logging for every transaction, with no in-place commit: FASH of
//! document 000, section 4.1, "even if a transaction inserts a single record".
//!
//! The rule: as this store, but each changed header goes through the log, one
//! alone too. Records first, then log lines, mark, headers, mark cleared.
//!
//! This is also what document 02 (d) asks of this store where memory has no line
//! stores.
//!
//! Left out: a root change with no header changed, which has nothing to log,
//! still commits by the root word, as in this store. FASH's headers may be
//! longer than a line; here they are one line, as in this store.

use super::change::{bytes, lines, Change};
use super::{stored, Counts, BARRIER, WORD_MADE_DURABLE};
use reference::device::{LINE, PAGE, WORD};
use std::collections::BTreeSet;
use std::ops::Range;

pub fn counts(change: &Change) -> Counts {
    let root = change.ranges.iter().any(|range| range.start < PAGE);
    let headers = changed_headers(change).len();
    let ranges = change.ranges.iter();
    let records: Vec<Range<usize>> = ranges.filter_map(|range| outside(change, range)).collect();
    let mut counts = stored(bytes(records.iter()), lines(records.iter()));
    if !records.is_empty() {
        counts += BARRIER;
    }
    if headers == 0 {
        return counts + WORD_MADE_DURABLE;
    }
    let each = stored(LINE * headers, headers) + BARRIER;
    // Into the log, the mark, into the pages, the mark cleared; the root word
    // lies in the mark's line.
    counts += each + WORD_MADE_DURABLE + each + WORD_MADE_DURABLE;
    counts + stored(if root { WORD } else { 0 }, 0)
}

/// The pages that stay and whose header is changed.
fn changed_headers(change: &Change) -> BTreeSet<usize> {
    let first = change.in_old_pages().filter(|range| range.start >= PAGE);
    let headers = first.filter(|range| range.start % PAGE < LINE);
    headers.map(|range| range.start / PAGE).collect()
}

/// The part of a range that is stored before the log: outside page 0 and
/// outside the headers of pages that stay.
fn outside(change: &Change, range: &Range<usize>) -> Option<Range<usize>> {
    let page = range.start / PAGE;
    let from = match page {
        0 => return None,
        _ if change.taken.contains(&page) => range.start,
        _ => range.start.max(page * PAGE + LINE),
    };
    (from < range.end).then_some(from..range.end)
}

#[cfg(test)]
mod tests {
    use super::*;
    use crate::{models::store, workloads};
    use reference::tape::CommitPlace;

    /// A record of 24 bytes in one line and one header: the header twice, mark
    /// twice. One line, one in the log, the mark, one header, the mark.
    #[test]
    fn one_record() {
        let change = Change::of(&[(2048, 2064), (3008, 3032)], &[], &[]);
        let hand = Counts {
            flushes: 5,
            barriers: 5,
            bytes: 24 + 64 + 8 + 64 + 8,
        };
        assert_eq!(counts(&change), hand);
    }

    /// A delete changes a header and nothing else, so the first barrier is not
    /// needed.
    #[test]
    fn one_delete() {
        let change = Change::of(&[(2048, 2064)], &[], &[]);
        let hand = Counts {
            flushes: 4,
            barriers: 4,
            bytes: 64 + 8 + 64 + 8,
        };
        assert_eq!(counts(&change), hand);
    }

    /// The header of a new page is a record like others; the root word has no
    /// flush of its own, as the mark's line is flushed after it.
    #[test]
    fn a_new_page_and_the_root() {
        let change = Change::of(&[(8, 16), (2048, 2056), (7168, 7184)], &[7], &[]);
        let hand = Counts {
            flushes: 5,
            barriers: 5,
            bytes: 16 + 64 + 8 + 64 + 8 + 8,
        };
        assert_eq!(counts(&change), hand);
    }

    #[test]
    fn the_root_alone() {
        let change = Change::of(&[(8, 16), (7168, 7184)], &[7], &[]);
        let hand = Counts {
            flushes: 2,
            barriers: 2,
            bytes: 16 + 8,
        };
        assert_eq!(counts(&change), hand);
    }

    /// Where this store needs the log too, the two are the same. Without line
    /// stores they are so everywhere: a header's words are as many bytes.
    #[test]
    fn as_this_store_where_it_logs() {
        let mut logged = 0;
        for workload in workloads::all() {
            workload.each(|done| {
                let counts = counts(&done.change);
                assert_eq!(counts, store::counts(&done.tape_of_words));
                if done.place == CommitPlace::Log {
                    assert_eq!(counts, store::counts(&done.tape));
                    logged += 1;
                }
            });
        }
        assert!(logged > 1_000, "few transactions were logged: {logged}");
    }
}
