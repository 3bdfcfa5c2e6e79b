//! NVWAL: a write-ahead log of the changed parts of pages in persistent memory.
//!
//! The rules, all of document 001:
//! - Section 3.2: a frame is a header of 32 bytes and the dirty portion of a
//!   page. Read in NVWAL's favour: a page has a frame for each of its dirty
//!   portions, and two are one where no more clean bytes are between them than
//!   a second header has. (The text also allows one frame from a page's first
//!   dirty byte to its last, which costs more.)
//! - Section 3.3: a page with no frame in the log yet is logged whole. Pages
//!   reached before have one here; a new page has none.
//! - Algorithm 1: frames are copied one behind the other, then each is flushed
//!   by itself, so that a line shared by two frames is flushed twice; one
//!   persist barrier; the commit mark, 8 bytes in the last frame's header
//!   (section 4.1), its flush and a second persist barrier.
//!
//! Left out, all in NVWAL's favour: blocks of the log and their allocation
//! (section 3.3), the pointer to the next frame, checkpoints to the database
//! file (section 4.3), memory barriers that are no persist barriers, and that
//! SQLite's B-tree would place records in other ways. Its asynchronous commit
//! (section 4.2) is not modelled: a power failure may break it.

use super::change::{joined, lines, Change};
use super::{stored, Counts, BARRIER, WORD_MADE_DURABLE};
use reference::device::PAGE;
use std::ops::Range;

const FRAME_HEADER: usize = 32;

pub fn counts(change: &Change) -> Counts {
    let mut counts = Counts::default();
    let mut end = 0;
    for portion in portions(change) {
        let frame = end..end + FRAME_HEADER + portion.len();
        end = frame.end;
        counts += stored(frame.len(), lines([frame].iter()));
    }
    counts + BARRIER + WORD_MADE_DURABLE
}

/// The dirty portions of all pages, new pages whole.
fn portions(change: &Change) -> Vec<Range<usize>> {
    let whole = change
        .taken
        .iter()
        .map(|page| page * PAGE..(page + 1) * PAGE);
    let mut portions = joined(change.in_old_pages(), FRAME_HEADER);
    portions.extend(whole);
    portions
}

#[cfg(test)]
mod tests {
    use super::*;

    /// Two frames, of 32 + 16 and 32 + 24 bytes: the first in line 0, the
    /// second in lines 0 and 1; then the mark.
    #[test]
    fn a_header_and_a_record() {
        let change = Change::of(&[(2048, 2064), (3000, 3024)], &[], &[]);
        let hand = Counts {
            flushes: 1 + 2 + 1,
            barriers: 2,
            bytes: 48 + 56 + 8,
        };
        assert_eq!(counts(&change), hand);
    }

    /// Two words with 32 clean bytes between them are one frame of 32 + 48.
    #[test]
    fn portions_near_each_other() {
        let change = Change::of(&[(2048, 2056), (2088, 2096)], &[], &[]);
        let hand = Counts {
            flushes: 2 + 1,
            barriers: 2,
            bytes: 80 + 8,
        };
        assert_eq!(counts(&change), hand);
    }

    /// A frame of 32 + 1,024 bytes is 17 lines.
    #[test]
    fn a_new_page_is_logged_whole() {
        let change = Change::of(&[(7168, 7184), (8000, 8192)], &[7], &[]);
        let hand = Counts {
            flushes: 17 + 1,
            barriers: 2,
            bytes: 1056 + 8,
        };
        assert_eq!(counts(&change), hand);
    }
}
