//! Run and cut in two passes over the tape: judge it, in cut with a note of each
//! line's flushes, then make its stores.
//!
//! Why the raw pointers are sound: the first pass judges every command to lie
//! whole on the tape, at a place inside the image; the second reads only such
//! commands, and work is as long as the image.

use super::good_length;
use std::mem::MaybeUninit;
use std::ptr::copy_nonoverlapping;

/// The most lines of an image.
pub(super) const LINES: usize = 1024;

/// The kinds of the commands that store nothing.
pub(super) const FLUSH: u32 = 3;
pub(super) const BARRIER: u32 = 4;

pub fn run(image: &[u8], work: &mut [u8], tape: &[u8]) -> u8 {
    let length = image.len();
    if !good_length(length) {
        return 1;
    }
    if work.len() != length {
        return 2;
    }
    let range = tape.as_ptr_range();
    unsafe {
        if !judge(range.start, range.end, length, |_, _, _| {}) {
            return 14;
        }
        copy_nonoverlapping(image.as_ptr(), work.as_mut_ptr(), length);
        let mut at = range.start;
        while at < range.end {
            at = step(at, work.as_mut_ptr(), |_| true);
        }
    }
    0
}

pub fn cut(image: &[u8], work: &mut [u8], tape: &[u8], c: usize, choices: &[u8]) -> u8 {
    let length = image.len();
    if !good_length(length) {
        return 1;
    }
    if work.len() != length {
        return 2;
    }
    if choices.len() != length / 64 {
        return 16;
    }
    unsafe { cut_lines(image, work, tape, c, choices) }
}

/// Where a line's last flush stands on the tape, and where the last one stands that
/// a barrier was seen after.
#[derive(Clone, Copy)]
struct Flushes {
    last: *const u8,
    done: *const u8,
}

impl Flushes {
    /// The last flush that a barrier comes after, where the last barrier is `fence`.
    #[inline(always)]
    fn done_before(&self, fence: *const u8) -> *const u8 {
        if self.last < fence {
            self.last
        } else {
            self.done
        }
    }

    #[inline(always)]
    fn note(&mut self, at: *const u8, fence: *const u8) {
        self.done = self.done_before(fence);
        self.last = at;
    }
}

/// `left` counts of each line the stores that are not durable and still to be kept.
unsafe fn cut_lines(image: &[u8], work: &mut [u8], tape: &[u8], c: usize, choices: &[u8]) -> u8 {
    let mut space = MaybeUninit::<[Flushes; LINES]>::uninit();
    let lines = space.as_mut_ptr() as *mut Flushes;
    lines.write_bytes(0, choices.len());
    let mut space = MaybeUninit::<[u8; LINES]>::uninit();
    let left = space.as_mut_ptr() as *mut u8;
    copy_nonoverlapping(choices.as_ptr(), left, choices.len());
    let range = tape.as_ptr_range();
    let (mut count, mut fence) = (0, range.start);
    let good = judge(range.start, range.end, image.len(), |at, line, kind| {
        if kind == FLUSH && count < c {
            (*lines.add(line)).note(at, fence);
        } else if kind == BARRIER && count < c {
            fence = at;
        }
        count += 1;
    });
    if !good {
        return 14;
    }
    if c > count {
        return 15;
    }
    copy_nonoverlapping(image.as_ptr(), work.as_mut_ptr(), image.len());
    let mut at = range.start;
    for _ in 0..c {
        at = step(at, work.as_mut_ptr(), |line| {
            if at < (*lines.add(line)).done_before(fence) {
                return true;
            }
            let more = *left.add(line);
            *left.add(line) = more.saturating_sub(1);
            more != 0
        });
    }
    0
}

/// Whether all commands from `at` to `end` are good. Calls `each` with every
/// command's place on the tape, its line and its kind; a barrier's line is 0.
#[inline(always)]
pub(super) unsafe fn judge(
    mut at: *const u8,
    end: *const u8,
    length: usize,
    mut each: impl FnMut(*const u8, usize, u32),
) -> bool {
    while at < end {
        let left = end.offset_from(at) as usize;
        if left < 4 {
            return false;
        }
        let head = (at as *const u32).read_unaligned();
        let place = (head >> 16) as usize;
        // The kind and the zero byte at once. A barrier's place is 0: any other, so
        // shifted, is past the longest image.
        let kind = head & 0xffff;
        let (shift, size) = match kind {
            1 => (3, 12),
            2 => (6, 68),
            3 => (6, 4),
            4 => (16, 4),
            _ => return false,
        };
        if left < size || place << shift >= length {
            return false;
        }
        each(at, place << shift >> 6, kind);
        at = at.add(size);
    }
    true
}

/// Makes the store of one good command if `wanted` says so of its line, and
/// gives where the next command is.
#[inline(always)]
unsafe fn step(at: *const u8, work: *mut u8, mut wanted: impl FnMut(usize) -> bool) -> *const u8 {
    let place = (at.add(2) as *const u16).read_unaligned() as usize;
    match *at {
        1 => {
            if wanted(place / 8) {
                copy_nonoverlapping(at.add(4), work.add(8 * place), 8);
            }
            at.add(12)
        }
        2 => {
            if wanted(place) {
                copy_nonoverlapping(at.add(4), work.add(64 * place), 64);
            }
            at.add(68)
        }
        _ => at.add(4),
    }
}
