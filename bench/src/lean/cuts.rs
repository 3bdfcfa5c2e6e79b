//! Count cuts and nth cut in one pass over the tape, in which the product of all
//! choices goes from command to command, without a division.
//!
//! Why the raw pointers are sound: `judge` reads no byte outside the tape, and its
//! lines are of the image, so below `LINES`.

use super::device::{judge, BARRIER, FLUSH, LINES};
use super::good_length;
use std::mem::MaybeUninit;

/// The most commands of a tape.
const MOST: usize = 12;

/// A number up to 4,096 times `SHARE[p]`, without its last 16 bits, is the number
/// divided by p + 1.
const SHARE: [u32; 16] = {
    let (mut all, mut p) = ([0; 16], 0);
    while p < all.len() {
        all[p] = 65_536_u32.div_ceil(p as u32 + 1);
        p += 1;
    }
    all
};

/// The pending stores of each line, how many of them a flush covers that no barrier
/// followed yet, and the lines of these flushes; and the product of all choices.
struct Pending {
    stores: *mut u8,
    flushed: *mut u8,
    lines: [MaybeUninit<u16>; MOST],
    flushes: usize,
    product: u32,
}

impl Pending {
    /// None so far. What `flushed` holds is read only of lines that were flushed.
    #[inline(always)]
    fn new(space: &mut MaybeUninit<[[u8; LINES]; 2]>, image: &[u8]) -> Pending {
        let stores = space.as_mut_ptr() as *mut u8;
        unsafe { stores.write_bytes(0, LINES.min(image.len() / 64)) };
        Pending {
            stores,
            flushed: unsafe { stores.add(LINES) },
            lines: [MaybeUninit::uninit(); MOST],
            flushes: 0,
            product: 1,
        }
    }

    /// One command more, of 12 at most.
    #[inline(always)]
    unsafe fn add(&mut self, line: usize, kind: u32) {
        match kind {
            FLUSH => {
                *self.flushed.add(line) = *self.stores.add(line);
                self.lines
                    .get_unchecked_mut(self.flushes)
                    .write(line as u16);
                self.flushes += 1;
            }
            BARRIER => {
                while self.flushes > 0 {
                    self.flushes -= 1;
                    let line = self.lines.get_unchecked(self.flushes).assume_init() as usize;
                    let durable = std::mem::take(&mut *self.flushed.add(line));
                    self.set(line, *self.stores.add(line) - durable);
                }
            }
            _ => self.set(line, *self.stores.add(line) + 1),
        }
    }

    /// The product with another factor for this line.
    #[inline(always)]
    unsafe fn set(&mut self, line: usize, stores: u8) {
        let before = std::mem::replace(&mut *self.stores.add(line), stores) as usize;
        self.product = (self.product * SHARE[before % 16] >> 16) * (stores as u32 + 1);
    }
}

pub fn count_cuts(image: &[u8], tape: &[u8], answer: &mut [u64; 1]) -> u8 {
    let mut space = MaybeUninit::uninit();
    let mut pending = Pending::new(&mut space, image);
    let mut cuts = 1;
    let number = unsafe {
        each_command(image, tape, |line, kind| {
            pending.add(line, kind);
            cuts += pending.product;
        })
    };
    if number == 0 {
        *answer = [cuts as u64];
    }
    number
}

pub fn nth_cut(
    image: &[u8],
    tape: &[u8],
    r: usize,
    choices: &mut [u8],
    answer: &mut [u64; 1],
) -> u8 {
    let mut space = MaybeUninit::uninit();
    let mut pending = Pending::new(&mut space, image);
    // A bit for each line that is named before the cut.
    let mut named = [0_u64; LINES / 64];
    let (mut c, mut rest) = (0, r);
    let number = unsafe {
        each_command(image, tape, |line, kind| {
            if rest >= pending.product as usize {
                rest -= pending.product as usize;
                pending.add(line, kind);
                *named.get_unchecked_mut(line / 64) |= 1 << (line % 64);
                c += 1;
            }
        })
    };
    if number != 0 {
        return number;
    }
    if choices.len() != image.len() / 64 {
        return 16;
    }
    if rest >= pending.product as usize {
        return 18;
    }
    unsafe { put(rest as u32, choices, pending.stores, &named) };
    *answer = [c];
    0
}

/// Calls `each` with the commands of a tape, 12 at most, as `judge` does; 0, or the
/// refusal's number.
#[inline(always)]
unsafe fn each_command(image: &[u8], tape: &[u8], mut each: impl FnMut(usize, u32)) -> u8 {
    if !good_length(image.len()) {
        return 1;
    }
    let mut count = 0;
    let range = tape.as_ptr_range();
    let good = judge(range.start, range.end, image.len(), |_, line, kind| {
        if count < MOST {
            each(line, kind);
        }
        count += 1;
    });
    match (good, count) {
        (false, _) => 14,
        (true, 0..=MOST) => 0,
        _ => 17,
    }
}

/// Writes the choices with this number: the last line's changes fastest.
#[inline(always)]
unsafe fn put(number: u32, choices: &mut [u8], pending: *const u8, named: &[u64; LINES / 64]) {
    choices.fill(0);
    let mut rest = number;
    for i in (0..choices.len().div_ceil(64)).rev() {
        let mut bits = *named.get_unchecked(i);
        while bits != 0 {
            let last = bits.ilog2() as usize;
            let most = *pending.add(64 * i + last) as usize;
            let share = rest * SHARE[most % 16] >> 16;
            *choices.get_unchecked_mut(64 * i + last) = (rest - share * (most as u32 + 1)) as u8;
            rest = share;
            bits ^= 1 << last;
        }
    }
}
