//! Commands written one after the other. The size of the whole tape is known
//! and judged before the first.

use std::ptr::copy_nonoverlapping;

/// The bytes of a word store, a line store, a flush and a barrier.
pub const WORD_STORE: usize = 12;
pub const LINE_STORE: usize = 68;
pub const FLUSH: usize = 4;
pub const BARRIER: usize = 4;

/// Where the next command goes.
pub struct Writer(pub *mut u8);

impl Writer {
    /// Kind, zero byte and place at once.
    #[inline(always)]
    unsafe fn head(&mut self, kind: u32, place: usize) -> *mut u8 {
        (self.0 as *mut u32).write_unaligned(kind | (place as u32) << 16);
        self.0.add(4)
    }

    #[inline(always)]
    pub unsafe fn word_store(&mut self, place: usize, word: u64) {
        (self.head(1, place) as *mut u64).write_unaligned(word);
        self.0 = self.0.add(WORD_STORE);
    }

    #[inline(always)]
    pub unsafe fn line_store(&mut self, place: usize, line: *const u8) {
        copy_nonoverlapping(line, self.head(2, place), 64);
        self.0 = self.0.add(LINE_STORE);
    }

    #[inline(always)]
    pub unsafe fn flush(&mut self, line: usize) {
        self.0 = self.head(3, line);
    }

    #[inline(always)]
    pub unsafe fn barrier(&mut self) {
        self.0 = self.head(4, 0);
    }
}

/// The numbers of the bits that are set, rising.
#[inline(always)]
pub fn bits(mut set: u64) -> impl Iterator<Item = usize> {
    std::iter::from_fn(move || {
        let bit = set.trailing_zeros() as usize;
        set &= set.wrapping_sub(1);
        (bit < 64).then_some(bit)
    })
}
