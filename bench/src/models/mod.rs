//! What a transaction costs in flushes, barriers and bytes stored: of this
//! store, counted from its tape, and of other methods by plain models of what
//! their papers say. One file a method.
//!
//! All models are of the same change: the bytes that differ in this store's
//! pages. Each takes of its paper the reading that costs it least, and says
//! what it leaves out. A line has 64 bytes everywhere. A flush starts the
//! write-back of one line; a barrier waits for the flushes before it. What is
//! written to volatile memory alone is not counted.

mod allocation;
pub mod change;
pub mod copy_on_write;
pub mod logging_only;
pub mod nvwal;
pub mod redo;
pub mod store;
pub mod undo;

use std::ops::{Add, AddAssign};

#[derive(Clone, Copy, Debug, Default, PartialEq, Eq)]
pub struct Counts {
    pub flushes: usize,
    pub barriers: usize,
    /// Bytes stored to persistent memory.
    pub bytes: usize,
}

impl Add for Counts {
    type Output = Counts;

    fn add(self, other: Counts) -> Counts {
        Counts {
            flushes: self.flushes + other.flushes,
            barriers: self.barriers + other.barriers,
            bytes: self.bytes + other.bytes,
        }
    }
}

impl AddAssign for Counts {
    fn add_assign(&mut self, other: Counts) {
        *self = *self + other;
    }
}

/// Stores and their flushes, with no barrier yet.
fn stored(bytes: usize, flushes: usize) -> Counts {
    Counts {
        flushes,
        barriers: 0,
        bytes,
    }
}

const BARRIER: Counts = Counts {
    flushes: 0,
    barriers: 1,
    bytes: 0,
};

/// One word stored, its line flushed, and a barrier: a mark, or the state of a
/// transaction.
const WORD_MADE_DURABLE: Counts = Counts {
    flushes: 1,
    barriers: 1,
    bytes: 8,
};
