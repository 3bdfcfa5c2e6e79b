//! The calls as they would be written for speed alone. Each gives the same
//! number (0 is accepted) and the same buffers as the proved one.

mod commit;
pub mod cuts;
pub mod device;
mod edits;
pub mod image;
pub mod merge;
mod page;
pub mod preview;
pub mod read;
pub mod recovery;
mod tape;
pub mod transaction;
mod tree;

pub const PAGE: usize = 1024;

/// An image has 8 to 64 whole pages.
#[inline]
pub fn good_length(length: usize) -> bool {
    length.is_multiple_of(PAGE) && (8 * PAGE..=64 * PAGE).contains(&length)
}
