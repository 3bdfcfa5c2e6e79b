//! Random calls for the comparisons and the benchmark: a seeded generator, and
//! builders that know the formats of documents 01 and 02 by themselves, apart
//! from the reference, so that a slip in the reference can't hide here.

pub mod cuts;
pub mod damage;
pub mod empties;
pub mod harms;
pub mod images;
pub mod lists;
pub mod logs;
pub mod merges;
pub mod narrow;
pub mod previews;
pub mod random;
pub mod stores;
pub mod tapes;
pub mod threads;
