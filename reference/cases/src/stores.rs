//! Stores to start from: fresh ones, and sound images of every shape, many
//! with little room left.

use crate::images::{any_indexes, any_shape, build, even, even_under, leaves_within, Built};
use crate::random::Random;

/// "A fresh store has root 1 with one record (separator 0, page 2) at offset
/// 1,000, an empty leaf 2 with start 1,024, and zeros elsewhere."
pub fn fresh(pages: usize) -> Vec<u8> {
    let mut image = vec![0; pages * 1024];
    let mut put = |at: usize, bytes: &[u8]| image[at..at + bytes.len()].copy_from_slice(bytes);
    put(8, &[1]);
    put(16, &[pages as u8, 0, 1]);
    put(1024, &[1, 0, 232, 3, 2, 0, 1, 0, 232, 3]);
    put(1024 + 1008, &[2, 0, 0, 0, 0, 0, 0, 0, 2]);
    put(2048, &[0, 0, 0, 4, 1, 0, 2]);
    image
}

/// Mostly 8 to 12 pages. The larger ones have 15 leaves or more, for the limits
/// of log and index.
pub fn any_store(random: &mut Random) -> Vec<u8> {
    if random.one_in(4) {
        return fresh(random.between(8, 12));
    }
    any_built(random).image
}

/// As `any_store`, none fresh.
pub fn any_built(random: &mut Random) -> Built {
    let mut built = match random.below(16) {
        0 => many_leaves(random),
        1 | 4 => return even_leaves(random),
        2 => wide(random),
        3 => return tall(random),
        _ => few_leaves(random),
    };
    fill_up_some(random, &mut built);
    built
}

/// Half of the stores have full pages above the leaves, half full leaves.
fn fill_up_some(random: &mut Random, built: &mut Built) {
    if random.one_in(2) {
        fill_up_above(random, built);
    }
    if random.one_in(2) {
        fill_up_leaves(random, built);
    }
}

/// Under a top in one of three.
fn few_leaves(random: &mut Random) -> Built {
    let mut shape = any_shape(random);
    shape.pages = random.between(8, 12);
    shape.indexes = any_indexes(random, shape.pages);
    let (least, most) = leaves_within(shape.pages, shape.indexes);
    shape.leaves = match random.below(4) {
        0 => least,
        1 => most,
        _ => random.between(least, most),
    };
    build(random, shape)
}

/// A few leaves with no room or hardly any, and none above them: most edits move the
/// root.
pub fn full(random: &mut Random) -> Built {
    let mut built = few_leaves(random);
    leave_no_room(random, &mut built);
    built
}

fn leave_no_room(random: &mut Random, built: &mut Built) {
    for page in pages_above(built) {
        lower_start_to(random, &mut built.image, page, 3);
    }
    for leaf in &built.leaves {
        lower_start(random, &mut built.image, leaf.page);
    }
}

/// "At most 28 records" in an index page, or nearly as many: of one that is the root,
/// or of one or two under a top.
pub fn many_leaves(random: &mut Random) -> Built {
    let mut shape = any_shape(random);
    shape.indexes = random.pick(&[0, 0, 0, 1, 2, 2]);
    (shape.pages, shape.leaves) = match shape.indexes {
        0 => (
            random.pick(&[30, 31, 32, 33, 34, 35, 36, 64]),
            random.pick(&[27, 28, 28]),
        ),
        1 => (
            random.pick(&[31, 32, 33, 34, 35, 36, 37, 64]),
            random.pick(&[27, 28, 28]),
        ),
        _ => (
            random.pick(&[60, 61, 62, 63, 64, 64]),
            random.pick(&[29, 40, 54, 55, 56]),
        ),
    };
    shape.most = random.pick(&[1, 14, 28, 28]);
    shape.longest = 8;
    build(random, shape)
}

/// Many index pages, of few leaves each: "1 to 28 index pages".
pub fn wide(random: &mut Random) -> Built {
    let mut shape = any_shape(random);
    shape.indexes = random.pick(&[10, 15, 27, 28, 28]);
    shape.leaves = shape.indexes + random.pick(&[0, 1, 5]);
    shape.pages = (shape.indexes + shape.leaves + random.between(2, 6)).min(64);
    shape.most = random.pick(&[1, 2, 14]);
    shape.longest = 8;
    build(random, shape)
}

/// Stores in which index pages are about to split, to be copied or to be lost, mostly
/// under a top.
pub fn tall(random: &mut Random) -> Built {
    let mut built = match random.below(8) {
        0 => full_index(random),
        1 => {
            let pages = random.between(9, 12);
            let counts = random.pick(&[&[1, 1][..], &[1, 2, 1], &[2, 1, 1]]);
            let quotes: usize = counts.iter().sum();
            let more = random.pick(&[0, 0, 3]);
            even_under(random, pages, counts, quotes + more)
        }
        2 | 3 => {
            let mut built = few_under_a_top(random);
            leave_no_room(random, &mut built);
            return built;
        }
        _ => few_under_a_top(random),
    };
    fill_up_some(random, &mut built);
    built
}

fn few_under_a_top(random: &mut Random) -> Built {
    let mut shape = any_shape(random);
    shape.pages = random.between(8, 12);
    shape.indexes = random.between(1, 3);
    let (least, most) = leaves_within(shape.pages, shape.indexes);
    shape.leaves = random.between(least, most);
    build(random, shape)
}

/// Full leaves in a full index page, which is the root or not, and 0 to 7 free pages or
/// more: an insert needs two to six.
pub fn full_index(random: &mut Random) -> Built {
    let counts = random.pick(&[
        &[][..],
        &[],
        &[28],
        &[28, 1],
        &[3, 28],
        &[1, 28, 1],
        &[27],
        &[28, 22],
    ]);
    let leaves: usize = if counts.is_empty() {
        28
    } else {
        counts.iter().sum()
    };
    let free = random.pick(&[0, 1, 2, 3, 4, 4, 5, 5, 6, 6, 7, 12]);
    let pages = (2 + counts.len() + leaves + free).min(64);
    let mut built = match counts {
        [] => even(random, pages, leaves, 28 * leaves),
        _ => even_under(random, pages, counts, 28 * leaves),
    };
    if random.one_in(2) {
        fill_up_above(random, &mut built);
    }
    built
}

/// As many headers as the log holds or a few more, and room in every page; or
/// none above the leaves and in one leaf, so that an edit there moves the root.
pub fn even_leaves(random: &mut Random) -> Built {
    let leaves = random.pick(&[15, 16, 16, 17]);
    let pages = leaves + random.between(3, 6);
    let each = random.pick(&[1, 2, 14]);
    let mut built = match random.below(3) {
        0 => {
            let left = random.between(1, leaves - 1);
            even_under(random, pages + 3, &[left, leaves - left], leaves * each)
        }
        _ => even(random, pages, leaves, leaves * each),
    };
    if random.one_in(2) {
        let leaf = built.leaves[random.below(leaves)].page;
        for page in pages_above(&built).into_iter().chain([leaf]) {
            lower_start_to(random, &mut built.image, page, 3);
        }
    }
    built
}

/// The pages of the top and the index pages.
fn pages_above(built: &Built) -> Vec<usize> {
    built.above_leaves().map(|page| page.page).collect()
}

/// The index page; under a top about half of the pages above the leaves. There is no
/// room for a record then, or for one.
fn fill_up_above(random: &mut Random, built: &mut Built) {
    for page in pages_above(built) {
        if built.top.is_none() || random.one_in(2) {
            lower_start_to(random, &mut built.image, page, 6);
        }
    }
}

/// About half of the leaves.
fn fill_up_leaves(random: &mut Random, built: &mut Built) {
    for leaf in &built.leaves {
        if random.one_in(2) {
            lower_start(random, &mut built.image, leaf.page);
        }
    }
}

/// Lowers the content start to about the header's end, so that the next record
/// or the one after it needs a new page.
fn lower_start(random: &mut Random, image: &mut [u8], page: usize) {
    lower_start_to(random, image, page, 9);
}

/// To one of so many places from the header's end on. An index record has three words.
fn lower_start_to(random: &mut Random, image: &mut [u8], page: usize, places: usize) {
    let at = page * 1024 + 2;
    let old = u16::from_le_bytes([image[at], image[at + 1]]);
    let start = old.min(64 + 8 * random.below(places) as u16);
    image[at..at + 2].copy_from_slice(&start.to_le_bytes());
}
