//! Images damaged in a field that matters, and images of other lengths.

use crate::images::{size, Built, Place, Reached, LAST_KEY};
use crate::random::Random;

/// The fields of page 0, of headers and of records.
pub const FIELDS: [&str; 19] = [
    "waiting mark",
    "malformed mark",
    "root",
    "page count",
    "format",
    "zeros of page 0",
    "count",
    "start",
    "kind",
    "zero of a header",
    "own number",
    "slot",
    "slot past the count",
    "key",
    "separator",
    "length",
    "six zeros",
    "padding",
    "page number",
];

/// The image with another content of this field, somewhere; nothing if the
/// image has no such field. The change may leave the image sound.
pub fn damage(random: &mut Random, built: &Built, field: usize) -> Option<Vec<u8>> {
    let mut image = built.image.clone();
    match field {
        0..=5 => page_zero(random, &mut image, built, field),
        6..=12 => header(random, &mut image, built, field)?,
        _ => record(random, &mut image, built, field)?,
    }
    Some(image)
}

fn page_zero(random: &mut Random, image: &mut [u8], built: &Built, field: usize) {
    let pages = built.pages;
    match field {
        0 => {
            let k = random.between(1, 15) as u8;
            let root = random.pick(&[1, 2, pages - 1]) as u8;
            image[..8].copy_from_slice(&[1, k, root, 0, 0, 0, 0, 0]);
        }
        1 => malformed_mark(random, image, pages),
        2 => match random.below(6) {
            0 => image[8..16].copy_from_slice(&random.number().to_le_bytes()),
            1 => change_byte(random, &mut image[9..16]),
            2 => image[8] = built.leaves[0].page as u8,
            3 => image[8] = built.indexes[0].page as u8,
            _ => image[8] = random.pick(&[0, pages, pages - 1, pages + 1]) as u8,
        },
        3 => change_two(random, &mut image[16..18], &[0, 7, 8, 64, 65]),
        4 => change_two(random, &mut image[18..20], &[0, 1, 2]),
        _ => change_byte(random, &mut image[20..64]),
    }
}

/// A mark with one field at or past its limits; it may be well formed after
/// all.
fn malformed_mark(random: &mut Random, image: &mut [u8], pages: usize) {
    let mut mark = [1, random.between(1, 15) as u8, 1, 0, 0, 0, 0, 0];
    match random.below(5) {
        0 => mark[0] = random.pick(&[0, 2, 255]),
        1 => mark[1] = random.pick(&[0, 16, 15, 255]),
        2 => mark[2] = random.pick(&[0, pages, pages - 1, pages + 1]) as u8,
        3 => mark[3] = random.pick(&[1, 255]),
        _ => change_byte(random, &mut mark[4..8]),
    }
    image[..8].copy_from_slice(&mark);
}

/// One of the reached pages; those above the leaves as often as all leaves together.
fn any_page<'a>(random: &mut Random, built: &'a Built) -> &'a Reached {
    if random.one_in(2) {
        return any_above(random, built);
    }
    &built.leaves[random.below(built.leaves.len())]
}

/// The top as often as all index pages together.
fn any_above<'a>(random: &mut Random, built: &'a Built) -> &'a Reached {
    match &built.top {
        Some(top) if random.one_in(2) => top,
        _ => &built.indexes[random.below(built.indexes.len())],
    }
}

fn header(random: &mut Random, image: &mut [u8], built: &Built, field: usize) -> Option<()> {
    let reached = any_page(random, built);
    let base = reached.page * 1024;
    let line = &mut image[base..][..64];
    let count = reached.places.len();
    match field {
        6 => change_two(random, &mut line[0..2], &[0, 1, 28, 29, count + 256]),
        7 => {
            let lowest = reached.places.iter().map(|place| place.at - base).min();
            let lowest = lowest.unwrap_or(1024);
            let limits = [0, 56, 63, 64, lowest, lowest + 8, 1024, 1032];
            change_two(random, &mut line[2..4], &limits);
        }
        8 => line[4] = random.pick(&[0, 1, 2, 3, 4, 255]),
        9 => change_byte(random, &mut line[5..6]),
        10 => {
            let other = any_page(random, built).page;
            change_two(random, &mut line[6..8], &[0, other, built.pages]);
        }
        11 => {
            let at = 8 + 2 * random.below(count.max(1));
            let other = places(random, reached)?.at - base;
            let limits = [0, 56, 1000, 1008, 1016, 1024, other, other + 8, other + 16];
            change_two(random, &mut line[at..at + 2], &limits);
        }
        _ => {
            let at = 8 + 2 * random.between(count, 27.max(count));
            change_byte(random, line.get_mut(at..at + 2)?);
        }
    }
    Some(())
}

/// One of the page's records, if it has one.
fn places(random: &mut Random, reached: &Reached) -> Option<Place> {
    let count = reached.places.len();
    (count > 0).then(|| reached.places[random.below(count)])
}

fn record(random: &mut Random, image: &mut [u8], built: &Built, field: usize) -> Option<()> {
    let reached = match field {
        14 | 18 => any_above(random, built),
        13 => &built.leaves[random.below(built.leaves.len())],
        _ => any_page(random, built),
    };
    let Place { at, length, .. } = places(random, reached)?;
    match field {
        13 | 14 => {
            let key = near_key(random, built, reached);
            image[at..at + 8].copy_from_slice(&key.to_le_bytes());
        }
        15 => {
            let room = reached.page * 1024 + 1024 - at - 16;
            let limits = [0, 1, 2, 3, 199, 200, 201, room, room + 1];
            change_two(random, &mut image[at + 8..at + 10], &limits);
        }
        16 => change_byte(random, &mut image[at + 10..at + 16]),
        17 if length % 8 == 0 => return None,
        17 => change_byte(random, &mut image[at + 16 + length..at + size(length)]),
        _ => {
            let other = any_page(random, built).page;
            let root = built.root().page;
            let limits = [0, 1, built.pages - 1, built.pages, root, other];
            change_two(random, &mut image[at + 16..at + 18], &limits);
        }
    }
    Some(())
}

/// A key at a limit, or at or beside some other key or separator.
fn near_key(random: &mut Random, built: &Built, reached: &Reached) -> u64 {
    let other = match random.below(3) {
        0 => any_page(random, built),
        _ => reached,
    };
    let near = places(random, other).map_or(1, |place| place.key);
    match random.below(10) {
        0 => random.pick(&[0, 1, LAST_KEY, LAST_KEY + 1, u64::MAX]),
        1 => random.number(),
        2..=4 => near,
        5 | 6 => near + 1,
        7 | 8 => near.saturating_sub(1),
        _ => near ^ (1 << random.below(64)),
    }
}

/// One byte of these replaced by another.
fn change_byte(random: &mut Random, bytes: &mut [u8]) {
    let at = random.below(bytes.len());
    match random.below(3) {
        0 => bytes[at] ^= 1 << random.below(8),
        1 => bytes[at] = bytes[at].wrapping_add(1),
        _ => bytes[at] ^= random.between(1, 255) as u8,
    }
}

/// A two-byte number replaced: by one near it, by a limit, or in one byte.
fn change_two(random: &mut Random, bytes: &mut [u8], limits: &[usize]) {
    let old = u16::from_le_bytes([bytes[0], bytes[1]]);
    let new = match random.below(8) {
        0 => old.wrapping_add(1),
        1 => old.wrapping_sub(1),
        2 => old.wrapping_add(8),
        3 => old.wrapping_sub(8),
        4 => return change_byte(random, bytes),
        _ => random.pick(limits) as u16,
    };
    bytes.copy_from_slice(&new.to_le_bytes());
}

/// The image with another length, or bytes at random of any length.
pub fn other_length(random: &mut Random, built: &Built) -> Vec<u8> {
    let mut image = built.image.clone();
    match random.below(8) {
        0 => image.truncate(image.len() - 1),
        1 => image.push(0),
        2 => image.extend([0; 1024]),
        3 => image.truncate(image.len() - 1024),
        // The same with the page count made right again.
        4 => {
            image.extend([0; 1024]);
            image[16] += 1;
        }
        5 => {
            image.truncate(image.len() - 1024);
            image[16] -= 1;
        }
        6 => image.truncate(random.pick(&[0, 1, 64, 1024, 7 * 1024, 8191])),
        _ => {
            let length = random.pick(&[8192, 8193, 9216, 65535, 65536, 65537, 66560]);
            return random.bytes(length);
        }
    }
    image
}
