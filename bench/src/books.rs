//! The books and the edits that are measured. A turn is a number; with each the
//! edits move on to other quotes, and at turn 0 all start near the front.

use cases::images::{even, even_under, Built};
use cases::random::Random;

const SEED: u64 = 20_240_607;

/// A store of 64 pages with 500 quotes of 8 bytes, in so many leaves.
pub fn five_hundred(leaves: usize) -> Built {
    book(64, leaves, 500)
}

/// A store with its quotes evenly over the leaves, and no two keys side by
/// side.
pub fn book(pages: usize, leaves: usize, quotes: usize) -> Built {
    book_of(pages, &[leaves], quotes)
}

/// The same with so many leaves in each index page.
pub fn book_of(pages: usize, leaves: &[usize], quotes: usize) -> Built {
    let mut random = Random::new(SEED);
    loop {
        let built = store(&mut random, pages, leaves, quotes);
        let apart = |two: &[(u64, Vec<u8>)]| two[0].0 + 1 < two[1].0;
        if built.table.windows(2).all(apart) {
            return built;
        }
    }
}

/// A store with so many leaves in each index page; several of these stand under a
/// top.
pub fn store(random: &mut Random, pages: usize, leaves: &[usize], quotes: usize) -> Built {
    match leaves {
        &[leaves] => even(random, pages, leaves, quotes),
        _ => even_under(random, pages, leaves, quotes),
    }
}

/// How the rows name such leaves: `26`, or under a top `2x26`.
pub fn name(leaves: &[usize]) -> String {
    match leaves {
        [leaves] => leaves.to_string(),
        _ => format!("{}x{}", leaves.len(), leaves[0]),
    }
}

/// The key of a record by its leaf and its place there.
pub fn key(built: &Built, leaf: usize, place: usize) -> u64 {
    built.leaves[leaf].places[place].key
}

/// One key; over the turns every key.
pub fn one(built: &Built, turn: usize) -> Vec<u64> {
    vec![built.table[(20 + turn) % built.table.len()].0]
}

/// 16 keys in a row.
pub fn neighbours(built: &Built, turn: usize) -> Vec<u64> {
    let first = (20 + turn) % (built.table.len() - 15);
    (first..first + 16).map(|i| built.table[i].0).collect()
}

/// 16 keys over as many leaves as the log has lines, if there are so many.
pub fn spread(built: &Built, turn: usize) -> Vec<u64> {
    let leaves = built.leaves.len();
    let over = leaves.min(15);
    let one = |i: usize| {
        let leaf = (turn + i % over) % leaves;
        let places = built.leaves[leaf].places.len();
        key(built, leaf, (turn / leaves + i / over) % places)
    };
    (0..16).map(one).collect()
}

pub fn edit(kind: u8, key: u64, value: &[u8]) -> Vec<u8> {
    [&[kind, value.len() as u8], &key.to_le_bytes()[..], value].concat()
}

pub fn insert(key: u64) -> Vec<u8> {
    edit(1, key, &[0x5a; 8])
}

pub fn update(key: u64) -> Vec<u8> {
    edit(2, key, &[0x5a; 8])
}

pub fn delete(key: u64) -> Vec<u8> {
    edit(3, key, &[])
}

/// The list that updates these keys.
pub fn updates(keys: &[u64]) -> Vec<u8> {
    keys.iter().flat_map(|&key| update(key)).collect()
}
