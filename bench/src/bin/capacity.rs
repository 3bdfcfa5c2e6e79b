//! How many quotes a store holds, one a transaction until one is refused, by the order in
//! which they come and by the length of their values; and how many a merge fills into it.
//! Made by the reference, with which the comparison holds the proved calls to agree.

use cases::merges::{packed, pages_for};
use cases::random::Random;
use cases::stores::fresh;
use reference::edits::{Edit, Kind};
use reference::image::sound_leaves;
use reference::transaction::transaction;
use reference::Refusal;

const SEED: u64 = 20_241_208;
const TRIES: usize = 100;
const KEYS: u64 = 999_999_999_999;

/// The image after an insert of this key.
fn insert(image: &[u8], key: u64, length: usize) -> Result<Vec<u8>, Refusal> {
    let value = vec![7; length];
    let kind = Kind::Insert;
    let list = Edit { kind, key, value }.encode();
    let (mut work, mut tape) = (vec![0; image.len()], vec![0; 1600 * image.len() / 1024]);
    transaction(image, &mut work, &mut tape, &list)?;
    Ok(work)
}

/// The store when an insert is refused, and with which number.
fn fill(pages: usize, length: usize, keys: impl Iterator<Item = u64>) -> (Vec<u8>, u8) {
    let mut image = fresh(pages);
    for key in keys {
        match insert(&image, key, length) {
            Ok(work) => image = work,
            Err(Refusal { number: 8, .. }) => {}
            Err(refusal) => return (image, refusal.number),
        }
    }
    panic!("no quote is refused");
}

/// Leaves and quotes.
fn counts(image: &[u8]) -> (usize, usize) {
    let leaves = sound_leaves(image).expect("it is sound");
    (
        leaves.len(),
        leaves.iter().map(|leaf| leaf.records.len()).sum(),
    )
}

/// After rising keys, others between them wherever one is accepted.
fn fullest(pages: usize, length: usize, first: Vec<u8>) -> Vec<u8> {
    let leaves = sound_leaves(&first).expect("it is sound");
    let records = leaves.iter().flat_map(|leaf| &leaf.records);
    let keys: Vec<u64> = records.map(|record| record.key).collect();
    let mut image = first;
    for more in 1..=28 {
        for key in &keys {
            image = insert(&image, key + more, length).unwrap_or(image);
        }
    }
    assert_eq!(image.len(), 1024 * pages);
    image
}

/// The most that a merge fills into so many pages.
fn merged(pages: usize, length: usize) -> usize {
    let quotes = |count: u64| {
        (1..=count)
            .map(|key| (key, vec![7; length]))
            .collect::<Vec<_>>()
    };
    let fits = |count: &u64| pages_for(packed(&quotes(*count)).len()) <= pages;
    (1..2000).take_while(fits).count()
}

fn main() {
    println!("seed {SEED}; quotes (leaves), one quote a transaction; the last refusal");
    println!("pages value      rising     falling  random, mean of {TRIES}     fullest  merged");
    for (pages, length) in [(8, 8), (8, 200), (32, 8), (64, 8), (64, 16), (64, 200)] {
        let rising = || (1..=4000u64).map(|i| 1000 * i);
        let (up, number) = fill(pages, length, rising());
        let (down, other) = fill(pages, length, rising().rev());
        let mut random = Random::new(SEED);
        let (mut sum, mut least, mut most) = (0, usize::MAX, 0);
        for _ in 0..TRIES {
            let any = std::iter::repeat_with(|| 1 + random.number() % KEYS);
            let (_, quotes) = counts(&fill(pages, length, any).0);
            (sum, least, most) = (sum + quotes, least.min(quotes), most.max(quotes));
        }
        let full = counts(&fullest(pages, length, up.clone()));
        let ((up_leaves, up), (down_leaves, down)) = (counts(&up), counts(&down));
        println!(
            "{pages:>5} {length:>5} {up:>6} ({up_leaves:>2}) {down:>6} ({down_leaves:>2})  {:>6.1} ({least} to {most}) {:>6} ({:>2}) {:>6}  {number} {other}",
            sum as f64 / TRIES as f64, full.1, full.0, merged(pages, length)
        );
    }
}
