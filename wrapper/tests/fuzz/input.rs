//! Buffers of every length and content: random, of real stores, of stores
//! damaged.

use cases::cuts::{any_cut_number, any_small_tape, SmallTape};
use cases::damage::{damage, other_length, FIELDS};
use cases::images::{Built, LAST_KEY};
use cases::lists::any_list;
use cases::merges::{any_pair, any_third};
use cases::random::Random;
use cases::tapes::any_choices;
use cases::{logs, stores};
use quote_store::calls;

/// What the calls of one round are lent.
#[derive(Clone)]
pub struct Input {
    pub image: Vec<u8>,
    /// Of merge the second book; the first is the image, and work is the result.
    pub other: Vec<u8>,
    pub work: Vec<u8>,
    pub tape: Vec<u8>,
    pub edits: Vec<u8>,
    pub choices: Vec<u8>,
    pub answer: Vec<u64>,
    pub key: u64,
    /// Of cut the count of commands, of nth cut the number.
    pub c: usize,
}

pub fn any_input(random: &mut Random) -> Input {
    let built = stores::any_built(random);
    let keys: Vec<u64> = built.table.iter().map(|entry| entry.0).collect();
    let image = any_image(random, &built);
    let work = match random.below(12) {
        0 => any_length(random),
        _ => image.len(),
    };
    let choices = match random.below(12) {
        0 => any_length(random),
        _ => image.len() / 64,
    };
    let room = random.below(8);
    let edits = any_edits(random, &keys);
    Input {
        work: random.bytes(work),
        tape: any_tape(random),
        choices: random.bytes(choices),
        answer: (0..room).map(|_| random.number()).collect(),
        key: any_key(random, &keys, &edits),
        c: any_count(random),
        edits,
        other: Vec::new(),
        image,
    }
}

/// The input with two books instead, mostly good ones, and a buffer for the result.
pub fn with_books(random: &mut Random, input: &Input) -> Input {
    let pair = any_pair(random);
    let mut book = |built: &Built| match random.below(5) {
        0 => any_image(random, built),
        _ => built.image.clone(),
    };
    let [image, other] = pair.books.each_ref().map(&mut book);
    Input {
        image,
        other,
        work: any_third(random, pair.leaves),
        ..input.clone()
    }
}

/// The input with a small tape instead, and the number of one of its cuts or one
/// past their end.
pub fn with_small_tape(random: &mut Random, input: &Input) -> Input {
    let SmallTape { image, tape } = any_small_tape(random);
    let cuts = calls::count_cuts(&image, &tape).unwrap_or(0);
    Input {
        choices: any_choices(random, image.len() / 64),
        c: any_cut_number(random, cuts),
        image,
        tape,
        ..input.clone()
    }
}

/// Whole pages or not, or nothing.
pub fn any_length(random: &mut Random) -> usize {
    match random.below(6) {
        0 => 0,
        1 => random.between(1, 128),
        2 => 1024 * random.between(0, 70),
        3 => 1024 * random.between(7, 65) - 1,
        _ => random.below(70_000),
    }
}

fn any_image(random: &mut Random, built: &Built) -> Vec<u8> {
    let headers = random.between(1, 15);
    match random.below(16) {
        0 => {
            let length = any_length(random);
            random.bytes(length)
        }
        1 => other_length(random, built),
        2 => stores::fresh(random.between(8, 12)),
        3 => logs::waiting(random, built, headers),
        4 => {
            let mut image = logs::waiting(random, built, headers);
            let field = random.below(logs::FIELDS.len());
            logs::damage(random, &mut image, field);
            image
        }
        5 | 6 => {
            let field = random.below(FIELDS.len());
            damage(random, built, field).unwrap_or_default()
        }
        7 => flipped(random, built.image.clone()),
        _ => built.image.clone(),
    }
}

/// A few bits of the image turned, mostly in lines that are headers.
fn flipped(random: &mut Random, mut image: Vec<u8>) -> Vec<u8> {
    for _ in 0..random.between(1, 8) {
        let page = 1024 * random.below(image.len() / 1024);
        let at = match random.below(3) {
            0 => random.below(1024),
            _ => random.below(64),
        };
        image[page + at] ^= 1 << random.below(8);
    }
    image
}

/// A tape to write, of any length and content, or to read: mostly malformed,
/// since the calls put good ones there.
fn any_tape(random: &mut Random) -> Vec<u8> {
    let length = match random.below(8) {
        0 => 0,
        1 => random.between(1, 300),
        2 => random.between(300, 2_000),
        3 => any_length(random),
        _ => 102_400,
    };
    let mut tape = random.bytes(length);
    if random.one_in(2) {
        tape.iter_mut().for_each(|byte| *byte %= 5);
    }
    tape
}

/// Good lists, lists with a fault, cut anywhere, noise, a whole megabyte.
fn any_edits(random: &mut Random, keys: &[u64]) -> Vec<u8> {
    let mut list = any_list(random, keys);
    match random.below(12) {
        0 => list.truncate(random.below(list.len() + 1)),
        1 => {
            let length = random.between(0, 400);
            list = random.bytes(length);
        }
        2 if random.one_in(20) => list = random.bytes(1 << 20),
        3 if random.one_in(4) => list = list.repeat(20),
        4 if !list.is_empty() => {
            let at = random.below(list.len());
            list[at] ^= 1 << random.below(8);
        }
        _ => {}
    }
    list
}

/// A key at a limit, any number, the key of the list's first edit, or one of the
/// store's.
fn any_key(random: &mut Random, keys: &[u64], edits: &[u8]) -> u64 {
    match random.below(6) {
        0 => random.pick(&[0, 1, LAST_KEY, LAST_KEY + 1, u64::MAX]),
        1 => random.number(),
        2 | 3 if edits.len() >= 10 => u64::from_le_bytes(edits[2..10].try_into().unwrap()),
        _ if keys.is_empty() => 1,
        _ => random.pick(keys),
    }
}

fn any_count(random: &mut Random) -> usize {
    match random.below(4) {
        0 => random.pick(&[0, 1, usize::MAX, 1 << 32]),
        _ => random.below(60),
    }
}
