//! Calls that list the cuts of small tapes (document 02 (e)): tapes of about 12
//! commands and fewer, good and damaged, and numbers of cuts to ask for.

use crate::random::Random;
use crate::tapes::{any_lines, any_mix, any_tape, command, image_length, lines_of, Mix};

/// The limit: "for at most 12 commands".
const MOST: usize = 12;

/// Where there are at most so many cuts, each is asked for.
const FEW: usize = 64;

#[derive(Clone, Debug)]
pub struct SmallTape {
    pub image: Vec<u8>,
    pub tape: Vec<u8>,
}

/// A tape of any sort; about half of them have their cuts counted.
pub fn any_small_tape(random: &mut Random) -> SmallTape {
    let length = match random.below(4) {
        0 => random.between(8, 64) * 1024,
        _ => image_length(random),
    };
    let commands = any_commands(random, lines_of(length));
    SmallTape {
        image: random.bytes(length),
        tape: any_tape(random, &commands, length),
    }
}

/// Few commands, good ones. Those that go to different lines have the most cuts.
fn any_commands(random: &mut Random, lines: usize) -> Vec<Vec<u8>> {
    let count = match random.below(16) {
        0 | 1 => MOST,
        2 => MOST + 1,
        3 => random.between(MOST + 1, 40),
        _ => random.between(0, MOST),
    };
    if random.one_in(24) {
        let mut places: Vec<usize> = (0..lines).collect();
        random.shuffle(&mut places);
        let places = places.into_iter().take(count);
        return places.map(|line| store(random, line)).collect();
    }
    let places = any_lines(random, lines);
    let mix = any_mix(random);
    (0..count).map(|_| command(random, mix, &places)).collect()
}

fn store(random: &mut Random, line: usize) -> Vec<u8> {
    let mix = random.pick(&[Mix::Words, Mix::Lines]);
    command(random, mix, &[line])
}

/// Numbers to ask for where a tape has so many cuts, rising: all that there are if
/// they are few, else the first, the last and some between; and some past the end.
pub fn cut_numbers(random: &mut Random, cuts: usize) -> Vec<usize> {
    let mut numbers: Vec<usize> = if cuts <= FEW {
        (0..cuts).collect()
    } else {
        let between = (0..8).map(|_| random.below(cuts));
        [0, cuts - 1].into_iter().chain(between).collect()
    };
    numbers.extend([cuts, cuts + 1, past(random, cuts)]);
    numbers.sort();
    numbers.dedup();
    numbers
}

/// One number, within or past the end.
pub fn any_cut_number(random: &mut Random, cuts: usize) -> usize {
    match random.below(3) {
        0 => past(random, cuts),
        _ => random.below(cuts + 2),
    }
}

fn past(random: &mut Random, cuts: usize) -> usize {
    let near = cuts + random.below(300);
    random.pick(&[near, 1 << 16, 1 << 32, usize::MAX - 1, usize::MAX])
}
