//! Medians of interleaved repetitions, and the table's rows.

use std::hint::black_box;
use std::time::Instant;

pub const REPETITIONS: usize = 301;
/// A turn lasts about this long, so that the clock's own cost is small.
const TURN: f64 = 40_000.0;

/// What one call leaves, if the three ways of making it leave the same: its
/// answer and its buffers. Stops the program if not.
pub fn agreed<C: Clone + PartialEq>(
    ways: [fn(&mut C) -> u8; 3],
    call: &C,
    which: usize,
    seed: u64,
) -> (u8, C) {
    let [lean, proved, reference] = ways.map(|way| {
        let mut after = call.clone();
        (way(&mut after), after)
    });
    assert!(
        lean == reference,
        "lean and reference differ on call {which}, seed {seed}"
    );
    assert!(
        proved == reference,
        "proved and reference differ on call {which}, seed {seed}"
    );
    reference
}

/// Makes a call whose time is taken.
pub fn timed<C>(way: fn(&mut C) -> u8, call: &mut C) {
    let answer = way(black_box(call));
    assert_eq!(answer, 0, "a timed call was refused");
}

/// Gives work another place, if a copy of the image to it would be slow there.
/// Where the two places differ by 16 bytes, modulo 4,096, glibc's memcpy takes
/// some 20 times as long on processors of AMD's family 25; and two images that are
/// allocated one after the other lie just so. Here they differ by a line or more.
pub fn place_apart(image: &[u8], work: &mut Vec<u8>) {
    let mut passed = Vec::new();
    while (1..64).contains(&(work.as_ptr().addr().wrapping_sub(image.as_ptr().addr()) % 4096)) {
        let other = work.clone();
        passed.push(std::mem::replace(work, other));
    }
}

/// Nanoseconds a call of each candidate, in turns of about the same time.
pub fn medians<const N: usize>(candidates: &mut [&mut dyn FnMut(); N]) -> [f64; N] {
    let mut calls = [1; N];
    for (candidate, calls) in candidates.iter_mut().zip(&mut calls) {
        turn(*candidate, 3);
        let once = turn(*candidate, 10);
        *calls = ((TURN / once) as usize).clamp(1, 100_000);
    }
    taking_turns(candidates, calls, REPETITIONS, turn)
}

/// Takes the time of so many calls in a row, as nanoseconds a call.
pub type Turn = fn(&mut dyn FnMut(), usize) -> f64;

/// The same with so many calls in a turn of each. They take turns within each
/// repetition, so that noise of the machine hits all alike.
pub fn taking_turns<const N: usize>(
    candidates: &mut [&mut dyn FnMut(); N],
    calls: [usize; N],
    repetitions: usize,
    turn: Turn,
) -> [f64; N] {
    let mut times = [const { Vec::new() }; N];
    for repetition in 0..repetitions {
        for i in 0..N {
            let which = (repetition + i) % N;
            times[which].push(turn(candidates[which], calls[which]));
        }
    }
    times.map(median)
}

/// A turn in wall-clock time.
fn turn(candidate: &mut dyn FnMut(), calls: usize) -> f64 {
    let start = Instant::now();
    for _ in 0..calls {
        candidate();
    }
    start.elapsed().as_nanos() as f64 / calls as f64
}

fn median(mut times: Vec<f64>) -> f64 {
    times.sort_by(f64::total_cmp);
    times[times.len() / 2]
}

/// The processor that times are taken on, as the system names it.
pub fn processor() -> String {
    let text = std::fs::read_to_string("/proc/cpuinfo").unwrap_or_default();
    let name = text
        .lines()
        .find_map(|line| line.strip_prefix("model name"));
    let name = name.map(|rest| rest.trim_start_matches([' ', '\t', ':']));
    let count = std::thread::available_parallelism().map_or(1, |count| count.get());
    format!("{}; {count} of them", name.unwrap_or("unknown"))
}

pub fn heading(first: &str) {
    println!();
    println!(
        "{first:<34}{:>9}{:>9}{:>11}{:>13}{:>16}",
        "lean", "proved", "reference", "proved/lean", "reference/lean"
    );
}

pub fn row(name: &str, [lean, proved, reference]: [f64; 3]) {
    let proved_ratio = proved / lean;
    let reference_ratio = reference / lean;
    println!(
        "{name:<34}{lean:>9.0}{proved:>9.0}{reference:>11.0}{proved_ratio:>13.2}{reference_ratio:>16.2}"
    );
}

/// As `row`, for times a command, which are short.
pub fn fine_row(name: &str, [lean, proved, reference]: [f64; 3]) {
    let proved_ratio = proved / lean;
    let reference_ratio = reference / lean;
    println!(
        "{name:<34}{lean:>9.2}{proved:>9.2}{reference:>11.2}{proved_ratio:>13.2}{reference_ratio:>16.2}"
    );
}

/// The heading of rows that put two ways of the proved store beside each other.
pub fn pair_heading(first: &str, [one, other]: [&str; 2]) {
    println!();
    println!("{first:<42}{one:>16}{other:>14}{:>8}", "ratio");
}

/// The ratio is of the second to the first.
pub fn pair_row(name: &str, [one, other]: [f64; 2]) {
    let ratio = other / one;
    println!("{name:<42}{one:>16.0}{other:>14.0}{ratio:>8.3}");
}
