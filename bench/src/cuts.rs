//! Count cuts and nth cut: the check that the three agree, and their rows.

use bench::books::{book, one, updates};
use bench::measure::timed;
use bench::{lean, measure};
use cases::cuts::{any_cut_number, any_small_tape};
use cases::random::Random;
use cases::tapes::any_choices;
use reference::transaction::transaction;
use reference::Refusal;

const SEED: u64 = 20_241_119;
const CHECKED: usize = 10_000;

/// One call's buffers; count cuts uses neither number nor choices.
#[derive(Clone, PartialEq)]
struct Call {
    image: Vec<u8>,
    tape: Vec<u8>,
    r: usize,
    choices: Vec<u8>,
    answer: [u64; 1],
}

/// A way to make one of the calls; the answer is 0 or the refusal's number.
type Way = fn(&mut Call) -> u8;

const COUNT: [Way; 3] = [
    |call| lean::cuts::count_cuts(&call.image, &call.tape, &mut call.answer),
    |call| proved::count_cuts(&mut call.image, &mut call.tape, &mut call.answer),
    |call| {
        let given = reference::cuts::count_cuts(&call.image, &call.tape);
        number(given, &mut call.answer)
    },
];

const NTH: [Way; 3] = [
    |call| {
        let (choices, answer) = (&mut call.choices, &mut call.answer);
        lean::cuts::nth_cut(&call.image, &call.tape, call.r, choices, answer)
    },
    |call| {
        let (choices, answer) = (&mut call.choices, &mut call.answer);
        proved::nth_cut(&mut call.image, &mut call.tape, call.r, choices, answer)
    },
    |call| {
        let choices = &mut call.choices;
        let given = reference::cuts::nth_cut(&call.image, &call.tape, call.r, choices);
        number(given, &mut call.answer)
    },
];

fn number(given: Result<usize, Refusal>, answer: &mut [u64; 1]) -> u8 {
    match given {
        Ok(value) => {
            *answer = [value as u64];
            0
        }
        Err(refusal) => refusal.number,
    }
}

/// Stops the program if the three differ in an answer or a buffer.
pub fn check() {
    let mut random = Random::new(SEED);
    let mut accepted = 0;
    for which in 0..CHECKED {
        let small = any_small_tape(&mut random);
        let cuts = reference::cuts::count_cuts(&small.image, &small.tape);
        let call = Call {
            r: any_cut_number(&mut random, cuts.unwrap_or(0)),
            choices: any_choices(&mut random, small.image.len() / 64),
            image: small.image,
            tape: small.tape,
            answer: [7],
        };
        for ways in [COUNT, NTH] {
            let reference = measure::agreed(ways, &call, which, SEED);
            accepted += usize::from(reference.0 == 0);
        }
    }
    println!(
        "count cuts and nth cut: the three agree on {} calls, {accepted} accepted",
        2 * CHECKED
    );
}

/// The reference lists all cuts in each call.
pub fn measure() {
    measure::heading("call        pages  tape");
    for (name, ways) in [("count cuts", COUNT), ("nth cut", NTH)] {
        for pages in [8, 64] {
            for (tape, call) in [
                ("12 lines", spread(pages)),
                ("one update", one_update(pages)),
            ] {
                let row = format!("{name:<10}{pages:>7}  {tape}");
                measure::row(&row, medians(ways, &call));
            }
        }
    }
}

/// 12 stores to 12 lines: of all tapes the most cuts.
fn spread(pages: usize) -> Call {
    let image = vec![0; pages * 1024];
    let line = |i: usize| ((16 * pages - 1 - 5 * i) as u16).to_le_bytes();
    let store = |[low, high]: [u8; 2]| [&[2, 0, low, high], &[0x5a; 64][..]].concat();
    let tape = (0..12).flat_map(|i| store(line(i))).collect();
    last_cut(image, tape)
}

/// A transaction of one edit.
fn one_update(pages: usize) -> Call {
    let leaves = if pages == 8 { 4 } else { 26 };
    let built = book(pages, leaves, leaves * 14);
    let (mut work, mut tape) = (built.image.clone(), vec![0; 65_536]);
    let list = updates(&one(&built, 0));
    let done = transaction(&built.image, &mut work, &mut tape, &list).expect("a good list");
    tape.truncate(done.bytes);
    last_cut(built.image, tape)
}

/// The number of the last cut, which passes all others.
fn last_cut(image: Vec<u8>, tape: Vec<u8>) -> Call {
    let cuts = reference::cuts::count_cuts(&image, &tape).expect("a small tape");
    Call {
        r: cuts - 1,
        choices: vec![0; image.len() / 64],
        image,
        tape,
        answer: [7],
    }
}

fn medians(ways: [Way; 3], call: &Call) -> [f64; 3] {
    let [mut lean, mut proved, mut reference] = [call.clone(), call.clone(), call.clone()];
    measure::medians(&mut [
        &mut || timed(ways[0], &mut lean),
        &mut || timed(ways[1], &mut proved),
        &mut || timed(ways[2], &mut reference),
    ])
}
