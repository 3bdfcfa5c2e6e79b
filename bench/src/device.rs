//! Run and cut: the check that the three agree, and their rows.

use bench::measure::timed;
use bench::{lean, measure};
use cases::random::Random;
use cases::tapes::{any_call, commands, DeviceCall, Mix};

const SEED: u64 = 20_240_602;
const CHECKED: usize = 20_000;
const COMMANDS: usize = 256;

/// A way to make one of the calls; the answer is 0 or the refusal's number.
type Way = fn(&mut DeviceCall) -> u8;

const RUN: [Way; 3] = [lean_run, proved_run, reference_run];
const CUT: [Way; 3] = [lean_cut, proved_cut, reference_cut];

fn lean_run(call: &mut DeviceCall) -> u8 {
    lean::device::run(&call.image, &mut call.work, &call.tape)
}

fn proved_run(call: &mut DeviceCall) -> u8 {
    proved::run(&mut call.image, &mut call.work, &mut call.tape)
}

fn reference_run(call: &mut DeviceCall) -> u8 {
    let answer = reference::device::run(&call.image, &mut call.work, &call.tape);
    answer.map_or_else(|refusal| refusal.number, |()| 0)
}

fn lean_cut(call: &mut DeviceCall) -> u8 {
    lean::device::cut(
        &call.image,
        &mut call.work,
        &call.tape,
        call.c,
        &call.choices,
    )
}

fn proved_cut(call: &mut DeviceCall) -> u8 {
    let DeviceCall {
        image,
        work,
        tape,
        c,
        choices,
    } = call;
    proved::cut(image, work, tape, *c, choices)
}

fn reference_cut(call: &mut DeviceCall) -> u8 {
    let DeviceCall {
        image,
        work,
        tape,
        c,
        choices,
    } = call;
    let answer = reference::device::cut(image, work, tape, *c, choices);
    answer.map_or_else(|refusal| refusal.number, |()| 0)
}

/// Stops the program if the three differ in an answer or a buffer.
pub fn check() {
    let mut random = Random::new(SEED);
    let mut accepted = 0;
    for which in 0..CHECKED {
        let call = any_call(&mut random);
        for ways in [RUN, CUT] {
            let reference = measure::agreed(ways, &call, which, SEED);
            accepted += usize::from(reference.0 == 0);
        }
    }
    println!(
        "run and cut: the three agree on {} calls, {accepted} accepted",
        2 * CHECKED
    );
}

pub fn measure() {
    measure::heading("call  pages  tape of 256 commands");
    let tapes = [
        ("word stores", Mix::Words),
        ("line stores", Mix::Lines),
        ("flushes", Mix::Flushes),
        ("barriers", Mix::Barriers),
        ("mix", Mix::All),
    ];
    for (name, ways) in [("run", RUN), ("cut", CUT)] {
        for pages in [8, 64] {
            for (tape, mix) in tapes {
                let times = medians(ways, &call(pages, mix, COMMANDS));
                measure::row(&format!("{name:<4}{pages:>7}  {tape}"), times);
            }
        }
    }
    growth();
}

/// The time a command stays about the same when the tape grows. The tape is
/// the same commands again and again: a longer random one is also harder for
/// the processor to foresee, which would hide what is to be seen.
fn growth() {
    measure::heading("time a command, mix, 8 pages");
    for (name, ways) in [("run", RUN), ("cut", CUT)] {
        for factor in [1, 2, 4, 8] {
            let count = factor * COMMANDS;
            let mut call = call(8, Mix::All, COMMANDS);
            call.tape = call.tape.repeat(factor);
            call.c = count;
            let times = medians(ways, &call);
            let each = times.map(|time| time / count as f64);
            measure::fine_row(&format!("{name:<4}{count:>7} commands, x{factor}"), each);
        }
    }
}

/// A good call with so many commands, all before the cut.
fn call(pages: usize, mix: Mix, count: usize) -> DeviceCall {
    let mut random = Random::new(SEED + pages as u64);
    let image = random.bytes(pages * 1024);
    let work = random.bytes(image.len());
    let tape = commands(&mut random, mix, image.len() / 64, count).concat();
    let choices = (0..image.len() / 64)
        .map(|_| random.below(4) as u8)
        .collect();
    DeviceCall {
        image,
        work,
        tape,
        c: count,
        choices,
    }
}

fn medians(ways: [Way; 3], call: &DeviceCall) -> [f64; 3] {
    let mut calls = [call.clone(), call.clone(), call.clone()];
    for call in &mut calls {
        measure::place_apart(&call.image, &mut call.work);
    }
    let [lean, proved, reference] = &mut calls;
    measure::medians(&mut [
        &mut || timed(ways[0], lean),
        &mut || timed(ways[1], proved),
        &mut || timed(ways[2], reference),
    ])
}
