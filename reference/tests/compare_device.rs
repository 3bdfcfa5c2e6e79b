//! Document 01, 'Worked on paper': "a program runs the others against a
//! separate implementation". Here run and cut, on random calls: the answer and
//! every buffer of the proved library are those of the reference.

use cases::random::Random;
use cases::tapes::{any_call, bad_barrier, DeviceCall};
use reference::device::{decode, Command};
use reference::tape::encode;
use std::collections::BTreeMap;

const SEED: u64 = 20_240_601;
const CALLS: usize = 120_000;

/// How often each answer was given; 0 is accepted.
type Answers = BTreeMap<u8, usize>;

fn number(answer: Result<(), reference::Refusal>) -> u8 {
    match answer {
        Ok(()) => 0,
        Err(refusal) => {
            assert_eq!(refusal.edit, 0, "run and cut name no edit");
            refusal.number
        }
    }
}

fn reference_run(call: &mut DeviceCall) -> u8 {
    number(reference::device::run(
        &call.image,
        &mut call.work,
        &call.tape,
    ))
}

fn proved_run(call: &mut DeviceCall) -> u8 {
    proved::run(&mut call.image, &mut call.work, &mut call.tape)
}

fn reference_cut(call: &mut DeviceCall) -> u8 {
    let answer = reference::device::cut(
        &call.image,
        &mut call.work,
        &call.tape,
        call.c,
        &call.choices,
    );
    number(answer)
}

fn proved_cut(call: &mut DeviceCall) -> u8 {
    proved::cut(
        &mut call.image,
        &mut call.work,
        &mut call.tape,
        call.c,
        &mut call.choices,
    )
}

/// One call by both; gives the answer and what the reference left.
fn compare(
    which: usize,
    call: &DeviceCall,
    reference: fn(&mut DeviceCall) -> u8,
    proved: fn(&mut DeviceCall) -> u8,
) -> (u8, DeviceCall) {
    let mut left = call.clone();
    let mut right = call.clone();
    let wanted = reference(&mut left);
    let given = proved(&mut right);
    assert_eq!(given, wanted, "answer of call {which}");
    // Not assert_eq: that would print whole images.
    assert!(left == right, "buffers of call {which}, answer {wanted}");
    if wanted != 0 {
        assert!(left == *call, "the reference's refused call {which}");
    }
    (wanted, left)
}

/// Malformed barriers, of which document 02 (h) has "14 now also for kind 4 with
/// a place other than 0".
fn count_bad_barrier(call: &DeviceCall, answer: u8, bad: &mut BTreeMap<&str, usize>) {
    if let (14, Some(what)) = (answer, bad_barrier(&call.tape)) {
        *bad.entry(what).or_default() += 1;
    }
}

fn bad_barriers_came(bad: &BTreeMap<&str, usize>) {
    println!("refused for a {bad:?}");
    assert!(bad.len() == 2 && bad.values().all(|&times| times > CALLS / 500));
}

fn print(name: &str, answers: &Answers) {
    let total: usize = answers.values().sum();
    println!("{name}: {total} calls; how often each answer came (0 is accepted): {answers:?}");
}

#[test]
fn run_is_the_references() {
    println!("seed {SEED}");
    let mut random = Random::new(SEED);
    let (mut answers, mut bad) = (Answers::new(), BTreeMap::new());
    let mut changed = 0;
    for which in 0..CALLS {
        let call = any_call(&mut random);
        let (answer, after) = compare(which, &call, reference_run, proved_run);
        *answers.entry(answer).or_default() += 1;
        count_bad_barrier(&call, answer, &mut bad);
        changed += usize::from(answer == 0 && after.work != call.image);
    }
    print("run", &answers);
    println!("run: {changed} accepted calls whose stores changed the image");
    assert_eq!(answers.keys().copied().collect::<Vec<u8>>(), [0, 1, 2, 14]);
    assert!(answers.values().all(|&times| times > CALLS / 200));
    assert!(changed > CALLS / 4);
    bad_barriers_came(&bad);
}

/// What the cut leaves if each command before it is replaced by these.
fn cut_with(call: &DeviceCall, replaced: fn(&Command) -> Vec<Command>) -> Vec<u8> {
    let commands = decode(&call.tape, call.image.len()).expect("the call is accepted");
    let done: Vec<Command> = commands[..call.c].iter().flat_map(replaced).collect();
    let mut other = DeviceCall {
        tape: encode(&done),
        c: done.len(),
        ..call.clone()
    };
    assert_eq!(reference_cut(&mut other), 0);
    other.work
}

/// A barrier behind each flush: before document 02 (h) a flush was enough.
fn flush_is_enough(command: &Command) -> Vec<Command> {
    match command {
        Command::Flush { .. } => vec![command.clone(), Command::Barrier],
        _ => vec![command.clone()],
    }
}

fn without_barriers(command: &Command) -> Vec<Command> {
    let kept = *command != Command::Barrier;
    kept.then(|| command.clone()).into_iter().collect()
}

/// Accepted cuts that kept some stores and lost some, that lost stores which were
/// flushed, and that kept stores for a barrier.
#[derive(Default)]
struct Kept {
    partial: usize,
    lost_flushed: usize,
    by_barrier: usize,
}

impl Kept {
    fn count(&mut self, call: &DeviceCall, work: &[u8]) {
        let mut whole = call.clone();
        assert_eq!(reference_run(&mut whole), 0);
        self.partial += usize::from(work != call.image && work != whole.work);
        self.lost_flushed += usize::from(work != cut_with(call, flush_is_enough));
        self.by_barrier += usize::from(work != cut_with(call, without_barriers));
    }

    fn came(&self) {
        println!("cut: {} kept some stores and lost some", self.partial);
        println!("cut: {} lost stores that were flushed", self.lost_flushed);
        println!("cut: {} kept stores for a barrier", self.by_barrier);
        assert!(self.partial > CALLS / 8);
        assert!(self.lost_flushed > CALLS / 50 && self.by_barrier > CALLS / 50);
    }
}

#[test]
fn cut_is_the_references() {
    println!("seed {}", SEED + 1);
    let mut random = Random::new(SEED + 1);
    let (mut answers, mut bad) = (Answers::new(), BTreeMap::new());
    let mut kept = Kept::default();
    for which in 0..CALLS {
        let call = any_call(&mut random);
        let (answer, after) = compare(which, &call, reference_cut, proved_cut);
        *answers.entry(answer).or_default() += 1;
        count_bad_barrier(&call, answer, &mut bad);
        if answer == 0 {
            kept.count(&call, &after.work);
        }
    }
    print("cut", &answers);
    kept.came();
    assert_eq!(
        answers.keys().copied().collect::<Vec<u8>>(),
        [0, 1, 2, 14, 15, 16]
    );
    assert!(answers.values().all(|&times| times > CALLS / 200));
    bad_barriers_came(&bad);
}
