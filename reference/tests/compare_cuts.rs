//! Document 02 (e): the number of a tape's cuts and each cut by its number, on
//! random tapes. The answers and every buffer of the proved library are those of
//! the reference, which lists all cuts.

mod both;

use both::cuts::Tape;
use both::number;
use cases::cuts::{any_cut_number, any_small_tape, cut_numbers, SmallTape};
use cases::random::Random;
use cases::tapes::any_choices;
use reference::cuts::{pending, Cut, MOST_COMMANDS};
use reference::device::{decode, Command, Pending};
use reference::Refusal;
use std::collections::BTreeMap;

const SEED: u64 = 20_240_611;
const TAPES: usize = 60_000;
const GUESSES: usize = 10_000;

/// How often each answer was given; 0 is accepted.
type Answers = BTreeMap<u8, usize>;

/// What came.
#[derive(Default)]
struct Tally {
    counts: Answers,
    cuts: Answers,
    /// Tapes by their number of commands, where their cuts were counted.
    commands: [usize; MOST_COMMANDS + 1],
    /// Tapes of which every cut was asked for.
    whole: usize,
    /// Cuts that keep two stores of one line or more.
    deep: usize,
    most: usize,
    /// Tapes by what document 02 (h) is about.
    flushed: usize,
    finished: usize,
}

impl Tally {
    fn count(&mut self, count: &Result<usize, Refusal>, tape: &Tape) {
        *self.counts.entry(number(count)).or_default() += 1;
        if let Ok(cuts) = &tape.cuts {
            // The last cut comes after all commands.
            self.commands[cuts[cuts.len() - 1].count] += 1;
            self.most = self.most.max(cuts.len());
            let commands = decode(tape.tape, tape.image.len()).unwrap();
            self.flushed += usize::from(commands_do(&commands, leaves_flushed));
            self.finished += usize::from(commands_do(&commands, finishes));
        }
    }

    fn cut(&mut self, answer: &Result<usize, Refusal>, choices: &[u8]) {
        *self.cuts.entry(number(answer)).or_default() += 1;
        let deep = answer.is_ok() && choices.iter().any(|&choice| choice > 1);
        self.deep += usize::from(deep);
    }
}

/// Whether some command does so, from what is pending before it and after it.
fn commands_do(commands: &[Command], does: fn(&Command, [&Pending; 2]) -> bool) -> bool {
    let mut before = Pending::default();
    commands.iter().any(|command| {
        let mut after = before.clone();
        after.add(command);
        let done = does(command, [&before, &after]);
        before = after;
        done
    })
}

/// A flush, after which a store of its line is still pending.
fn leaves_flushed(command: &Command, [_, after]: [&Pending; 2]) -> bool {
    matches!(command, Command::Flush { line } if after.of(*line) > 0)
}

/// A barrier that makes stores durable.
fn finishes(command: &Command, [before, after]: [&Pending; 2]) -> bool {
    *command == Command::Barrier && before.stores != after.stores
}

/// Room for the answer: mostly for its one number.
fn any_room(random: &mut Random) -> usize {
    random.pick(&[1, 1, 1, 0, 2])
}

/// All calls with one tape.
fn compare(random: &mut Random, tally: &mut Tally, small: &SmallTape) {
    let mut tape = Tape::new(&small.image, &small.tape);
    let count = tape.count(any_room(random));
    tally.count(&count, &tape);
    let lines = small.image.len() / 64;
    let cuts = count.unwrap_or(0);
    let mut given = Vec::new();
    for r in cut_numbers(random, cuts) {
        let (answer, after) = tape.nth(r, &random.bytes(lines), any_room(random));
        tally.cut(&answer, &after);
        given.extend(answer.map(|c| (c, after)));
    }
    // "Cuts rise by that count, then by the choice bytes compared line by line
    // from line 0", as pairs and vectors do; so none is given twice.
    assert!(given.is_sorted_by(|cut, next| cut < next), "order");
    tally.whole += usize::from(count.is_ok() && given.len() == cuts);
    // Choices of any length, for a number within or past the end.
    for _ in 0..2 {
        let r = any_cut_number(random, cuts);
        let choices = any_choices(random, lines);
        let (answer, after) = tape.nth(r, &choices, any_room(random));
        tally.cut(&answer, &after);
    }
    tape.unchanged();
}

/// Each of these answers came, and often, and no other.
fn came(name: &str, answers: &Answers, wanted: &[u8]) {
    let total: usize = answers.values().sum();
    println!("{name}: {total} calls; how often each answer came (0 is accepted): {answers:?}");
    assert_eq!(answers.keys().copied().collect::<Vec<u8>>(), wanted);
    assert!(answers.values().all(|&times| times > TAPES / 50));
}

#[test]
fn cuts_are_the_references() {
    println!("seed {SEED}");
    let mut random = Random::new(SEED);
    let mut tally = Tally::default();
    for _ in 0..TAPES {
        let small = any_small_tape(&mut random);
        compare(&mut random, &mut tally, &small);
    }
    came("count of cuts", &tally.counts, &[0, 1, 14, 17]);
    came("cut by its number", &tally.cuts, &[0, 1, 14, 16, 17, 18]);
    println!("counted tapes of 0 to 12 commands: {:?}", tally.commands);
    println!("tapes with every cut asked for: {}", tally.whole);
    println!("cuts with two stores of a line or more: {}", tally.deep);
    println!("the most cuts of a tape: {}", tally.most);
    println!("tapes with a flushed store pending: {}", tally.flushed);
    println!("tapes with one that a barrier finishes: {}", tally.finished);
    assert!(tally.flushed > TAPES / 20 && tally.finished > TAPES / 30);
    assert!(tally.commands.iter().all(|&tapes| tapes > TAPES / 100));
    assert!(tally.whole > TAPES / 4 && tally.deep > TAPES);
    // 12 stores to 12 lines.
    assert_eq!(tally.most, 8191);
}

/// The cut that keeps as many stores as these choices do: "as many pending
/// stores as its choice byte says, or all if fewer".
fn same_cut(tape: &Tape, c: usize, choices: &[u8]) -> Cut {
    let commands = decode(tape.tape, tape.image.len()).unwrap();
    let kept = |(line, stores): (usize, u8)| (line, stores.min(choices[line]));
    Cut {
        count: c,
        choices: pending(&commands[..c]).into_iter().map(kept).collect(),
    }
}

/// The image that a cut leaves, by the proved library.
fn cut_image(tape: &Tape, c: usize, choices: &mut [u8]) -> Vec<u8> {
    let (mut image, mut bytes) = (tape.image.to_vec(), tape.tape.to_vec());
    let mut work = vec![0; image.len()];
    let number = proved::cut(&mut image, &mut work, &mut bytes, c, choices);
    assert_eq!(number, 0, "cut after {c}, tape {:?}", tape.tape);
    work
}

/// Whatever the count and the choices, a listed cut leaves the same image as
/// `cut` does; whether the choices had to be lowered for that.
fn guess(random: &mut Random, tape: &mut Tape) -> bool {
    let cuts = tape.cuts.as_ref().unwrap();
    let c = random.between(0, cuts[cuts.len() - 1].count);
    let lines = tape.image.len() / 64;
    let mut choices = any_choices(random, lines);
    choices.resize(lines, 1);
    let same = same_cut(tape, c, &choices);
    let r = cuts.iter().position(|cut| *cut == same);
    let (count, mut given) = tape.nth(r.expect("it is listed"), &choices, 1);
    assert_eq!(count, Ok(c));
    let image = cut_image(tape, c, &mut choices);
    assert!(image == cut_image(tape, c, &mut given), "another image");
    given != choices
}

/// Testers need no other cuts than those listed, and `cut` accepts each of them.
#[test]
fn every_image_is_of_a_listed_cut() {
    println!("seed {}", SEED + 1);
    let mut random = Random::new(SEED + 1);
    let (mut guesses, mut lowered, mut accepted) = (0, 0, 0);
    while guesses < GUESSES {
        let small = any_small_tape(&mut random);
        let mut tape = Tape::new(&small.image, &small.tape);
        let Ok(cuts) = tape.count(1) else { continue };
        guesses += 1;
        lowered += usize::from(guess(&mut random, &mut tape));
        for r in cut_numbers(&mut random, cuts) {
            let choices = vec![0; small.image.len() / 64];
            if let (Ok(c), mut given) = tape.nth(r, &choices, 1) {
                cut_image(&tape, c, &mut given);
                accepted += 1;
            }
        }
    }
    println!("{guesses} cuts, {lowered} of them with choices above the pending stores");
    println!("{accepted} listed cuts accepted");
    assert!(lowered > GUESSES / 2 && accepted > 10 * GUESSES);
}
