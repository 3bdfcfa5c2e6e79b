//! Bad input of every kind gets its refusal and never a fault: random calls,
//! held to what is known without a second implementation. That each answer is
//! the right one is what the proofs say and the comparisons in `reference/`
//! look at.

mod input;
mod lent;
mod rules;

use cases::random::Random;
use input::{any_input, with_books, with_small_tape, Input};
use quote_store::{calls, tape_length, Commit, CommitPlace, Preview, Refusal};
use rules::{
    Buffers, Call, CHECK, COUNT_CUTS, CUT, FORMAT, LOOKUP, MERGE, NEXT_KEY, NTH_CUT, PREVIEW,
    RECOVER, RECOVER_WORDS, RUN, TRANSACTION, TRANSACTION_WORDS,
};
use std::collections::BTreeMap;

const SEED: u64 = 20_240_611;
const CALLS: usize = 200_000;

/// How often each answer of each call came.
type Tally = BTreeMap<(&'static str, u8), usize>;

fn try_one(random: &mut Random, call: &Call, input: &Input, tally: &mut Tally) -> (u8, Buffers) {
    let mut buffers = Buffers::new(random, input);
    let number = call.try_on(&mut buffers);
    *tally.entry((call.name, number)).or_default() += 1;
    (number, buffers)
}

/// Every call once, on one input.
fn round(random: &mut Random, tally: &mut Tally) {
    let input = any_input(random);
    for call in [&FORMAT, &RUN, &CUT] {
        try_one(random, call, &input, tally);
    }
    reads(random, &input, tally);
    cuts(random, &input, tally);
    let small = with_small_tape(random, &input);
    cuts(random, &small, tally);
    let books = with_books(random, &input);
    merge(random, &books, tally);
    let look = try_one(random, &PREVIEW, &input, tally);
    let made = [TRANSACTION, TRANSACTION_WORDS].map(|call| try_one(random, &call, &input, tally));
    let redone = [RECOVER, RECOVER_WORDS].map(|call| try_one(random, &call, &input, tally));
    look_agrees(&look, &made[0]);
    if made[0].0 == 4 {
        *tally.entry((BESIDE[2], look.0)).or_default() += 1;
    }
    for (pair, numbers) in [(made, 3..5), (redone, 0..2)] {
        words_agree(&pair, numbers.clone());
        for (number, buffers) in pair {
            let answer = buffers.answer.after().get(numbers.clone());
            if let (0, Some(&[bytes, flushes])) = (number, answer) {
                play(random, &input, &buffers, (bytes as usize, flushes), tally);
            }
        }
    }
}

/// Check, and the two calls that read one leaf or two.
fn reads(random: &mut Random, input: &Input, tally: &mut Tally) {
    let (checked, _) = try_one(random, &CHECK, input, tally);
    let (found, lookup) = try_one(random, &LOOKUP, input, tally);
    let (above, next) = try_one(random, &NEXT_KEY, input, tally);
    if found == 0 {
        value_is_inside(&lookup);
    }
    if above == 0 {
        key_is_above(&next);
    }
    for (name, number) in [(BESIDE[0], found), (BESIDE[1], above)] {
        let agrees = match checked {
            0 => [0, 6].contains(&number),
            4 => [0, 4, 6].contains(&number),
            _ => number == checked,
        };
        assert!(agrees, "check {checked}, {name} {number}");
        if checked == 4 {
            *tally.entry((name, number)).or_default() += 1;
        }
    }
}

/// The calls that give all cuts of a tape.
fn cuts(random: &mut Random, input: &Input, tally: &mut Tally) {
    let (counted, all) = try_one(random, &COUNT_CUTS, input, tally);
    let (given, one) = try_one(random, &NTH_CUT, input, tally);
    for buffers in [&all, &one] {
        assert!(buffers.tape.stayed() && buffers.work.stayed());
    }
    let number = calls::count_cuts(&input.image, &input.tape);
    answers_as_safe((counted, &all), number);
    // "The counting call has only the first three."
    let wanted = match number {
        Err(refusal) => refusal.number(),
        Ok(_) if input.choices.len() != input.image.len() / 64 => 16,
        Ok(number) if input.c >= number => 18,
        Ok(_) => 0,
    };
    assert_eq!(given, wanted, "{number:?} cuts, number {}", input.c);
    let mut choices = input.choices.clone();
    let commands = calls::nth_cut(&input.image, &input.tape, input.c, &mut choices);
    answers_as_safe((given, &one), commands);
    assert!(choices == one.choices.after());
    if let Ok(c) = commands {
        let mut work = vec![0; input.image.len()];
        let cut = calls::cut(&input.image, &mut work, &input.tape, c, &choices);
        assert_eq!(cut, Ok(()));
    }
}

/// Two books into one, and the same two the other way round: what is refused for both
/// together, and the result, do not depend on which comes first.
fn merge(random: &mut Random, input: &Input, tally: &mut Tally) {
    let (number, merged) = try_one(random, &MERGE, input, tally);
    let judged = [&input.image, &input.other].map(|book| calls::check(book));
    let refused = match judged {
        [Err(refusal), _] | [Ok(()), Err(refusal)] => Some(refusal.number()),
        [Ok(()), Ok(())] => None,
    };
    match refused {
        Some(refused) => assert!(number == 1 || number == refused),
        None => assert!(![3, 4].contains(&number)),
    }
    let mut out = input.work.clone();
    let safe = calls::merge(&input.image, &input.other, &mut out);
    assert_eq!(safe.map_or_else(Refusal::number, |()| 0), number);
    assert!(out == merged.work.after());
    if refused.is_none() {
        let mut turned = input.work.clone();
        let said = calls::merge(&input.other, &input.image, &mut turned);
        assert!(said == safe && turned == out);
    }
    if number == 0 {
        assert_eq!(calls::check(&out), Ok(()));
        let [first, second] = [&input.image, &input.other].map(|book| quotes(book));
        assert_eq!(quotes(&out), first + second);
    }
}

/// How many quotes a store has.
fn quotes(image: &[u8]) -> usize {
    let next = |key: &u64| calls::next_key(image, *key).expect("the image is sound");
    std::iter::successors(next(&0), next).count()
}

/// The safe function answers as the raw call does, which has one number.
fn answers_as_safe((number, buffers): (u8, &Buffers), safe: Result<usize, Refusal>) {
    assert_eq!(safe.map_or_else(Refusal::number, |_| 0), number);
    if let (Ok(value), Some(first)) = (safe, buffers.answer.after().first()) {
        assert_eq!(value as u64, *first);
    }
}

/// What is answered where check says 4: damage in a leaf that a call does not
/// read is nothing to it.
const BESIDE: [&str; 3] = ["lookup, check 4", "next key, check 4", "preview, check 4"];

/// Runs and cuts the tape that an accepted call wrote, whole or damaged; it has
/// so many bytes and flushes.
fn play(
    random: &mut Random,
    input: &Input,
    buffers: &Buffers,
    (bytes, flushes): (usize, u64),
    tally: &mut Tally,
) {
    tape_is_good(buffers, bytes, flushes);
    let input = Input {
        tape: any_part(random, &buffers.tape.after()[..bytes]),
        ..input.clone()
    };
    try_one(random, &RUN, &input, tally);
    try_one(random, &CUT, &input, tally);
    cuts(random, &input, tally);
}

/// Document 02 (d), of a call and the same for a device without line stores:
/// "Refused: as in the present calls", where 13 is of each one's own tape; "work
/// matches the line-store device's but for log lines"; no line store. `numbers` is
/// where bytes and flushes stand in the answer.
fn words_agree(
    [(number, lines), (said, words)]: &[(u8, Buffers); 2],
    numbers: std::ops::Range<usize>,
) {
    if (*number, *said) == (0, 13) {
        return;
    }
    assert_eq!(said, number, "refused unlike the line-store call");
    if *number != 0 {
        return assert_eq!(words.answer.after(), lines.answer.after());
    }
    let (one, other) = (lines.work.after(), words.work.after());
    assert!(one[..64] == other[..64] && one[1024..] == other[1024..]);
    if let Some(&[bytes, _]) = words.answer.after().get(numbers) {
        let tape = &words.tape.after()[..bytes as usize];
        assert_eq!(count(2, tape), 0, "a line store");
    }
}

fn key_is_above(buffers: &Buffers) {
    if let [found, next, ..] = *buffers.answer.after() {
        assert!(found == 0 && next == 0 || found == 1 && next > buffers.key);
    }
}

fn value_is_inside(buffers: &Buffers) {
    if let [found, offset, length, ..] = *buffers.answer.after() {
        assert!(found <= 1 && length <= 200);
        assert!(offset + length <= buffers.image.after().len() as u64);
    }
}

/// A look and the transaction of the same list: it is refused alike, but for the
/// key asked, for what plays no part in a look and for leaves that it does not
/// read; and it shows what the transaction makes.
fn look_agrees((number, look): &(u8, Buffers), (made, transaction): &(u8, Buffers)) {
    let agrees = match made {
        // The look has no work buffer, so all that comes after may hold.
        2 => *number != 1,
        // Nor does it read every leaf; page 0 is judged by both.
        4 => ![1, 3].contains(number),
        0 | 12 | 13 => [0, 6].contains(number),
        10 | 11 => [0, 6, 8, 9].contains(number),
        8 | 9 => [6, *made].contains(number),
        _ => number == made,
    };
    assert!(agrees, "look {number}, transaction {made}");
    let answers = [look, transaction].map(|buffers| buffers.answer.after());
    if number == made && answers[1].len() >= 5 {
        assert_eq!(answers[0][0], answers[1][0], "edit at fault");
    }
    if let (Some(seen), 0) = (part(*number, look), made) {
        let work = transaction.work.after();
        let found = calls::lookup(work, look.key).expect("work is sound");
        assert_eq!(seen, found.map(|place| &work[place]));
    }
}

/// If a look is accepted and its numbers had room: the part of list or image
/// that they name, or none if the key would be missing.
fn part(number: u8, look: &Buffers) -> Option<Option<&[u8]>> {
    let (0, [edit, place, offset, length, ..]) = (number, look.answer.after()) else {
        return None;
    };
    assert!(*edit == 0 && *length <= 200);
    let part = *offset as usize..(offset + length) as usize;
    Some(match place {
        1 => {
            assert!(*length > 0, "an empty value of an edit");
            Some(&look.edits.after()[part])
        }
        2 => Some(&look.image.after()[part]),
        _ => {
            assert_eq!((*place, part), (0, 0..0));
            None
        }
    })
}

/// "On acceptance, the image after all the tape's stores"; "tape bytes past
/// those used stay"; the flushes are those on the tape, and have their barriers.
fn tape_is_good(buffers: &Buffers, bytes: usize, flushes: u64) {
    let (image, tape) = (buffers.image.before(), buffers.tape.after());
    assert!(tape[bytes..] == buffers.tape.before()[bytes..]);
    assert!(bytes <= tape_length(image.len()));
    let mut work = vec![0; image.len()];
    calls::run(image, &mut work, &tape[..bytes]).expect("the tape is well formed");
    assert!(work == buffers.work.after());
    assert_eq!(calls::check(&work), Ok(()));
    assert_eq!(count(3, &tape[..bytes]), flushes);
    assert!(barriers_follow_flushes(&kinds(&tape[..bytes])));
}

/// The kinds of the commands on a tape.
fn kinds(mut tape: &[u8]) -> Vec<u8> {
    let mut kinds = Vec::new();
    while let Some(kind) = tape.first() {
        kinds.push(*kind);
        tape = &tape[[0, 12, 68, 4, 4][*kind as usize]..];
    }
    kinds
}

/// How many commands of this kind are on the tape.
fn count(wanted: u8, tape: &[u8]) -> u64 {
    let kinds = kinds(tape);
    kinds.iter().filter(|kind| **kind == wanted).count() as u64
}

/// Document 02 (h): "Each unbroken group of flushes on every tape is followed by
/// one barrier", and no barrier stands elsewhere.
fn barriers_follow_flushes(kinds: &[u8]) -> bool {
    let next = kinds.iter().skip(1).chain([&0]);
    let good = |(kind, next): (&u8, &u8)| match kind {
        3 => [3, 4].contains(next),
        _ => *next != 4,
    };
    kinds.first() != Some(&4) && kinds.iter().zip(next).all(good)
}

/// The tape, mostly; or cut short, or with a bit turned.
fn any_part(random: &mut Random, tape: &[u8]) -> Vec<u8> {
    let mut tape = tape.to_vec();
    match random.below(4) {
        0 => tape.truncate(random.below(tape.len() + 1)),
        1 if !tape.is_empty() => {
            let at = random.below(tape.len());
            tape[at] ^= 1 << random.below(8);
        }
        _ => {}
    }
    tape
}

#[test]
fn bad_input_gets_its_refusal() {
    println!("seed {SEED}");
    let mut random = Random::new(SEED);
    let mut tally = Tally::new();
    while tally.values().sum::<usize>() < CALLS {
        round(&mut random, &mut tally);
    }
    for call in [
        FORMAT,
        CHECK,
        LOOKUP,
        NEXT_KEY,
        PREVIEW,
        MERGE,
        TRANSACTION,
        TRANSACTION_WORDS,
        RECOVER,
        RECOVER_WORDS,
        RUN,
        CUT,
        COUNT_CUTS,
        NTH_CUT,
    ] {
        every_answer_came(call.name, call.known, &tally);
    }
    every_answer_came(BESIDE[0], &[0, 4, 6], &tally);
    every_answer_came(BESIDE[1], &[0, 4], &tally);
    every_answer_came(BESIDE[2], &[0, 4], &tally);
}

fn every_answer_came(name: &'static str, known: &[u8], tally: &Tally) {
    for number in known {
        let times = tally.get(&(name, *number)).copied().unwrap_or(0);
        println!("{name:<18}{number:>3}{times:>8}");
        assert!(times > 3, "came too seldom");
    }
}

/// The safe function answers as the raw call does; these are its five numbers.
fn same_answer(given: Result<Commit, Refusal>, number: u8, five: &[u64]) {
    let numbers = match given {
        Ok(commit) => {
            let (kind, page) = match commit.place {
                CommitPlace::Header { page } => (1, page),
                CommitPlace::Root => (2, 0),
                CommitPlace::Log => (3, 0),
            };
            (0, [0, kind, page, commit.bytes, commit.flushes])
        }
        Err(refusal) => (refusal.number(), [refusal.edit(), 0, 0, 0, 0]),
    };
    assert_eq!(numbers.0, number);
    assert_eq!(numbers.1.map(|number| number as u64), five);
}

/// A transaction of the wrapper.
type Safe = fn(&[u8], &mut [u8], &mut [u8], &[u8]) -> Result<Commit, Refusal>;

/// How often the call was refused, and committed by header, root and log.
fn answers_as(raw: &Call, safe: Safe) -> [usize; 4] {
    let mut random = Random::new(SEED + 1);
    let mut times = [0; 4];
    for _ in 0..4_000 {
        let input = Input {
            answer: vec![7; 5],
            ..any_input(&mut random)
        };
        let mut buffers = Buffers::new(&mut random, &input);
        let number = raw.try_on(&mut buffers);
        let five = buffers.answer.after();
        times[five[1] as usize] += 1;
        let (mut work, mut tape) = (input.work.clone(), input.tape.clone());
        let given = safe(&input.image, &mut work, &mut tape, &input.edits);
        same_answer(given, number, five);
        assert!(work == buffers.work.after() && tape == buffers.tape.after());
    }
    println!("refused, then commits by header, root and log: {times:?}");
    times
}

#[test]
fn wrapper_answers_as_the_call() {
    let times = answers_as(&TRANSACTION, calls::transaction);
    assert!(times.iter().all(|times| *times > 3));
    let [refused, header, root, log] = answers_as(&TRANSACTION_WORDS, calls::transaction_words);
    assert!(header == 0 && [refused, root, log].iter().all(|times| *times > 3));
}

/// What the raw call returns, and its four numbers.
fn numbers_of(given: Result<Preview, Refusal>) -> (u8, [u64; 4]) {
    let (number, four) = match given {
        Ok(Preview::Missing) => (0, [0; 4]),
        Ok(Preview::InList(part)) => (0, [0, 1, part.start, part.len()]),
        Ok(Preview::InImage(part)) => (0, [0, 2, part.start, part.len()]),
        Err(refusal) => (refusal.number(), [refusal.edit(), 0, 0, 0]),
    };
    (number, four.map(|number| number as u64))
}

#[test]
fn preview_answers_as_the_call() {
    let mut random = Random::new(SEED + 2);
    let mut times = [0; 4];
    for _ in 0..4_000 {
        let input = Input {
            answer: vec![7; 4],
            ..any_input(&mut random)
        };
        let mut buffers = Buffers::new(&mut random, &input);
        let number = PREVIEW.try_on(&mut buffers);
        let given = calls::preview(&input.image, &input.edits, input.key);
        let (said, four) = numbers_of(given);
        assert_eq!((said, &four[..]), (number, buffers.answer.after()));
        let value = calls::preview_value(&input.image, &input.edits, input.key);
        assert_eq!(value.ok(), part(number, &buffers));
        times[if number == 0 { four[1] as usize } else { 3 }] += 1;
    }
    println!("missing, in the list, in the image, refused: {times:?}");
    assert!(times.iter().all(|times| *times > 3));
}
