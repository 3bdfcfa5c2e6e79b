//! What tests share whose tapes are worked out by hand.

use super::{compare_transaction, Call};
use cases::random::Random;
use reference::device::{decode, Command, Device};
use reference::edits::{Edit, Kind};

/// A command as (kind, place); a barrier's place is 0.
pub type Outline = Vec<(u8, usize)>;

pub const BARRIER: (u8, usize) = (4, 0);

pub fn outline(tape: &[u8], image: &[u8]) -> Outline {
    let short = |command: &Command| match command {
        Command::WordStore { word, .. } => (1, *word),
        Command::LineStore { line, .. } => (2, *line),
        Command::Flush { line } => (3, *line),
        Command::Barrier => BARRIER,
    };
    decode(tape, image.len())
        .unwrap()
        .iter()
        .map(short)
        .collect()
}

/// Word stores from one word to another, in rising order.
pub fn words(from: usize, to: usize) -> Outline {
    (from..=to).map(|word| (1, word)).collect()
}

/// Flushes from one line to another, in rising order, and their barrier.
pub fn flushes(from: usize, to: usize) -> Outline {
    let lines = (from..=to).map(|line| (3, line));
    lines.chain([BARRIER]).collect()
}

pub fn edit(kind: Kind, key: u64, length: usize) -> Vec<u8> {
    let value = vec![7; length];
    Edit { kind, key, value }.encode()
}

/// An accepted transaction: its numbers, its tape and the new image.
pub fn send(device: Device, image: &[u8], edits: Vec<u8>) -> ([u64; 5], Vec<u8>, Vec<u8>) {
    let call = Call::new(&mut Random::new(1), image, edits);
    let (number, after) = compare_transaction(device, 0, &call);
    assert_eq!(number, 0);
    let five: [u64; 5] = after.answer.try_into().unwrap();
    let tape = after.tape[..five[3] as usize].to_vec();
    (five, tape, after.work)
}
