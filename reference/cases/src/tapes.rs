//! Calls of run and cut: good tapes, damaged ones, and every other ground for
//! a refusal.

use crate::random::Random;

/// The buffers and the count of one call; run uses neither count nor choices.
#[derive(Clone, Debug, PartialEq, Eq)]
pub struct DeviceCall {
    pub image: Vec<u8>,
    pub work: Vec<u8>,
    pub tape: Vec<u8>,
    pub c: usize,
    pub choices: Vec<u8>,
}

/// The lengths about each limit, and some that are no whole pages.
const LENGTHS: [usize; 21] = [
    0,
    1,
    63,
    64,
    1023,
    1024,
    7 * 1024,
    8191,
    8192,
    8193,
    8200,
    8256,
    9 * 1024,
    9 * 1024 + 512,
    63 * 1024,
    65535,
    65536,
    65537,
    65536 + 64,
    65536 + 1024,
    72 * 1024,
];

/// What kinds of commands a tape has.
#[derive(Clone, Copy)]
pub enum Mix {
    Words,
    Lines,
    Flushes,
    Barriers,
    All,
}

/// A call of any sort; about half of them are accepted.
pub fn any_call(random: &mut Random) -> DeviceCall {
    let image_length = image_length(random);
    let mut image = vec![0; image_length];
    let mut work = vec![0; work_length(random, image_length)];
    if !random.one_in(20) {
        random.fill(&mut image);
        random.fill(&mut work);
    }
    let commands = any_commands(random, image_length);
    let tape = any_tape(random, &commands, image_length);
    let c = any_count(random, commands.len());
    let choices = any_choices(random, image_length / 64);
    DeviceCall {
        image,
        work,
        tape,
        c,
        choices,
    }
}

/// A tape of good commands of the given sort, each command on its own.
pub fn commands(random: &mut Random, mix: Mix, lines: usize, count: usize) -> Vec<Vec<u8>> {
    let places: Vec<usize> = (0..lines).collect();
    (0..count).map(|_| command(random, mix, &places)).collect()
}

/// Mostly 8 pages, which keeps many calls quick.
pub(crate) fn image_length(random: &mut Random) -> usize {
    match random.below(40) {
        0..=3 => random.pick(&LENGTHS),
        4 => random.between(8, 64) * 1024,
        5 => random.below(70_000),
        _ => 8192,
    }
}

fn work_length(random: &mut Random, image_length: usize) -> usize {
    if !random.one_in(25) {
        return image_length;
    }
    match random.below(6) {
        0 => 0,
        1 => image_length + 1,
        2 => image_length.saturating_sub(1),
        3 => image_length + 1024,
        4 => image_length.saturating_sub(1024),
        _ => random.pick(&LENGTHS),
    }
}

/// Good commands for an image of this length, often many on a few lines.
fn any_commands(random: &mut Random, image_length: usize) -> Vec<Vec<u8>> {
    let lines = lines_of(image_length);
    let places = any_lines(random, lines);
    let count = match random.below(60) {
        0 => 0,
        1 => return long_commands(random, lines),
        _ => random.between(1, 40),
    };
    let mix = any_mix(random);
    (0..count).map(|_| command(random, mix, &places)).collect()
}

/// How many lines commands are made for: some also where the image has none.
pub(crate) fn lines_of(image_length: usize) -> usize {
    (image_length / 64).clamp(1, 1024)
}

/// The lines that commands are to be on: mostly a few, and some more than once.
pub(crate) fn any_lines(random: &mut Random, lines: usize) -> Vec<usize> {
    let few = match random.below(8) {
        0 => lines,
        1 => 1,
        2 => 2,
        _ => random.between(1, 12),
    };
    let mut places: Vec<usize> = (0..few).map(|_| random.below(lines)).collect();
    // The last line and the first are the likeliest to be got wrong.
    if random.one_in(3) {
        places.push(lines - 1);
        places.push(0);
    }
    places
}

pub(crate) fn any_mix(random: &mut Random) -> Mix {
    match random.below(12) {
        0 | 1 => Mix::Words,
        2 | 3 => Mix::Lines,
        4 => Mix::Flushes,
        5 => Mix::Barriers,
        _ => Mix::All,
    }
}

/// More stores pending on one line than a choice byte can count.
fn long_commands(random: &mut Random, lines: usize) -> Vec<Vec<u8>> {
    let place = [random.below(lines)];
    let count = random.between(200, 600);
    let mix = random.pick(&[Mix::Words, Mix::Words, Mix::Lines]);
    let mut commands: Vec<Vec<u8>> = (0..count).map(|_| command(random, mix, &place)).collect();
    if random.one_in(2) {
        let at = random.below(count);
        commands[at] = command(random, Mix::Flushes, &place);
    }
    if random.one_in(2) {
        let at = random.below(count);
        commands[at] = command(random, Mix::Barriers, &place);
    }
    commands
}

/// One good command on one of these lines.
pub(crate) fn command(random: &mut Random, mix: Mix, lines: &[usize]) -> Vec<u8> {
    let line = random.pick(lines);
    let kind = match mix {
        Mix::Words => 1,
        Mix::Lines => 2,
        Mix::Flushes => 3,
        Mix::Barriers => 4,
        Mix::All => random.pick(&[1, 1, 1, 2, 2, 3, 3, 4]),
    };
    let (place, size) = match kind {
        1 => (8 * line + random.below(8), 8),
        2 => (line, 64),
        3 => (line, 0),
        _ => (0, 0),
    };
    let mut bytes = vec![kind, 0, (place % 256) as u8, (place / 256) as u8];
    bytes.extend(random.bytes(size));
    bytes
}

/// The commands end to end; one tape in three is damaged.
pub(crate) fn any_tape(random: &mut Random, commands: &[Vec<u8>], image_length: usize) -> Vec<u8> {
    if !random.one_in(3) {
        return commands.concat();
    }
    if commands.is_empty() || random.one_in(8) {
        let mut tape = commands.concat();
        let junk = random.between(1, 70);
        tape.extend(random.bytes(junk));
        return tape;
    }
    let at = match random.below(3) {
        0 => 0,
        1 => commands.len() - 1,
        _ => random.below(commands.len()),
    };
    let before = commands[..at].concat();
    let bad = damage(random, &commands[at], image_length);
    // A command cut short must be the last one to be malformed by that.
    if bad.len() < commands[at].len() {
        return [before, bad].concat();
    }
    [before, bad, commands[at + 1..].concat()].concat()
}

/// One command with one thing wrong with it (a random kind may be good again).
fn damage(random: &mut Random, command: &[u8], image_length: usize) -> Vec<u8> {
    let mut bad = command.to_vec();
    match random.below(6) {
        0 => bad[0] = random.pick(&[0, 4, 5, 255, 129]),
        1 => bad[0] = random.byte(),
        2 => bad[1] = random.pick(&[1, 2, 128, 255]),
        3 => bad.truncate(random.between(1, 3)),
        4 => bad.truncate(random.between(1, command.len()) - usize::from(command.len() > 4)),
        _ => {
            let place = other_place(random, command[0], image_length);
            bad[2] = (place % 256) as u8;
            bad[3] = (place / 256 % 256) as u8;
        }
    }
    bad
}

/// The first place outside, one past it, one inside after all. A barrier has
/// place 0 alone.
fn other_place(random: &mut Random, kind: u8, image_length: usize) -> usize {
    let places = match kind {
        1 => image_length / 8,
        4 => random.pick(&[1, 2, 256]),
        _ => image_length / 64,
    };
    match random.below(5) {
        0 | 1 => places,
        2 => places + 1,
        3 => 65535,
        _ => places.saturating_sub(1),
    }
}

/// What is wrong with a barrier that comes after commands of good form.
pub fn bad_barrier(tape: &[u8]) -> Option<&'static str> {
    let mut rest = tape;
    loop {
        let size = match *rest {
            [4, 0, 0, 0, ..] => 4,
            [4, 0, _, _, ..] => return Some("barrier with a place"),
            [4, _, _, _, ..] => return Some("barrier with a second byte"),
            [1, 0, _, _, ..] => 12,
            [2, 0, _, _, ..] => 68,
            [3, 0, _, _, ..] => 4,
            _ => return None,
        };
        rest = rest.get(size..)?;
    }
}

fn any_count(random: &mut Random, commands: usize) -> usize {
    match random.below(16) {
        0 => 0,
        1 => 1,
        2 => commands + 1,
        3 => commands + random.between(1, 300),
        4 => random.pick(&[usize::MAX, usize::MAX - 1, 1 << 32, 1 << 16]),
        5..=8 => commands,
        9 => commands.saturating_sub(1),
        _ => random.below(commands + 1),
    }
}

/// Mostly one byte a line, of few stores or many.
pub fn any_choices(random: &mut Random, lines: usize) -> Vec<u8> {
    let length = match random.below(60) {
        0 => 0,
        1 => lines.saturating_sub(1),
        2 => lines + 1,
        3 => random.pick(&[1, 16, 127, 128, 129, 1023, 1024, 1025, 8192]),
        _ => lines,
    };
    let mut choices = random.bytes(length);
    let most = match random.below(8) {
        0 => 0,
        1 => return vec![255; length],
        2 | 3 => 255,
        _ => random.between(1, 8),
    };
    for choice in &mut choices {
        *choice = (*choice as usize % (most + 1)) as u8;
    }
    choices
}
