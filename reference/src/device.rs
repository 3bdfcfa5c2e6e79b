//! Document 01, 'The device', and from 'Each call and when it says no' the
//! lines on run and cut. Document 02 (h): the barrier, and when a store is
//! durable.

use crate::{refuse, Refusal};
use std::collections::BTreeMap;

/// "A word is 8 bytes at a multiple of 8, a line 64 bytes at a multiple of 64,
/// a page 1,024 bytes."
pub const WORD: usize = 8;
pub const LINE: usize = 64;
pub const PAGE: usize = 1024;

/// What a device writes whole. `Lines`: "Kind 2, line store .. is atomic."
/// `Words`: document 02 (d), "memory is atomic for 8 bytes only". Nothing in an
/// image says which device it is on.
#[derive(Clone, Copy, Debug, PartialEq, Eq)]
pub enum Device {
    Lines,
    Words,
}

/// One command of a tape.
#[derive(Clone, Debug, PartialEq, Eq)]
pub enum Command {
    WordStore { word: usize, bytes: [u8; WORD] },
    LineStore { line: usize, bytes: [u8; LINE] },
    Flush { line: usize },
    Barrier,
}

impl Command {
    /// The line that a store goes to; flushes and barriers store nothing.
    pub fn stored_line(&self) -> Option<usize> {
        match self {
            Command::WordStore { word, .. } => Some(word / (LINE / WORD)),
            Command::LineStore { line, .. } => Some(*line),
            Command::Flush { .. } | Command::Barrier => None,
        }
    }

    /// The store made on an image; a flush and a barrier change no byte.
    pub fn apply(&self, image: &mut [u8]) {
        match self {
            Command::WordStore { word, bytes } => {
                image[word * WORD..][..WORD].copy_from_slice(bytes);
            }
            Command::LineStore { line, bytes } => {
                image[line * LINE..][..LINE].copy_from_slice(bytes);
            }
            Command::Flush { .. } | Command::Barrier => {}
        }
    }

    /// "A command starts with its kind (1 byte), a zero byte and its place
    /// (2 bytes)", and the bytes stored follow. Document 02 (h): "Command kind
    /// 4, place 0, nothing following, is the barrier."
    pub fn encode(&self) -> Vec<u8> {
        let (kind, place, data) = match self {
            Command::WordStore { word, bytes } => (1, *word, bytes.to_vec()),
            Command::LineStore { line, bytes } => (2, *line, bytes.to_vec()),
            Command::Flush { line } => (3, *line, Vec::new()),
            Command::Barrier => (4, 0, Vec::new()),
        };
        let place = (place as u16).to_le_bytes();
        let mut out = vec![kind, 0, place[0], place[1]];
        out.extend(data);
        out
    }
}

/// "An image has N pages, 8 to 64." Refusal 1 of every call.
pub fn check_length(image: &[u8]) -> Result<(), Refusal> {
    let pages = image.len() / PAGE;
    if !image.len().is_multiple_of(PAGE) || !(8..=64).contains(&pages) {
        return refuse(1);
    }
    Ok(())
}

/// Refusal 2: "the work buffer's length isn't the image's".
pub fn check_work(image: &[u8], work: &[u8]) -> Result<(), Refusal> {
    if work.len() != image.len() {
        return refuse(2);
    }
    Ok(())
}

/// "A tape is commands end to end." Refusal 14: "malformed tape or a place
/// outside", wherever on the tape it is.
pub fn decode(tape: &[u8], image_length: usize) -> Result<Vec<Command>, Refusal> {
    let mut commands = Vec::new();
    let mut rest = tape;
    while !rest.is_empty() {
        let (command, size) = decode_one(rest)?;
        let (place, places) = match command {
            Command::WordStore { word, .. } => (word, image_length / WORD),
            Command::LineStore { line, .. } => (line, image_length / LINE),
            Command::Flush { line } => (line, image_length / LINE),
            Command::Barrier => (0, 1),
        };
        if place >= places {
            return refuse(14);
        }
        commands.push(command);
        rest = &rest[size..];
    }
    Ok(commands)
}

/// The command at the start of these bytes, and how many bytes it takes.
fn decode_one(bytes: &[u8]) -> Result<(Command, usize), Refusal> {
    if bytes.len() < 4 || bytes[1] != 0 {
        return refuse(14);
    }
    let place = u16::from_le_bytes([bytes[2], bytes[3]]) as usize;
    let data = &bytes[4..];
    match bytes[0] {
        1 if data.len() >= WORD => {
            let bytes = data[..WORD].try_into().unwrap();
            Ok((Command::WordStore { word: place, bytes }, 4 + WORD))
        }
        2 if data.len() >= LINE => {
            let bytes = data[..LINE].try_into().unwrap();
            Ok((Command::LineStore { line: place, bytes }, 4 + LINE))
        }
        3 => Ok((Command::Flush { line: place }, 4)),
        // Document 02 (h): "14 now also for kind 4 with a place other than 0".
        4 if place == 0 => Ok((Command::Barrier, 4)),
        _ => refuse(14),
    }
}

/// The stores that are not durable, as commands are done. Document 02 (h): "a
/// store counts as durable once its line has been flushed after it and a barrier
/// has come after that flush." So the durable ones are a first part of a line's
/// stores.
#[derive(Clone, Debug, Default)]
pub struct Pending {
    /// The lines that have some, and how many.
    pub stores: BTreeMap<usize, usize>,
    /// How many of them each line had at its last flush since the last barrier.
    flushed: BTreeMap<usize, usize>,
}

impl Pending {
    pub fn after(commands: &[Command]) -> Pending {
        let mut pending = Pending::default();
        commands.iter().for_each(|command| pending.add(command));
        pending
    }

    pub fn add(&mut self, command: &Command) {
        match command {
            Command::Flush { line } => {
                self.flushed.insert(*line, self.of(*line));
            }
            Command::Barrier => self.finish_flushes(),
            store => {
                let line = store.stored_line().expect("all others store");
                *self.stores.entry(line).or_default() += 1;
            }
        }
    }

    fn finish_flushes(&mut self) {
        for (line, durable) in std::mem::take(&mut self.flushed) {
            match self.of(line) - durable {
                0 => self.stores.remove(&line),
                left => self.stores.insert(line, left),
            };
        }
    }

    /// How many stores of a line.
    pub fn of(&self, line: usize) -> usize {
        self.stores.get(&line).copied().unwrap_or(0)
    }
}

/// "Run's work is the image after all stores."
pub fn run(image: &[u8], work: &mut [u8], tape: &[u8]) -> Result<(), Refusal> {
    check_length(image)?;
    check_work(image, work)?;
    let commands = decode(tape, image.len())?;
    work.copy_from_slice(image);
    for command in &commands {
        command.apply(work);
    }
    Ok(())
}

/// "Cut's work keeps, per line, as many pending stores as its choice byte
/// says, or all if fewer."
pub fn cut(
    image: &[u8],
    work: &mut [u8],
    tape: &[u8],
    c: usize,
    choices: &[u8],
) -> Result<(), Refusal> {
    check_length(image)?;
    check_work(image, work)?;
    if choices.len() != image.len() / LINE {
        return refuse(16);
    }
    let commands = decode(tape, image.len())?;
    if c > commands.len() {
        return refuse(15);
    }
    work.copy_from_slice(image);
    let done = &commands[..c];
    let pending = Pending::after(done);
    let mut stores: Vec<Vec<&Command>> = vec![Vec::new(); choices.len()];
    for command in done {
        if let Some(line) = command.stored_line() {
            stores[line].push(command);
        }
    }
    // "For each line on its own, some first part of its pending stores", behind
    // those that are durable.
    for (line, stores) in stores.iter().enumerate() {
        let durable = stores.len() - pending.of(line);
        let kept = durable + choices[line] as usize;
        stores.iter().take(kept).for_each(|store| store.apply(work));
    }
    Ok(())
}
