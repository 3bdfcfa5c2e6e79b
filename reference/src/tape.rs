//! Document 01, 'The transaction's tape': the commands that lead from one
//! image to the next, for a transaction and for recovery. Document 02 (d): the
//! same on a device without line stores. Document 02 (h): the barriers.

use crate::device::{Command, Device, LINE, PAGE, WORD};
use crate::image::{reached, Mark};
use crate::transaction::Fault;
use crate::{refuse, Refusal};
use std::collections::BTreeSet;

/// "The answer names the commit place: a header, the root word or the log."
#[derive(Clone, Copy, Debug, PartialEq, Eq)]
pub enum CommitPlace {
    Header { page: usize },
    Root,
    Log,
}

/// The groups of flushes of a tape: those of stage A, of the log lines, of the
/// mark, of the headers, and the last one, of line 0 or of the one changed place.
#[derive(Clone, Copy, Debug, PartialEq, Eq)]
pub enum Group {
    Records,
    Log,
    Mark,
    Headers,
    Last,
}

const LINES_IN_PAGE: usize = PAGE / LINE;
const WORDS_IN_LINE: usize = LINE / WORD;

fn word_store(word: usize, bytes: &[u8]) -> Command {
    Command::WordStore {
        word,
        bytes: bytes.try_into().expect("a word has 8 bytes"),
    }
}

/// One line store; or document 02 (d), "Each line is written as eight word
/// stores in rising order", those of words that don't change too.
fn line_stores(device: Device, line: usize, bytes: &[u8]) -> Vec<Command> {
    let bytes: [u8; LINE] = bytes.try_into().expect("a line has 64 bytes");
    match device {
        Device::Lines => vec![Command::LineStore { line, bytes }],
        Device::Words => (bytes.chunks(WORD).enumerate())
            .map(|(i, word)| word_store(line * WORDS_IN_LINE + i, word))
            .collect(),
    }
}

/// A page's header line.
pub fn header_bytes(image: &[u8], page: usize) -> &[u8] {
    &image[page * PAGE..][..LINE]
}

/// What stores a page's header line.
pub fn header_stores(device: Device, page: usize, bytes: &[u8]) -> Vec<Command> {
    line_stores(device, header_line(page), bytes)
}

/// The line of a page's header; page 0's is that of the mark and the root word.
pub fn header_line(page: usize) -> usize {
    page * LINES_IN_PAGE
}

/// Document 02 (h): "Each unbroken group of flushes on every tape is followed by
/// one barrier." On every tape a store comes between two groups.
pub fn flushed(fault: Fault, group: Group, lines: &[usize]) -> Vec<Command> {
    let mut tape: Vec<Command> = (lines.iter())
        .map(|&line| Command::Flush { line })
        .collect();
    if !tape.is_empty() && fault != Fault::NoBarrier(group) {
        tape.push(Command::Barrier);
    }
    tape
}

pub fn root_store(image: &[u8]) -> Command {
    word_store(1, &image[8..16])
}

pub fn mark_store(mark: Option<Mark>) -> Command {
    word_store(0, &mark.map_or([0; WORD], |mark| mark.encode()))
}

/// The transaction's tape, and its commit place; refusal 12 if there are "more
/// than 15 changed headers where the log is needed".
pub fn commands(
    device: Device,
    before: &[u8],
    after: &[u8],
    fault: Fault,
) -> Result<(Vec<Command>, CommitPlace), Refusal> {
    let (mut tape, lines) = stage_a(before, after);
    let mut late = flushed(fault, Group::Records, &lines);
    if fault != Fault::RecordsFlushedLate {
        tape.append(&mut late);
    }
    let headers = changed_headers(before, after);
    let root = before[8..16] != after[8..16];
    let by = written_by(device, fault);
    let place = match (headers.as_slice(), root) {
        // Document 02 (d): without line stores "a change of any header, even
        // one, goes through the log".
        (&[page], false) if device == Device::Lines => {
            tape.extend(header_stores(by, page, header_bytes(after, page)));
            tape.extend(flushed(fault, Group::Last, &[header_line(page)]));
            CommitPlace::Header { page }
        }
        ([], true) => {
            tape.push(root_store(after));
            tape.extend(flushed(fault, Group::Last, &[header_line(0)]));
            CommitPlace::Root
        }
        // No place changes only if an update wrote over the old bytes.
        ([], false) => CommitPlace::Root,
        _ if headers.len() > 15 => return refuse(12),
        _ => {
            tape.extend(logged(by, before, after, &headers, fault));
            CommitPlace::Log
        }
    };
    tape.extend(late);
    Ok((tape, place))
}

/// As which device lines are written. "A header written as eight word stores" is
/// a shortcut where one header alone commits.
fn written_by(device: Device, fault: Fault) -> Device {
    match fault {
        Fault::HeaderByWords => Device::Words,
        _ => device,
    }
}

/// "Stage A: a word store for each word that differs, outside page 0 and
/// outside headers reached before, in rising order; then a flush of each line
/// so stored, rising." The stores, and those lines.
fn stage_a(before: &[u8], after: &[u8]) -> (Vec<Command>, Vec<usize>) {
    let reached_before = reached(before);
    let mut stores = Vec::new();
    let mut lines = BTreeSet::new();
    for word in PAGE / WORD..before.len() / WORD {
        let line = word / WORDS_IN_LINE;
        let page = line / LINES_IN_PAGE;
        let header = line.is_multiple_of(LINES_IN_PAGE);
        let bytes = word * WORD..(word + 1) * WORD;
        if before[bytes.clone()] == after[bytes.clone()] {
            continue;
        }
        if header && reached_before.contains(&page) {
            continue;
        }
        stores.push(word_store(word, &after[bytes]));
        lines.insert(line);
    }
    (stores, lines.into_iter().collect())
}

/// "The changed places are headers of pages reached both before and after, and
/// the root word": the headers, by rising page.
fn changed_headers(before: &[u8], after: &[u8]) -> Vec<usize> {
    let reached_after = reached(after);
    let both = reached(before)
        .into_iter()
        .filter(|page| reached_after.contains(page));
    both.filter(|&page| header_bytes(before, page) != header_bytes(after, page))
        .collect()
}

/// "More: log lines 1 to k take the new headers by rising page, then their
/// flushes; the mark; flush of line 0; header stores, rising; their flushes;
/// the root word if it differs; mark 0; flush of line 0."
fn logged(
    device: Device,
    before: &[u8],
    after: &[u8],
    headers: &[usize],
    fault: Fault,
) -> Vec<Command> {
    let k = headers.len();
    let mut tape = Vec::new();
    for (i, &page) in headers.iter().enumerate() {
        tape.extend(line_stores(device, 1 + i, header_bytes(after, page)));
    }
    let log: Vec<usize> = (1..=k).collect();
    tape.extend(flushed(fault, Group::Log, &log));
    // "Bytes 2-3 = the new root page", also where the root stays.
    let root = u64::from_le_bytes(after[8..16].try_into().unwrap()) as usize;
    tape.push(mark_store(Some(Mark { headers: k, root })));
    tape.extend(flushed(fault, Group::Mark, &[header_line(0)]));
    for &page in headers {
        tape.extend(header_stores(device, page, header_bytes(after, page)));
    }
    let lines: Vec<usize> = headers.iter().map(|&page| header_line(page)).collect();
    let flushes = flushed(fault, Group::Headers, &lines);
    if fault == Fault::MarkClearedEarly {
        tape.extend(finish(fault, before, after));
        tape.extend(flushes);
    } else {
        tape.extend(flushes);
        tape.extend(finish(fault, before, after));
    }
    tape
}

/// "The root word if it differs; mark 0; flush of line 0."
pub fn finish(fault: Fault, before: &[u8], after: &[u8]) -> Vec<Command> {
    let mut tape = Vec::new();
    if before[8..16] != after[8..16] {
        tape.push(root_store(after));
    }
    tape.push(mark_store(None));
    tape.extend(flushed(fault, Group::Last, &[header_line(0)]));
    tape
}

/// The tape's bytes.
pub fn encode(commands: &[Command]) -> Vec<u8> {
    commands.iter().flat_map(Command::encode).collect()
}

/// "The number of flushes in the answer is the number of flush commands on the
/// tape."
pub fn count_flushes(commands: &[Command]) -> usize {
    let flushes = (commands.iter()).filter(|command| matches!(command, Command::Flush { .. }));
    flushes.count()
}

/// Document 02 (h): the barriers on the tape, which no answer gives.
pub fn count_barriers(commands: &[Command]) -> usize {
    let barriers = (commands.iter()).filter(|&command| *command == Command::Barrier);
    barriers.count()
}
