//! Transactions on a device that may be cut, and recoveries after it, held to
//! the ledger: what the crash tests have in common.
//!
//! The tapes, the recoveries and the cuts are the proved library's; the
//! shortcuts are the reference's.

// Each test uses some of these.
#![allow(dead_code)]

use cases::empties;
use cases::lists::any_list;
use cases::random::Random;
use reference::device::{decode, run, Command, Device};
use reference::edits::{parse, Edit};
use reference::image::{table, Reader, Table};
use reference::ledger::Ledger;
use reference::numbers::work_holds_image;
use reference::page::TOP;
use reference::tape::count_flushes;
use reference::transaction::Fault;
use std::collections::BTreeMap;

pub const SEED: u64 = 20_240_605;

/// What must come on every device: a cut in each phase with each table that it may
/// hold, recoveries that are cut, of either device, and stored empty values.
pub const OUTCOMES: [&str; 11] = [
    "before the commit, old",
    "commit pending, old",
    "commit pending, new",
    "commit flushed, old",
    "commit flushed, new",
    "commit durable, new",
    "recovery cut",
    "recovery of the other device",
    BUILT_EMPTY,
    "empty value, edited",
    "empty value, recovered",
];

/// Document 02 (g), "Stored ones work as before": a store to start from that was
/// built with an empty value.
pub const BUILT_EMPTY: &str = "empty value, built";

/// Document 02 (j): what a transaction under a top, or of a root index that splits, may
/// be like. It commits "by one header, by the root word or by the log".
pub const TALL: [&str; 7] = [
    "under a top: by a header",
    "under a top: by the root word",
    "under a top: by the log",
    "a new top",
    "a top copied",
    "an index page more",
    "an index page fewer",
];

/// The calls under test, with the numbers of their answers.
pub mod calls {
    use reference::device::Device;
    use reference::numbers::{of_recovery, of_transaction};
    use reference::recovery::recover_with;
    use reference::transaction::{transaction_with, Fault};

    pub fn transaction(
        (device, fault): (Device, Fault),
        image: &mut [u8],
        work: &mut [u8],
        tape: &mut [u8],
        list: &mut [u8],
    ) -> (u8, [u64; 5]) {
        // There is no proved shortcut: these are the reference's.
        if fault != Fault::None {
            let answer = transaction_with(device, fault, image, work, tape, list);
            return of_transaction(&answer);
        }
        let make = match device {
            Device::Lines => proved::transaction,
            Device::Words => proved::transaction_words,
        };
        let mut answer = [0; 5];
        (make(image, work, tape, list, &mut answer), answer)
    }

    pub fn recover(
        (device, fault): (Device, Fault),
        image: &mut [u8],
        work: &mut [u8],
        tape: &mut [u8],
    ) -> (u8, [u64; 2]) {
        if fault != Fault::None {
            let (number, two) = of_recovery(&recover_with(device, fault, image, work, tape));
            return (number, two.unwrap_or_default());
        }
        let make = match device {
            Device::Lines => proved::recover,
            Device::Words => proved::recover_words,
        };
        let mut answer = [0; 2];
        (make(image, work, tape, &mut answer), answer)
    }

    pub use proved::cut;
}

/// How often each thing happened.
#[derive(Default)]
pub struct Tally {
    pub times: BTreeMap<&'static str, usize>,
    pub refused: BTreeMap<u8, usize>,
    pub cuts: usize,
}

impl Tally {
    pub fn count(&mut self, what: &'static str) {
        *self.times.entry(what).or_default() += 1;
    }

    /// What happened in another test too.
    pub fn add(&mut self, other: Tally) {
        for (what, times) in other.times {
            *self.times.entry(what).or_default() += times;
        }
        for (number, times) in other.refused {
            *self.refused.entry(number).or_default() += times;
        }
        self.cuts += other.cuts;
    }

    pub fn print(&self) {
        println!("{:<40}{:>8}", "transactions cut", self.cuts);
        for (what, times) in &self.times {
            println!("{what:<40}{times:>8}");
        }
        println!("transactions refused, by number: {:?}", self.refused);
    }

    /// All of this happened.
    pub fn came(&self, wanted: &[&str]) {
        for what in wanted {
            assert!(self.times.contains_key(what), "never came: {what}");
        }
    }
}

/// Where a cut falls.
#[derive(Clone, Copy, Debug, PartialEq)]
pub enum Phase {
    BeforeCommit,
    CommitPending,
    /// Flushed, with no barrier after that yet.
    CommitFlushed,
    /// Document 02 (h): "flushed and past a barrier".
    CommitDurable,
}

impl Phase {
    /// "Whether a store is issued or flushed is judged by the commands before
    /// the cut." The commit store is the first store to its place's line.
    pub fn after(self, command: &Command, commit_line: usize) -> Phase {
        let stores = command.stored_line() == Some(commit_line);
        let flushes = *command == Command::Flush { line: commit_line };
        match self {
            Phase::BeforeCommit if stores => Phase::CommitPending,
            Phase::CommitPending if flushes => Phase::CommitFlushed,
            Phase::CommitFlushed if *command == Command::Barrier => Phase::CommitDurable,
            same => same,
        }
    }
}

/// A tape to be cut, and the image it is for.
pub struct Cuttable {
    pub image: Vec<u8>,
    pub tape: Vec<u8>,
    pub commands: Vec<Command>,
}

impl Cuttable {
    pub fn new(image: &[u8], tape: &[u8]) -> Cuttable {
        Cuttable {
            image: image.to_vec(),
            tape: tape.to_vec(),
            commands: decode(tape, image.len()).expect("the tape is well formed"),
        }
    }

    fn any(&self, is: impl Fn(&Command) -> bool) -> bool {
        self.commands.iter().any(is)
    }

    pub fn cut(&mut self, c: usize, choices: &mut [u8]) -> Vec<u8> {
        let mut work = vec![0; self.image.len()];
        let number = calls::cut(&mut self.image, &mut work, &mut self.tape, c, choices);
        assert_eq!(number, 0, "c is within the tape");
        work
    }
}

/// An accepted transaction: where it commits, its tape, and the image after all
/// of it.
pub struct Sent {
    pub place: &'static str,
    pub commit_line: usize,
    pub tape: Cuttable,
    pub work: Vec<u8>,
}

/// The test so far: a list of transactions on one store after another.
pub struct Test {
    pub random: Random,
    pub tally: Tally,
    pub device: Device,
    faults: Faults,
}

/// What is broken, of the transaction and of the recovery.
pub type Faults = (Fault, Fault);

pub const UNBROKEN: Faults = (Fault::None, Fault::None);

/// Stores to start from, how many transactions each has, and as what one counts
/// that holds an empty value.
pub type Stores = (fn(&mut Random) -> Vec<u8>, usize, &'static str);

/// A transaction on this image, which becomes the next one's.
pub type One = fn(&mut Test, &mut Vec<u8>, &mut Ledger) -> Result<(), String>;

impl Test {
    pub fn new(device: Device, faults: Faults) -> Test {
        Test::of_seed(SEED, device, faults)
    }

    pub fn of_seed(seed: u64, device: Device, faults: Faults) -> Test {
        Test {
            random: Random::new(seed),
            tally: Tally::default(),
            device,
            faults,
        }
    }

    /// Stores and transactions, each with its cuts, until there are cuts enough; an
    /// error says which promise was broken.
    pub fn go_on(
        &mut self,
        cuts: usize,
        (any_store, transactions, with_empty): Stores,
        one_transaction: One,
    ) -> Result<(), String> {
        while self.tally.cuts < cuts {
            let mut image = any_store(&mut self.random);
            let mut ledger = Ledger::new(&image);
            self.count_if_empty(table(&image).as_ref(), with_empty);
            for _ in 0..transactions {
                one_transaction(self, &mut image, &mut ledger)?;
            }
        }
        Ok(())
    }

    fn count_if_empty(&mut self, table: Option<&Table>, what: &'static str) {
        if table.is_some_and(|table| empties::any_stored(table)) {
            self.tally.count(what);
        }
    }

    /// Edits for this store.
    pub fn any_list(&mut self, image: &[u8]) -> Vec<u8> {
        let keys: Vec<u64> = table(image).unwrap().iter().map(|entry| entry.0).collect();
        any_list(&mut self.random, &keys)
    }

    /// One transaction; none if it is refused.
    pub fn send(
        &mut self,
        image: &mut [u8],
        list: &mut [u8],
        ledger: &mut Ledger,
    ) -> Result<Option<Sent>, String> {
        let old_work = self.random.bytes(image.len());
        let short = self.random.one_in(12);
        let old_tape = vec![self.random.byte(); if short { 100 } else { 65_536 }];
        let (mut work, mut tape) = (old_work.clone(), old_tape.clone());
        let variant = (self.device, self.faults.0);
        let (number, answer) = calls::transaction(variant, image, &mut work, &mut tape, list);
        ledger.feed(list, number == 0);
        if number != 0 {
            *self.tally.refused.entry(number).or_default() += 1;
            let left = match work_holds_image(number) {
                true => &*image,
                false => &old_work,
            };
            let stayed = work == *left && tape == old_tape;
            return stayed.then_some(None).ok_or("a refusal's buffers".into());
        }
        let [_, kind, page, bytes, flushes] = answer.map(|number| number as usize);
        if tape[bytes..] != old_tape[bytes..] {
            return Err("tape bytes past those used".into());
        }
        let tape = Cuttable::new(image, &tape[..bytes]);
        whole_tape(&tape, &work, flushes, ledger)?;
        self.count_edited(list, ledger);
        self.count_tall(image, &work, kind);
        Ok(Some(Sent {
            place: self.place(kind, &tape)?,
            commit_line: if kind == 1 { 16 * page } else { 0 },
            tape,
            work,
        }))
    }

    /// An accepted list that updates or deletes a stored empty value.
    fn count_edited(&mut self, list: &[u8], ledger: &Ledger) {
        let before = ledger.count() - 1;
        let was_empty = |edit: &Edit| ledger.value(edit.key, before) == Some(&[]);
        if parse(list).is_ok_and(|edits| edits.iter().any(was_empty)) {
            self.tally.count("empty value, edited");
        }
    }

    /// A transaction that begins or ends under a top.
    fn count_tall(&mut self, before: &[u8], after: &[u8], kind: usize) {
        let root = |image| Reader::new(image).expect("it is sound").root;
        let (old, new) = (root(before), root(after));
        if new.kind != TOP {
            return;
        }
        if old.kind != TOP {
            return self.tally.count("a new top");
        }
        self.tally.count(TALL[kind - 1]);
        if old.page != new.page {
            self.tally.count("a top copied");
        }
        match (old.records.len(), new.records.len()) {
            (old, new) if old < new => self.tally.count("an index page more"),
            (old, new) if old > new => self.tally.count("an index page fewer"),
            _ => {}
        }
    }

    /// The commit place's name. Document 02 (d): without line stores no header
    /// commits, and there is "no kind 2 command".
    fn place(&self, kind: usize, tape: &Cuttable) -> Result<&'static str, String> {
        let line_store = |command: &Command| matches!(command, Command::LineStore { .. });
        if self.device == Device::Words && (kind == 1 || tape.any(line_store)) {
            return Err("a line store, or a commit by a header".into());
        }
        let full = tape.any(|command| *command == Command::Flush { line: 15 });
        let one = !tape.any(|command| *command == Command::Flush { line: 2 });
        Ok(match kind {
            1 => "commit by a header",
            2 => "commit by the root word",
            _ if full => "commit by a full log",
            _ if one => "commit by a log of one header",
            _ => "commit by the log",
        })
    }

    /// A recovery that must be accepted: work and tape. Now and then it is that
    /// of the other device: nothing in an image says which one it is on.
    pub fn recover(&mut self, image: &mut [u8]) -> Result<(Vec<u8>, Vec<u8>), String> {
        let device = match (self.device, self.random.one_in(8)) {
            (Device::Lines, false) | (Device::Words, true) => Device::Lines,
            (Device::Words, false) | (Device::Lines, true) => Device::Words,
        };
        if device != self.device {
            self.tally.count("recovery of the other device");
        }
        let mut work = vec![0; image.len()];
        let mut tape = vec![0; 2_000];
        let variant = (device, self.faults.1);
        let (number, [bytes, _]) = calls::recover(variant, image, &mut work, &mut tape);
        if number != 0 {
            return Err(format!("recovery refused {number}"));
        }
        tape.truncate(bytes as usize);
        let mut after = vec![0; image.len()];
        run(image, &mut after, &tape).map_err(|_| "recovery's tape")?;
        if after != work {
            return Err("recovery's work".into());
        }
        Ok((work, tape))
    }

    /// Before the commit store the recovered store holds what it held, once
    /// that store is flushed and past a barrier what the ledger then holds, and
    /// between one of the two.
    pub fn judge(&mut self, image: &[u8], ledger: &Ledger, phase: Phase) -> Result<(), String> {
        let table: Option<Table> = table(image);
        let last = ledger.count();
        let old = ledger.holds(table.as_ref(), last - 1);
        let new = ledger.holds(table.as_ref(), last);
        self.tally.count(match (phase, old, new) {
            (_, true, true) => "recovered, tables equal",
            (Phase::BeforeCommit, true, false) => "before the commit, old",
            (Phase::CommitPending, true, false) => "commit pending, old",
            (Phase::CommitPending, false, true) => "commit pending, new",
            (Phase::CommitFlushed, true, false) => "commit flushed, old",
            (Phase::CommitFlushed, false, true) => "commit flushed, new",
            (Phase::CommitDurable, false, true) => "commit durable, new",
            _ => return Err(format!("{phase:?}: holds old {old}, holds new {new}")),
        });
        self.count_if_empty(table.as_ref(), "empty value, recovered");
        Ok(())
    }
}

/// The accepted answer, its tape run to the end.
fn whole_tape(tape: &Cuttable, work: &[u8], flushes: usize, ledger: &Ledger) -> Result<(), String> {
    let mut after = vec![0; work.len()];
    run(&tape.image, &mut after, &tape.tape).map_err(|_| "tape malformed")?;
    if after != work {
        return Err("work is not the image after the tape".into());
    }
    if !ledger.holds(table(work).as_ref(), ledger.count()) {
        return Err("work does not hold the ledger's table".into());
    }
    if count_flushes(&tape.commands) != flushes {
        return Err("flush count".into());
    }
    Ok(())
}

/// What breaks a promise, and after how many cuts: the broken variant must be
/// caught on these devices.
pub fn caught(
    faults: Faults,
    devices: &[Device],
    test_all: fn(&mut Test) -> Result<(), String>,
) -> Vec<String> {
    let mut broken = Vec::new();
    for &device in devices {
        let mut test = Test::new(device, faults);
        let answer = test_all(&mut test);
        let cuts = test.tally.cuts;
        println!("{faults:?}, {device:?}: {answer:?} after {cuts} cuts");
        broken.push(answer.expect_err("it was not caught"));
    }
    broken
}
