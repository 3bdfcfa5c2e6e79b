//! Document 02 (e): every cut of random transactions whose tapes have at most 12
//! commands, by its number, and every cut of the recoveries after them, held to
//! the ledger. With line stores and without.

mod crashes;

use cases::random::Random;
use cases::stores;
use crashes::{caught, Cuttable, Phase, Sent, Stores, Test, BUILT_EMPTY, OUTCOMES, SEED, UNBROKEN};
use reference::cuts::MOST_COMMANDS;
use reference::device::{Command, Device};
use reference::ledger::Ledger;
use reference::tape::Group;
use reference::transaction::Fault;

/// Cuts of transactions, besides those of recoveries, on each device.
const CUTS: usize = 50_000;
const STORES: Stores = (any_store, 2, BUILT_EMPTY);

/// Half of them have no room, so that the root word commits.
fn any_store(random: &mut Random) -> Vec<u8> {
    match random.below(2) {
        0 => stores::full(random).image,
        _ => stores::any_store(random),
    }
}

impl Cuttable {
    fn is_small(&self) -> bool {
        self.commands.len() <= MOST_COMMANDS
    }

    /// How many cuts there are.
    fn count(&mut self) -> usize {
        let mut answer = [0];
        let number = proved::count_cuts(&mut self.image, &mut self.tape, &mut answer);
        assert_eq!(number, 0, "the tape is small");
        answer[0] as usize
    }

    /// Cut number r: the count of its commands and the image that it leaves.
    fn nth(&mut self, r: usize) -> (usize, Vec<u8>) {
        let (mut choices, mut answer) = (vec![255; self.image.len() / 64], [0]);
        let (image, tape) = (&mut self.image, &mut self.tape);
        let number = proved::nth_cut(image, tape, r, &mut choices, &mut answer);
        assert_eq!(number, 0, "r is below the number of cuts");
        let c = answer[0] as usize;
        (c, self.cut(c, &mut choices))
    }
}

impl Sent {
    fn phase(&self, c: usize) -> Phase {
        let after = |phase: Phase, command| phase.after(command, self.commit_line);
        let commands = &self.tape.commands[..c];
        commands.iter().fold(Phase::BeforeCommit, after)
    }
}

impl Test {
    /// One transaction, with all its cuts if its tape is small. If it is not, the
    /// power fails before its commit and the same list is sent again: what is
    /// durable by then is not stored a second time.
    fn one_transaction(&mut self, image: &mut Vec<u8>, ledger: &mut Ledger) -> Result<(), String> {
        let mut list = self.any_list(image);
        let Some(mut sent) = self.send(image, &mut list, ledger)? else {
            return Ok(());
        };
        if !sent.tape.is_small() {
            *image = self.fail_early(&mut sent.tape, ledger)?;
            *ledger = Ledger::new(image);
            let Some(again) = self.send(image, &mut list, ledger)? else {
                return Ok(());
            };
            sent = again;
        }
        if sent.tape.is_small() {
            self.every_cut(&mut sent, ledger)?;
        } else if self.random.one_in(8) {
            self.fail_late(&mut sent, ledger)?;
        }
        *image = sent.work;
        Ok(())
    }

    /// The same without what is done for longer tapes.
    fn only_if_small(&mut self, image: &mut Vec<u8>, ledger: &mut Ledger) -> Result<(), String> {
        let mut list = self.any_list(image);
        let Some(mut sent) = self.send(image, &mut list, ledger)? else {
            return Ok(());
        };
        if sent.tape.is_small() {
            self.every_cut(&mut sent, ledger)?;
        }
        *image = sent.work;
        Ok(())
    }

    /// The store after a cut when most of stage A is done, or all of it: the
    /// stores to words past page 0 that a tape begins with.
    fn fail_early(&mut self, tape: &mut Cuttable, ledger: &Ledger) -> Result<Vec<u8>, String> {
        let in_stage_a =
            |command: &&Command| matches!(command, Command::WordStore { word: 128.., .. });
        let mut c = tape.commands.iter().take_while(in_stage_a).count();
        let mut choices = vec![255; tape.image.len() / 64];
        if self.random.one_in(2) {
            c = c.saturating_sub(self.random.below(6));
            for choice in &mut choices {
                if self.random.one_in(8) {
                    *choice = self.random.below(8) as u8;
                }
            }
        }
        let (work, _) = self.recover(&mut tape.cut(c, &mut choices))?;
        self.judge(&work, ledger, Phase::BeforeCommit)?;
        Ok(work)
    }

    /// A cut past the commit: the recovery's tape may be small although this one
    /// is not.
    fn fail_late(&mut self, sent: &mut Sent, ledger: &Ledger) -> Result<(), String> {
        let all = sent.tape.commands.len();
        let committed = |c: &usize| sent.phase(*c) == Phase::CommitDurable;
        let first = (0..=all).find(committed).ok_or("no commit")?;
        let c = self.random.between(first, all);
        let mut choices = self.random.bytes(sent.tape.image.len() / 64);
        let crashed = sent.tape.cut(c, &mut choices);
        self.recover_from(crashed, ledger, Phase::CommitDurable)
    }

    /// Every cut of a small tape, each with a recovery.
    fn every_cut(&mut self, sent: &mut Sent, ledger: &Ledger) -> Result<(), String> {
        self.tally.count(sent.place);
        let count = sent.tape.count();
        for r in 0..count {
            let (c, crashed) = sent.tape.nth(r);
            let phase = sent.phase(c);
            self.tally.cuts += 1;
            let last = r + 1 == count;
            if last && (phase != Phase::CommitDurable || crashed != sent.work) {
                return Err("a whole tape leaves stores pending".into());
            }
            self.recover_from(crashed, ledger, phase)?;
        }
        Ok(())
    }

    /// A recovery, whole and cut everywhere; that after a cut is whole.
    fn recover_from(
        &mut self,
        mut crashed: Vec<u8>,
        ledger: &Ledger,
        phase: Phase,
    ) -> Result<(), String> {
        let (work, tape) = self.recover(&mut crashed)?;
        self.judge(&work, ledger, phase)?;
        let mut tape = Cuttable::new(&crashed, &tape);
        if tape.commands.is_empty() || !tape.is_small() {
            return Ok(());
        }
        for r in 0..tape.count() {
            let (_, mut crashed) = tape.nth(r);
            self.tally.count("recovery cut");
            let (work, _) = self.recover(&mut crashed)?;
            self.judge(&work, ledger, phase)?;
        }
        Ok(())
    }
}

/// Every cut of small tapes on this device recovers; they commit at these places.
fn every_cut_recovers(device: Device, places: &[&str]) {
    println!("{device:?}, seed {SEED}");
    let mut test = Test::new(device, UNBROKEN);
    let answer = test.go_on(CUTS, STORES, Test::one_transaction);
    test.tally.print();
    assert_eq!(answer, Ok(()));
    test.tally.came(places);
    test.tally.came(&OUTCOMES);
    let transactions: usize = places.iter().map(|place| test.tally.times[place]).sum();
    println!("{transactions} transactions with a small tape");
    assert!(transactions > CUTS / 20);
}

/// A log takes more than 12 commands: with one header and the root word 13, three
/// for each of log, mark and header, and four to end.
#[test]
fn every_cut_recovers_with_line_stores() {
    let places = ["commit by a header", "commit by the root word"];
    every_cut_recovers(Device::Lines, &places);
}

/// Any header goes through the log, so only the root word commits.
#[test]
fn every_cut_recovers_without_line_stores() {
    every_cut_recovers(Device::Words, &["commit by the root word"]);
}

/// 'Shortcuts that break a curve', but for those that take a freed page or clear
/// the mark early, whose tapes are long: a small tape's cuts alone show each. And a
/// barrier left out, which is seen too where the tape is then small.
#[test]
fn shortcuts_are_caught() {
    let only_small = |test: &mut Test| test.go_on(CUTS, STORES, Test::only_if_small);
    for fault in [
        Fault::HeaderByWords,
        Fault::UpdateInPlace,
        Fault::RecordsFlushedLate,
        Fault::NoBarrier(Group::Records),
        Fault::NoBarrier(Group::Last),
    ] {
        caught((fault, Fault::None), &[Device::Lines], only_small);
    }
}
