//! Random transactions, their tapes cut at every command, chains of cut
//! recoveries, all held to the ledger. And each line of 'Shortcuts that break a
//! curve', and each barrier of document 02 (h) left out, which the same test must
//! catch. All of it on a device with line stores, and on one without (document 02
//! (d)). Stores have one index page or stand under a top (document 02 (j)). The
//! last tenth starts from stores in which transactions left empty values (document 02
//! (g)), and the second half of it from two books merged into one (document 02 (i));
//! and more are cut in which index pages split, are copied or are lost, or which fill
//! the log.

mod crashes;
mod earlier;

use cases::images::LAST_KEY;
use cases::lists::List;
use cases::merges::{any_third, pair};
use cases::random::Random;
use cases::stores::{any_store, even_leaves, full_index, tall};
use cases::threads::in_threads;
use crashes::{
    calls, caught, Cuttable, Faults, One, Phase, Sent, Stores, Tally, Test, BUILT_EMPTY, OUTCOMES,
    SEED, TALL, UNBROKEN,
};
use reference::device::{Device, Pending};
use reference::edits::{Edit, Kind};
use reference::image::table;
use reference::ledger::Ledger;
use reference::tape::Group;
use reference::transaction::Fault;

/// At a point of a tape where a cut may keep pending stores in at most so many
/// ways, all are tried, else so many of them.
type Ways = (usize, usize);

/// What is tried on a device.
#[derive(Clone, Copy)]
struct Plan {
    /// Cuts of transactions, besides those of recoveries.
    cuts: usize,
    before_commit: Ways,
    from_commit: Ways,
    of_recovery: Ways,
    /// Of so many images with a mark, the recovery of one is cut everywhere.
    one_of: usize,
}

impl Plan {
    fn ways(&self, phase: Phase) -> Ways {
        match phase {
            Phase::BeforeCommit => self.before_commit,
            _ => self.from_commit,
        }
    }
}

const LINES: Plan = Plan {
    cuts: 1_000_000,
    before_commit: (8, 2),
    from_commit: (32, 16),
    of_recovery: (16, 4),
    one_of: 32,
};

/// Of one line every first part of its eight stores is tried, 9 ways, and past
/// the commit of two lines, 81.
const WORDS: Plan = Plan {
    cuts: 300_000,
    before_commit: (9, 1),
    from_commit: (81, 4),
    of_recovery: (9, 2),
    one_of: 128,
};

const BUILT: Stores = (any_store, 16, BUILT_EMPTY);
const TALL_ONES: Stores = (|random| tall(random).image, 2, BUILT_EMPTY);
const FULL: Stores = (|random| full_index(random).image, 4, BUILT_EMPTY);
const LONG_LOGS: Stores = (|random| even_leaves(random).image, 1, BUILT_EMPTY);
const EARLIER: Stores = (earlier::any_store, 16, EARLIER_EMPTY);
const EARLIER_EMPTY: &str = "empty value, by the earlier rule";
const MERGED: Stores = (merged, 16, MERGED_EMPTY);
const MERGED_EMPTY: &str = "empty value, merged";

/// Of 40 parts of the cuts so many on these stores.
type Part = (usize, Stores, One);

const OTHERS: [Part; 5] = [
    (1, LONG_LOGS, Test::updates_far_apart),
    (2, TALL_ONES, Test::one_transaction),
    (2, FULL, Test::inserts),
    (2, EARLIER, Test::one_transaction),
    (2, MERGED, Test::one_transaction),
];

/// What is tried at the same time, each with a seed of its own.
const THREADS: [&[Part]; 4] = [
    &[(10, BUILT, Test::one_transaction)],
    &[(10, BUILT, Test::one_transaction)],
    &[(11, BUILT, Test::one_transaction)],
    &OTHERS,
];

/// "An accepted call .. completes when its whole tape is done."
const TAPE_PENDING: &str = "a whole tape leaves stores pending";
const RECOVERY_PENDING: &str = "a whole recovery leaves stores pending";

/// Two books that the proved library merged, mostly of a few leaves, at times of as
/// many as there can be.
fn merged(random: &mut Random) -> Vec<u8> {
    loop {
        let leaves = match random.below(16) {
            0 => random.between(15, 32),
            _ => random.between(0, 8),
        };
        let pair = pair(random, leaves);
        let [mut first, mut second] = pair.images();
        let mut third = any_third(random, pair.leaves);
        // One large image takes as long as many small ones.
        let size = third.len() / 1024 <= pair.leaves + 12;
        if size && proved::merge(&mut first, &mut second, &mut third) == 0 {
            return third;
        }
    }
}

fn keys(image: &[u8]) -> Vec<u64> {
    let table = table(image).expect("the store is sound");
    table.iter().map(|entry| entry.0).collect()
}

/// In how many ways a cut can keep "for each line on its own, some first part of
/// its pending stores".
fn ways(pending: &Pending) -> usize {
    let ways = |all: usize, &stores: &usize| all.saturating_mul(stores + 1);
    pending.stores.values().fold(1, ways)
}

/// Sets the choices to one of the ways by its number.
fn choose(pending: &Pending, mut way: usize, choices: &mut [u8]) {
    for (&line, &stores) in &pending.stores {
        choices[line] = (way % (stores + 1)) as u8;
        way /= stores + 1;
    }
}

/// Sets the choices to any way: mostly all stores ("or all if fewer"), mostly none,
/// or between.
fn choose_any(pending: &Pending, random: &mut Random, choices: &mut [u8]) {
    let manner = random.below(3);
    for (&line, &stores) in &pending.stores {
        let between = random.between(0, stores) as u8;
        choices[line] = match manner {
            0 if !random.one_in(4) => 0,
            1 if !random.one_in(4) => 255,
            _ => between,
        };
    }
}

impl Test {
    fn plan(&self) -> Plan {
        match self.device {
            Device::Lines => LINES,
            Device::Words => WORDS,
        }
    }

    fn survive(&mut self) -> Result<(), String> {
        let built: [Part; 1] = [(31, BUILT, Test::one_transaction)];
        self.survive_parts(&built)?;
        self.survive_parts(&OTHERS)
    }

    /// So many cuts more of each part.
    fn survive_parts(&mut self, parts: &[Part]) -> Result<(), String> {
        for &(part, stores, one) in parts {
            let cuts = self.tally.cuts + self.plan().cuts * part / 40;
            self.go_on(cuts, stores, one)?;
        }
        Ok(())
    }

    /// Stores under a top alone, or with a root index about to split.
    fn survive_tall(&mut self) -> Result<(), String> {
        let cuts = self.plan().cuts / 4;
        self.go_on(cuts, TALL_ONES, Test::one_transaction)
    }

    /// Updates in about as many leaves as the log holds headers.
    fn updates_far_apart(
        &mut self,
        image: &mut Vec<u8>,
        ledger: &mut Ledger,
    ) -> Result<(), String> {
        let keys = keys(image);
        if keys.len() < 16 {
            return Ok(());
        }
        let list = List::spread(&mut self.random, &keys).bytes();
        self.transaction_of(list, image, ledger)
    }

    /// A transaction of one to three inserts beside quotes that are there, so that leaves
    /// split.
    fn inserts(&mut self, image: &mut Vec<u8>, ledger: &mut Ledger) -> Result<(), String> {
        let keys = keys(image);
        let mut list = Vec::new();
        for _ in 0..self.random.between(1, 3) {
            let key = self.random.pick(&keys) + 1;
            let value = self.random.bytes(8);
            if key <= LAST_KEY && keys.binary_search(&key).is_err() {
                let kind = Kind::Insert;
                list.extend(Edit { kind, key, value }.encode());
            }
        }
        self.transaction_of(list, image, ledger)
    }

    /// One transaction, with all its cuts. The store goes on after its whole
    /// tape, or after a cut and recovery, which begins a new list.
    fn one_transaction(&mut self, image: &mut Vec<u8>, ledger: &mut Ledger) -> Result<(), String> {
        let list = self.any_list(image);
        self.transaction_of(list, image, ledger)
    }

    fn transaction_of(
        &mut self,
        mut list: Vec<u8>,
        image: &mut Vec<u8>,
        ledger: &mut Ledger,
    ) -> Result<(), String> {
        let Some(mut sent) = self.send(image, &mut list, ledger)? else {
            return Ok(());
        };
        self.tally.count(sent.place);
        let crashed = self.all_cuts(&mut sent, ledger)?;
        *image = sent.work;
        if self.random.one_in(2) {
            *image = crashed;
            *ledger = Ledger::new(image);
        }
        Ok(())
    }

    /// Every cut of the tape and recovery after it; gives one of the recovered
    /// images.
    fn all_cuts(&mut self, sent: &mut Sent, ledger: &Ledger) -> Result<Vec<u8>, String> {
        let (tape, plan) = (&mut sent.tape, self.plan());
        let mut going_on = tape.image.clone();
        let (mut pending, mut phase) = (Pending::default(), Phase::BeforeCommit);
        for c in 0..=tape.commands.len() {
            if c > 0 {
                pending.add(&tape.commands[c - 1]);
                phase = phase.after(&tape.commands[c - 1], sent.commit_line);
            }
            // Most of the many cuts before the commit of a large image are
            // left out, to save time.
            let early = phase == Phase::BeforeCommit;
            if early && tape.image.len() > 12 * 1024 && !self.random.one_in(16) {
                continue;
            }
            for crashed in self.cuts_after(tape, c, &pending, plan.ways(phase)) {
                self.tally.cuts += 1;
                if crashed[0] == 1 && self.random.one_in(plan.one_of) {
                    self.cut_recovery(&crashed, ledger, phase)?;
                }
                let recovered = self.recoveries(crashed)?;
                self.judge(&recovered, ledger, phase)?;
                if self.random.one_in(c + 1) {
                    going_on = recovered;
                }
            }
        }
        if phase != Phase::CommitDurable || !pending.stores.is_empty() {
            return Err(TAPE_PENDING.into());
        }
        Ok(going_on)
    }

    /// The images that a cut after c commands may leave: all of them if they
    /// are at most so many, else some.
    fn cuts_after(
        &mut self,
        tape: &mut Cuttable,
        c: usize,
        pending: &Pending,
        (all, some): Ways,
    ) -> Vec<Vec<u8>> {
        // A line with nothing pending may have any choice.
        let mut choices = vec![self.random.byte(); tape.image.len() / 64];
        let ways = ways(pending);
        let count = if ways <= all { ways } else { some };
        let mut images = Vec::new();
        for way in 0..count {
            if ways <= all {
                choose(pending, way, &mut choices);
            } else {
                choose_any(pending, &mut self.random, &mut choices);
            }
            images.push(tape.cut(c, &mut choices));
        }
        images
    }

    /// The recovery of this image cut at every command, and recovered again.
    fn cut_recovery(&mut self, image: &[u8], ledger: &Ledger, phase: Phase) -> Result<(), String> {
        let (_, tape) = self.recover(&mut image.to_vec())?;
        let mut tape = Cuttable::new(image, &tape);
        let mut pending = Pending::default();
        for c in 0..=tape.commands.len() {
            if c > 0 {
                pending.add(&tape.commands[c - 1]);
            }
            for crashed in self.cuts_after(&mut tape, c, &pending, self.plan().of_recovery) {
                self.tally.count("recovery cut");
                let recovered = self.recoveries(crashed)?;
                self.judge(&recovered, ledger, phase)?;
            }
        }
        if !pending.stores.is_empty() {
            return Err(RECOVERY_PENDING.into());
        }
        Ok(())
    }

    /// Recoveries, cut again and again, the last one whole.
    fn recoveries(&mut self, mut image: Vec<u8>) -> Result<Vec<u8>, String> {
        loop {
            if self.random.one_in(8) {
                self.without_tape(&mut image)?;
            }
            let (work, tape) = self.recover(&mut image)?;
            if tape.is_empty() || self.random.one_in(2) {
                self.tally.count(if tape.is_empty() {
                    "recovery without a log"
                } else {
                    "recovery with a log"
                });
                return Ok(work);
            }
            let mut tape = Cuttable::new(&image, &tape);
            let c = self.random.between(0, tape.commands.len());
            let pending = Pending::after(&tape.commands[..c]);
            let mut cuts = self.cuts_after(&mut tape, c, &pending, (0, 1));
            image = cuts.remove(0);
            self.tally.count("recovery cut");
        }
    }

    /// "13, work then holding the image", if there is anything to store.
    fn without_tape(&mut self, image: &mut [u8]) -> Result<(), String> {
        let mut work = vec![0; image.len()];
        match calls::recover((self.device, Fault::None), image, &mut work, &mut []) {
            (0, [0, 0]) => {}
            (13, _) => self.tally.count("recovery refused 13"),
            answer => return Err(format!("recovery without a tape: {answer:?}")),
        }
        if work != image {
            return Err("work of a recovery without a tape".into());
        }
        Ok(())
    }
}

/// Every cut on this device recovers, and all of this came besides.
fn every_cut_recovers(device: Device, places: &[&str]) {
    println!("{device:?}, seed {SEED}");
    let tests = in_threads(THREADS.len(), |number| {
        let mut test = Test::of_seed(SEED + number as u64, device, UNBROKEN);
        (test.survive_parts(THREADS[number]), test.tally)
    });
    let mut tally = Tally::default();
    for (answer, other) in tests {
        tally.add(other);
        if answer.is_err() {
            tally.print();
        }
        assert_eq!(answer, Ok(()));
    }
    tally.print();
    tally.came(&[
        "commit by the root word",
        "commit by the log",
        "commit by a full log",
        "recovery refused 13",
        "recovery with a log",
        "recovery without a log",
        EARLIER_EMPTY,
        MERGED_EMPTY,
    ]);
    tally.came(places);
    tally.came(&OUTCOMES);
    let by_header = &TALL[usize::from(device == Device::Words)..];
    tally.came(by_header);
    // Document 02 (j): 10 never occurs.
    for number in (5..=9).chain([11, 12, 13, 19]) {
        let came = tally.refused.contains_key(&number);
        assert!(came, "never refused: {number}");
    }
}

#[test]
fn every_cut_recovers_with_line_stores() {
    every_cut_recovers(Device::Lines, &["commit by a header"]);
}

#[test]
fn every_cut_recovers_without_line_stores() {
    every_cut_recovers(Device::Words, &["commit by a log of one header"]);
}

const BOTH: [Device; 2] = [Device::Lines, Device::Words];

/// A broken variant, which must be caught on stores of every shape, and on those under a
/// top alone.
fn caught_at_both_heights(faults: Faults, devices: &[Device]) -> Vec<String> {
    let all = caught(faults, devices, Test::survive);
    [all, caught(faults, devices, Test::survive_tall)].concat()
}

/// "A header written as eight word stores", where it is the one changed place.
/// On a device without line stores such a header goes through the log.
#[test]
fn header_by_words_is_caught() {
    caught_at_both_heights((Fault::HeaderByWords, Fault::None), &[Device::Lines]);
}

/// "An update over the old bytes because the length matches."
#[test]
fn update_in_place_is_caught() {
    caught_at_both_heights((Fault::UpdateInPlace, Fault::None), &BOTH);
}

/// "The mark cleared before the headers are flushed."
#[test]
fn mark_cleared_early_is_caught() {
    caught_at_both_heights((Fault::MarkClearedEarly, Fault::None), &BOTH);
}

/// "A page freed in a transaction taken again in it."
#[test]
fn freed_page_taken_is_caught() {
    caught_at_both_heights((Fault::FreedPageTaken, Fault::None), &BOTH);
}

/// "Record lines flushed after the header."
#[test]
fn records_flushed_late_is_caught() {
    caught_at_both_heights((Fault::RecordsFlushedLate, Fault::None), &BOTH);
}

/// A variant without a barrier: what it breaks is a cut's store, and not that
/// stores are pending at the end.
fn loses_a_store(faults: Faults) {
    for broken in caught_at_both_heights(faults, &BOTH) {
        assert!(![TAPE_PENDING, RECOVERY_PENDING].contains(&&broken[..]));
    }
}

/// Document 02 (h): "a store counts as durable once its line has been flushed after
/// it and a barrier has come after that flush". Without the first barrier a header
/// may be kept and the record that it lists lost.
#[test]
fn no_barrier_after_the_records_is_caught() {
    loses_a_store((Fault::NoBarrier(Group::Records), Fault::None));
}

/// The mark may be kept and a log line lost.
#[test]
fn no_barrier_after_the_log_is_caught() {
    loses_a_store((Fault::NoBarrier(Group::Log), Fault::None));
}

/// A header may be kept and the mark lost.
#[test]
fn no_barrier_after_the_mark_is_caught() {
    loses_a_store((Fault::NoBarrier(Group::Mark), Fault::None));
}

/// The mark's clearing may be kept and a header lost; in a recovery too.
#[test]
fn no_barrier_after_the_headers_is_caught() {
    loses_a_store((Fault::NoBarrier(Group::Headers), Fault::None));
    loses_a_store((Fault::None, Fault::NoBarrier(Group::Headers)));
}

/// The whole tape is done and its commit, or the mark's clearing, may still be lost.
#[test]
fn no_last_barrier_is_caught() {
    let last = Fault::NoBarrier(Group::Last);
    let rows = [
        ((last, Fault::None), TAPE_PENDING),
        ((Fault::None, last), RECOVERY_PENDING),
    ];
    for (faults, wanted) in rows {
        for broken in caught_at_both_heights(faults, &BOTH) {
            assert_eq!(broken, wanted);
        }
    }
}
