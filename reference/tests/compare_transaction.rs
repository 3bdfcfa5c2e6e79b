//! Transaction and recovery on random calls: the answer and every buffer of
//! the proved library are those of the reference. Stores are edited until
//! their pages run out; lists, images, logs and buffers are good or damaged;
//! the images to recover are cuts of these transactions, or made apart. All of
//! it on a device with line stores, and on one without (document 02 (d)), and on
//! stores of one index page and under a top (document 02 (j)). Tapes have the size
//! that suffices, unless they are to be too short.

mod writes;

use cases::damage::{damage, other_length, FIELDS};
use cases::empties::{orders, ORDERS};
use cases::images::Built;
use cases::lists::{List, FAULTS};
use cases::random::Random;
use cases::threads::in_threads;
use cases::{logs, stores};
use reference::device::{cut, decode, Command, Device};
use reference::edits::{parse, Edit, Kind};
use reference::image::{format, reached, read_page_zero, sound_leaves, table, Reader};
use reference::page::{LAST_KEY, TOP};
use reference::recovery::recover;
use std::cmp::Ordering;
use std::collections::{BTreeMap, BTreeSet};
use writes::{compare_recovery, compare_transaction, recovery_tape_size, tape_size, Call, BEFORE};

const SEED: u64 = 20_240_606;

/// The calls on a device are made in so many threads, each with a seed of its own.
const THREADS: usize = 2;

/// How often each thing came on a device.
struct Tally {
    device: Device,
    thread: usize,
    times: BTreeMap<String, usize>,
    calls: usize,
    lengths: Vec<usize>,
    /// The largest part of a tape's size that was used, in percent.
    fullest: usize,
}

impl Tally {
    fn new(device: Device, thread: usize) -> Tally {
        Tally {
            device,
            thread,
            times: BTreeMap::new(),
            calls: 0,
            lengths: vec![0; 201],
            fullest: 0,
        }
    }

    /// A call more on this image, with this answer.
    fn call(&mut self, name: &str, image: &[u8], number: u8) {
        self.calls += 1;
        self.count(format!("{name}, answer {number:>2}"));
        if root_kind(image) == Some(TOP) {
            self.count(UNDER_A_TOP);
        }
    }

    fn count(&mut self, what: impl Into<String>) {
        *self.times.entry(what.into()).or_default() += 1;
    }

    fn came(&self, what: &str) -> usize {
        self.times.get(what).copied().unwrap_or(0)
    }

    /// The next call's number: a million more in each thread.
    fn which(&self) -> usize {
        1_000_000 * self.thread + self.calls
    }

    /// What came in another thread too.
    fn add(&mut self, other: Tally) {
        for (what, times) in other.times {
            *self.times.entry(what).or_default() += times;
        }
        for (sum, times) in self.lengths.iter_mut().zip(other.lengths) {
            *sum += times;
        }
        self.calls += other.calls;
        self.fullest = self.fullest.max(other.fullest);
    }
}

/// The kind byte of the page that the root word names, if there is one.
fn root_kind(image: &[u8]) -> Option<u8> {
    let root = *image.get(8)? as usize;
    image.get(1024 * root + 4).copied()
}

/// A transaction by both.
fn send(call: &Call, tally: &mut Tally) -> (u8, Call) {
    let (number, after) = compare_transaction(tally.device, tally.which(), call);
    tally.call("transaction", &call.image, number);
    if matches!(number, 5..=11 | 19) && after.answer.len() >= 5 {
        count_refused(&call.edits, number, after.answer[0] as usize, tally);
    }
    if number == 0 {
        count_accepted(call, &after, tally);
    }
    (number, after)
}

/// A refusal that names an edit.
fn count_refused(list: &[u8], number: u8, edit: usize, tally: &mut Tally) {
    tally.count(format!("refused at edit {edit:>2}"));
    if number == 19 {
        tally.count(EMPTY[edit.min(1)]);
    }
    for order in orders(list, number, edit) {
        tally.count(order);
    }
}

/// What the accepted lists and their transactions are like.
fn count_accepted(call: &Call, after: &Call, tally: &mut Tally) {
    if let [_, kind, _, bytes, _, ..] = after.answer[..] {
        let place = ["", "a header", "the root word", "the log"][kind as usize];
        tally.count(format!("commit by {place}"));
        if root_kind(&call.image) == Some(TOP) {
            tally.count(format!("under a top: commit by {place}"));
        }
        let share = 100 * bytes as usize / tape_size(&call.image);
        tally.fullest = tally.fullest.max(share);
    }
    let edits = parse(&call.edits).unwrap();
    tally.count(format!("accepted lists of {:>2}", edits.len()));
    for edit in edits.iter().filter(|edit| edit.kind != Kind::Delete) {
        tally.lengths[edit.value.len()] += 1;
        if edit.key == 1 || edit.key == LAST_KEY {
            tally.count(format!("accepted edits of key {}", edit.key));
        }
    }
    let (old, new) = (reached(&call.image), reached(&after.work));
    let taken = new.difference(&old).count();
    tally.count(format!("new pages: {taken:>2}"));
    tally.count(match new.len().cmp(&old.len()) {
        Ordering::Less => "leaves: fewer",
        Ordering::Equal => "leaves: as many",
        Ordering::Greater => "leaves: more",
    });
    tally.count(match call.image.len() / 1024 {
        8..=12 => "pages: 8 to 12",
        13..=63 => "pages: more",
        _ => "pages: 64",
    });
    if edits.len() == 1 {
        count_one_edit(call, after, tally);
    }
    let both: Vec<usize> = old.intersection(&new).copied().collect();
    count_places(&call.image, &after.work, &both, tally);
}

/// The top, if there is one, and the index pages.
struct Above {
    top: Option<usize>,
    indexes: BTreeSet<usize>,
    leaves: BTreeSet<usize>,
}

impl Above {
    fn of(image: &[u8]) -> Above {
        let root = Reader::new(image).expect("the image is sound").root;
        let leaves = sound_leaves(image).expect("the image is sound");
        let (top, indexes) = match root.kind {
            TOP => (Some(root.page), root.names().collect()),
            _ => (None, BTreeSet::from([root.page])),
        };
        Above {
            top,
            indexes,
            leaves: leaves.iter().map(|leaf| leaf.page).collect(),
        }
    }
}

/// What one edit alone made of the pages. Pages are taken from the highest free one
/// down, so one that is free, above the last one taken and not reached at the end was
/// taken for a copy that then split.
fn count_one_edit(call: &Call, after: &Call, tally: &mut Tally) {
    let (old, new) = (Above::of(&call.image), Above::of(&after.work));
    let (before, now) = (reached(&call.image), reached(&after.work));
    let new_pages: Vec<usize> = now.difference(&before).copied().collect();
    let pages = call.image.len() / 1024;
    let taken = new_pages.first().map_or(0, |&last| {
        (last..pages).filter(|page| !before.contains(page)).count()
    });
    tally.count(format!("one edit takes {taken} pages"));
    let forced = taken > new_pages.len();
    let more = new.indexes.len().cmp(&old.indexes.len());
    let lost_leaf = new.leaves.len() < old.leaves.len();
    let what = match (old.top, new.top) {
        (None, None) => return,
        (None, Some(_)) if forced => "index split under a new top, copied before",
        (None, Some(_)) => "index split under a new top, left in place before",
        (Some(top), Some(now)) => match (more, top == now) {
            (Ordering::Greater, true) if forced => "lower index split, copied before",
            (Ordering::Greater, true) => "lower index split, left in place before",
            (Ordering::Greater, false) => "lower index split, top copied",
            (Ordering::Equal, true) if old.indexes != new.indexes => "lower index copied",
            (Ordering::Equal, true) if lost_leaf => "leaf lost, its index page stays",
            (Ordering::Equal, true) if old.leaves.len() < new.leaves.len() => {
                "leaf split, no page above it"
            }
            (Ordering::Equal, true) => "under a top, no page above the leaf",
            (Ordering::Equal, false) => "lower index copied, top copied",
            (Ordering::Less, _) => "index page lost",
        },
        (Some(_), None) => panic!("a top page stays"),
    };
    tally.count(what);
}

/// What one edit alone may make of the pages above the leaves.
const ABOVE: [&str; 11] = [
    "index split under a new top, copied before",
    "index split under a new top, left in place before",
    "lower index split, copied before",
    "lower index split, left in place before",
    "lower index split, top copied",
    "lower index copied",
    "lower index copied, top copied",
    "leaf lost, its index page stays",
    "leaf split, no page above it",
    "under a top, no page above the leaf",
    "index page lost",
];

/// How many places changed, where these pages are reached before and after.
fn count_places(before: &[u8], after: &[u8], both: &[usize], tally: &mut Tally) {
    let header = |page: &usize| page * 1024..page * 1024 + 64;
    let changed = both
        .iter()
        .filter(|page| before[header(page)] != after[header(page)]);
    let moved = before[8..16] != after[8..16];
    tally.count(match (changed.count(), moved) {
        (15, true) => "root: copied, 15 headers changed",
        (_, true) => "root: copied",
        (15, false) => "root: same, 15 headers changed",
        (_, false) => "root: same",
    });
}

/// A store, edited until it refuses for want of pages, or long enough.
fn life(random: &mut Random, tally: &mut Tally) {
    let mut image = stores::any_store(random);
    for _ in 0..40 {
        let list = any_list(random, &image);
        let (number, after) = step(random, &image, list, tally);
        if number == 0 {
            image = after.work;
        }
        // Deletes may make room again.
        if number == 11 && random.one_in(3) {
            break;
        }
    }
}

/// A list for this store, and its fault if it has one.
fn any_list(random: &mut Random, image: &[u8]) -> (Vec<u8>, Option<usize>) {
    let table = table(image).expect("the image is sound");
    let keys: Vec<u64> = table.iter().map(|entry| entry.0).collect();
    let mut list = List::any(random, &keys);
    if !random.one_in(5) {
        return (list.bytes(), None);
    }
    let fault = random.below(FAULTS.len());
    list.spoil(random, fault);
    if random.one_in(4) {
        let second = random.below(FAULTS.len());
        list.spoil(random, second);
    }
    (list.bytes(), Some(fault))
}

/// One insert into a full leaf under a full index page, where pages run out at any step
/// or suffice.
fn growth(random: &mut Random, tally: &mut Tally) {
    let built = stores::full_index(random);
    let has = |key: u64| {
        built
            .table
            .binary_search_by_key(&key, |entry| entry.0)
            .is_ok()
    };
    let mut beside = (0..30).map(|_| built.table[random.below(built.table.len())].0 + 1);
    let Some(key) = beside.find(|&key| key <= LAST_KEY && !has(key)) else {
        return;
    };
    let value = vec![7; 8];
    let kind = Kind::Insert;
    let list = Edit { kind, key, value }.encode();
    let (number, _) = step(random, &built.image, (list, None), tally);
    if number == 11 {
        let free = built.pages - 1 - built.reached().count();
        tally.count(format!("11 under a full index page, {free} pages free"));
    }
}

/// Edits of a store without room, so that the root moves, alone or beside other changes.
fn move_of_root(random: &mut Random, tally: &mut Tally) {
    let built = match random.below(2) {
        0 => stores::full(random),
        _ => stores::tall(random),
    };
    let list = any_list(random, &built.image);
    step(random, &built.image, list, tally);
}

/// Edits of about as many leaves as the log holds headers.
fn long_log(random: &mut Random, tally: &mut Tally) {
    let built = stores::even_leaves(random);
    let keys: Vec<u64> = built.table.iter().map(|entry| entry.0).collect();
    // Fewer keys than edits would be edited twice.
    if keys.len() >= 16 {
        let list = List::spread(random, &keys).bytes();
        step(random, &built.image, (list, None), tally);
    }
}

/// A transaction, calls that differ from it in a buffer, and recoveries.
fn step(
    random: &mut Random,
    image: &[u8],
    (list, fault): (Vec<u8>, Option<usize>),
    tally: &mut Tally,
) -> (u8, Call) {
    let call = Call::new(random, image, list);
    let (number, after) = send(&call, tally);
    if let Some((name, wanted)) = fault.map(|fault| FAULTS[fault]) {
        if number == wanted {
            tally.count(format!("list with {name}"));
        }
    }
    let bytes = after.answer[3] as usize;
    if random.one_in(2) {
        spoiled(random, &call, bytes, tally);
    }
    if number == 0 {
        short_tape(random, &call, bytes, tally);
        cut_anywhere(random, &call, &after, tally);
    }
    (number, after)
}

/// The same call with as many tape bytes as it needs, or one fewer.
fn short_tape(random: &mut Random, call: &Call, bytes: usize, tally: &mut Tally) {
    let mut call = call.clone();
    let exact = random.one_in(3);
    call.tape.truncate(if exact { bytes } else { bytes - 1 });
    let (number, _) = send(&call, tally);
    assert_eq!(number, if exact { 0 } else { 13 });
}

/// The call with one to three things wrong, so that their order matters.
fn spoiled(random: &mut Random, call: &Call, bytes: usize, tally: &mut Tally) {
    let mut call = call.clone();
    for _ in 0..random.between(1, 3) {
        match random.below(6) {
            0 => resize(random, &mut call.work),
            1 => call.image[..8].copy_from_slice(&any_mark(random)),
            2 => call.image[random.pick(&[8, 9, 16, 18, 40, 1024])] ^= 1 << random.below(8),
            3 => call.tape.truncate(bytes.saturating_sub(1)),
            4 => call.answer.resize(random.pick(&[0, 1, 4, 6]), BEFORE),
            _ => call.edits.truncate(random.below(call.edits.len() + 1)),
        }
    }
    send(&call, tally);
}

/// "2 if the work buffer's length isn't the image's".
fn resize(random: &mut Random, work: &mut Vec<u8>) {
    let length = work.len();
    let fewer = [1, 64, 1024].map(|bytes| length.saturating_sub(bytes));
    let other = [0, fewer[0], fewer[1], fewer[2], length + 1, length + 1024];
    work.resize(random.pick(&other), 0);
}

/// A mark, mostly well formed.
fn any_mark(random: &mut Random) -> [u8; 8] {
    let headers = random.pick(&[1, 2, 7, 15, 0, 16]);
    [1, headers, random.between(1, 7) as u8, 0, 0, 0, 0, 0]
}

/// The points of a tape that a cut may come after.
const POINTS: [&str; 15] = [
    "nothing",
    "a word of a record",
    "the flush of a record",
    "a log line",
    "the flush of a log line",
    "the mark",
    "a header",
    "the flush of a header",
    "the root word",
    "the mark's clearing",
    "the flush of line 0",
    "the barrier of records",
    "the barrier of log lines",
    "the barrier of headers",
    "the barrier of line 0",
];

/// The number of a point.
fn point(done: &[Command]) -> usize {
    let Some((last, before)) = done.split_last() else {
        return 0;
    };
    // Past the commit, and up to the root word, there are only headers.
    let past = done.iter().any(is_commit);
    match last {
        Command::WordStore { word: 0, bytes } if *bytes == [0; 8] => 9,
        Command::WordStore { word: 0, .. } => 5,
        Command::WordStore { word: 1, .. } => 8,
        Command::WordStore { word: 8..128, .. } => 3,
        Command::WordStore { .. } if !past => 1,
        Command::LineStore { line: 0..16, .. } => 3,
        Command::WordStore { .. } | Command::LineStore { .. } => 6,
        Command::Flush { line: 0 } => 10,
        Command::Flush { line: 0..16 } => 4,
        Command::Flush { .. } if past => 7,
        Command::Flush { .. } => 2,
        // Of the flushes before it.
        Command::Barrier => match point(before) {
            2 => 11,
            4 => 12,
            7 => 13,
            _ => 14,
        },
    }
}

/// The mark, or the line store of one header.
fn is_commit(command: &Command) -> bool {
    matches!(
        command,
        Command::WordStore { word: 0, .. } | Command::LineStore { line: 16.., .. }
    )
}

/// Cuts of the accepted transaction, and what the calls make of them.
fn cut_anywhere(random: &mut Random, call: &Call, after: &Call, tally: &mut Tally) {
    let tape = &after.tape[..after.answer[3] as usize];
    let commands = decode(tape, call.image.len()).unwrap();
    // A log is what recovery is for: more cuts of such tapes.
    let cuts = match logged_headers(&commands) {
        0 => random.below(2),
        1 => 1,
        _ => 3,
    };
    for _ in 0..cuts {
        // The commit and what follows it are at the end.
        let c = match random.below(4) {
            0 => random.between(0, commands.len()),
            1 => commands.len() - random.below(commands.len().min(6)),
            _ => commands.len() - random.below(commands.len().min(40)),
        };
        tally.count(format!("cut after {}", POINTS[point(&commands[..c])]));
        let crashed = any_cut(random, &call.image, tape, c);
        if read_page_zero(&crashed).is_some_and(|zero| zero.mark.is_some()) {
            if random.one_in(4) {
                send(&Call::new(random, &crashed, call.edits.clone()), tally);
            }
            log_damaged(random, crashed.clone(), tally);
        }
        recoveries(random, crashed, tally);
    }
}

fn logged_headers(commands: &[Command]) -> usize {
    let log = |command: &&Command| matches!(command, Command::Flush { line: 1..16 });
    commands.iter().filter(log).count()
}

fn any_cut(random: &mut Random, image: &[u8], tape: &[u8], c: usize) -> Vec<u8> {
    let most = random.pick(&[0, 1, 1, 2, 8, 255]);
    let choices: Vec<u8> = (0..image.len() / 64)
        .map(|_| random.between(0, most) as u8)
        .collect();
    let mut work = vec![0; image.len()];
    cut(image, &mut work, tape, c, &choices).expect("c is within the tape");
    work
}

/// A recovery by both.
fn send_recovery(call: &Call, tally: &mut Tally) -> (u8, Call) {
    let (number, after) = compare_recovery(tally.device, tally.which(), call);
    tally.call("recovery", &call.image, number);
    (number, after)
}

fn recovery_call(random: &mut Random, image: &[u8], device: Device) -> Call {
    let mut call = Call::new(random, image, Vec::new());
    call.tape.truncate(recovery_tape_size(device));
    call.answer.truncate(2);
    call
}

/// Recoveries, the accepted one's tape cut and recovered again.
fn recoveries(random: &mut Random, mut image: Vec<u8>, tally: &mut Tally) {
    for _ in 0..3 {
        let call = recovery_call(random, &image, tally.device);
        let (number, after) = send_recovery(&call, tally);
        if number != 0 {
            break;
        }
        let [bytes, flushes] = after.answer[..] else {
            unreachable!("there is room for two numbers");
        };
        let headers = flushes.saturating_sub(1);
        tally.count(format!("recovery of {headers:>2} headers"));
        if bytes as usize == call.tape.len() {
            tally.count(WITH_THE_LONGEST_TAPE);
        }
        if bytes == 0 {
            break;
        }
        spoiled_recovery(random, &call, bytes as usize, tally);
        let tape = &after.tape[..bytes as usize];
        let commands = decode(tape, image.len()).unwrap();
        let c = random.between(0, commands.len());
        image = any_cut(random, &image, tape, c);
    }
}

/// The accepted recovery with other buffers, or with a tape of as many bytes as
/// it needs.
fn spoiled_recovery(random: &mut Random, call: &Call, bytes: usize, tally: &mut Tally) {
    let mut call = call.clone();
    match random.below(8) {
        0 => resize(random, &mut call.work),
        1 => call.answer.resize(random.pick(&[0, 1, 3, 5]), BEFORE),
        2 => call.tape.clear(),
        3 | 4 => call.tape.truncate(bytes),
        _ => call.tape.truncate(bytes - 1),
    }
    send_recovery(&call, tally);
}

/// Recovery of an image with a waiting mark, damaged in its log.
fn log_damaged(random: &mut Random, mut image: Vec<u8>, tally: &mut Tally) {
    let field = random.below(logs::FIELDS.len());
    logs::damage(random, &mut image, field);
    let call = recovery_call(random, &image, tally.device);
    let (number, _) = send_recovery(&call, tally);
    if number == 4 {
        tally.count(format!("log with wrong {}", logs::FIELDS[field]));
    }
}

/// Calls on images that no transaction led to: damaged, of other lengths, and
/// with a log made apart.
fn made_apart(random: &mut Random, tally: &mut Tally) {
    let built = stores::any_built(random);
    let field = random.below(FIELDS.len());
    let damaged = damage(random, &built, field).unwrap_or(built.image.clone());
    let other = other_length(random, &built);
    for image in [&damaged, &other] {
        let (list, _) = any_list(random, &built.image);
        let mut call = Call::new(random, image, list);
        if random.one_in(4) {
            resize(random, &mut call.work);
        }
        send(&call, tally);
        send_recovery(&call, tally);
    }
    for _ in 0..2 {
        let headers = random.between(1, 15);
        let image = logs::waiting(random, &built, headers);
        log_damaged(random, image.clone(), tally);
        recoveries(random, image, tally);
    }
    // What the log does not hold must be sound all the same.
    let flawed = Built {
        image: damaged,
        ..built
    };
    let image = logs::waiting(random, &flawed, 2);
    recoveries(random, image, tally);
}

/// So many calls on a device, in one thread.
fn compared_in(device: Device, calls: usize, thread: usize) -> Tally {
    let mut random = Random::new(SEED + 10 * thread as u64);
    let mut tally = Tally::new(device, thread);
    while tally.calls < calls {
        life(&mut random, &mut tally);
        // Once would give too few of each.
        for _ in 0..4 {
            growth(&mut random, &mut tally);
            move_of_root(&mut random, &mut tally);
            long_log(&mut random, &mut tally);
        }
        made_apart(&mut random, &mut tally);
    }
    tally
}

/// So many calls on a device.
fn compared(device: Device, calls: usize) -> Tally {
    println!("{device:?}, seed {SEED}");
    let part = |thread| compared_in(device, calls / THREADS, thread);
    let mut tally = Tally::new(device, 0);
    for other in in_threads(THREADS, part) {
        tally.add(other);
    }
    println!("{} calls", tally.calls);
    for (what, times) in &tally.times {
        println!("{what:<40}{times:>8}");
    }
    // Document 02 (g): no value is empty.
    let least = tally.lengths[1..].iter().min().unwrap();
    println!("{:<40}{least:>8}", "accepted values, least of a length");
    assert!(*least > 20);
    let fullest = tally.fullest;
    println!("{:<40}{fullest:>8}", "percent of a tape used, at most");
    assert!(fullest > 33);
    assert!(tally.came(UNDER_A_TOP) > calls / 4);
    everything_came(&tally);
    tally
}

#[test]
fn transaction_and_recovery_are_the_references() {
    let tally = compared(Device::Lines, 400_000);
    assert!(tally.came(BY_A_HEADER) > 20);
    assert!(tally.came("under a top: commit by a header") > 20);
}

/// Document 02 (d): "a change of any header, even one, goes through the log".
#[test]
fn those_without_line_stores_are_the_references() {
    let tally = compared(Device::Words, 200_000);
    assert_eq!(tally.came(BY_A_HEADER), 0);
}

/// The reference against what the builders know: a fresh store, and the table
/// of a store whose log waits.
#[test]
fn reference_is_as_built() {
    let mut random = Random::new(SEED + 1);
    for pages in 8..=64 {
        let mut image = random.bytes(pages * 1024);
        format(&mut image).unwrap();
        assert!(image == stores::fresh(pages));
    }
    for _ in 0..2_000 {
        let built = stores::any_built(&mut random);
        let headers = random.between(1, 15);
        let image = logs::waiting(&mut random, &built, headers);
        let mut work = vec![0; image.len()];
        let recovered = recover(&image, &mut work, &mut [0; 1200]).unwrap();
        assert_eq!(recovered.flushes, headers.min(built.pages - 1) + 1);
        assert_eq!(table(&work).as_ref(), Some(&built.table));
    }
}

fn everything_came(tally: &Tally) {
    for what in [wanted_of_transactions(), wanted_of_recoveries()].concat() {
        assert!(tally.came(&what) > 20, "came too seldom: {what}");
    }
    let names = tally.times.keys();
    let answers = names.filter(|what| what.contains(", answer"));
    // Document 02 (j): 10 "is shown never to occur".
    assert_eq!(answers.count(), 14 + 5);
}

const EMPTY: [&str; 2] = ["refused 19 at edit 0", "refused 19 at a later edit"];
const BY_A_HEADER: &str = "commit by a header";
const UNDER_A_TOP: &str = "calls on a store under a top";
const WITH_THE_LONGEST_TAPE: &str = "recovery with the longest tape";

fn wanted_of_transactions() -> Vec<String> {
    let answers = (0..=9).chain([11, 12, 13, 19]);
    let answers = answers.map(|number| format!("transaction, answer {number:>2}"));
    let edits = (0..=16).map(|edit| format!("refused at edit {edit:>2}"));
    let lists = (1..=16).map(|count| format!("accepted lists of {count:>2}"));
    let keys = [1, LAST_KEY].map(|key| format!("accepted edits of key {key}"));
    let faults = FAULTS.map(|fault| format!("list with {}", fault.0));
    let pages = (0..=5).map(|count| format!("new pages: {count:>2}"));
    let taken = (0..=6).map(|count| format!("one edit takes {count} pages"));
    let short = (0..=5).map(|free| format!("11 under a full index page, {free} pages free"));
    let others = [
        "commit by the root word",
        "commit by the log",
        "under a top: commit by the root word",
        "under a top: commit by the log",
        "leaves: fewer",
        "leaves: as many",
        "leaves: more",
        "pages: 8 to 12",
        "pages: more",
        "pages: 64",
        "root: copied",
        "root: copied, 15 headers changed",
        "root: same, 15 headers changed",
    ];
    (answers.chain(edits).chain(lists).chain(keys))
        .chain(faults)
        .chain(pages)
        .chain(taken)
        .chain(short)
        .chain(ABOVE.map(String::from))
        .chain(EMPTY.map(String::from))
        .chain(ORDERS.map(String::from))
        .chain(others.map(String::from))
        .collect()
}

fn wanted_of_recoveries() -> Vec<String> {
    let answers = [0, 1, 2, 4, 13].map(|number| format!("recovery, answer {number:>2}"));
    let headers = (0..=15).map(|headers| format!("recovery of {headers:>2} headers"));
    let points = POINTS.map(|point| format!("cut after {point}"));
    let fields = logs::FIELDS.map(|field| format!("log with wrong {field}"));
    (answers.into_iter().chain(headers))
        .chain(points)
        .chain(fields)
        .chain([WITH_THE_LONGEST_TAPE.into()])
        .collect()
}
