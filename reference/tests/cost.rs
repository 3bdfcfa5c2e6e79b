//! Document 02 (f), "The cost of one quote": transactions of one edit on the
//! line-store device, by the reference and by the proved library. The image and
//! the edit alone say whether (f) speaks of it; its cost is counted on the tape,
//! with the barriers of (h). Stores are filled and emptied by transactions, and
//! the same edit is sent again after a power failure, when its record may lie
//! there already.
//!
//! Here too, by hand: the most flushes and words, and the longest recoveries.

mod writes;

use cases::images::even;
use cases::lists::List;
use cases::random::Random;
use cases::stores::{self, fresh};
use cases::threads::in_threads;
use reference::cost::Ground;
use reference::device::{cut, decode, Command, Device};
use reference::edits::{parse, Edit, Kind};
use reference::image::{lookup, sound_leaves, table, Reader};
use reference::page::Record;
use reference::tape::{count_barriers, count_flushes, encode};
use std::collections::BTreeMap;
use writes::by_hand::{edit, flushes, outline, send, words, BARRIER};
use writes::{compare_recovery, compare_transaction, Call};

const SEED: u64 = 20_240_801;
const CALLS: usize = 80_000;

/// They are made in so many threads, each with a seed of its own.
const THREADS: usize = 4;

/// "At most six flushes": a record has 216 bytes at most, so 27 words, which lie
/// in five lines at most; and the header is a line. Document 02 (h): "(f) gains at
/// most two barriers", one behind the record's flushes and one behind the header's.
const MOST_FLUSHES: usize = 6;
const MOST_BARRIERS: usize = 2;
const MOST_WORDS: usize = 27;

/// How often each thing came.
struct Tally {
    calls: usize,
    times: BTreeMap<String, usize>,
    /// Of inserts and updates that (f) speaks of, by the value's length.
    lengths: Vec<usize>,
}

impl Tally {
    fn new() -> Tally {
        Tally {
            calls: 0,
            times: BTreeMap::new(),
            lengths: vec![0; 201],
        }
    }

    fn count(&mut self, what: impl Into<String>) {
        *self.times.entry(what.into()).or_default() += 1;
    }

    /// What came in another thread too.
    fn add(&mut self, other: Tally) {
        for (what, times) in other.times {
            *self.times.entry(what).or_default() += times;
        }
        for (sum, times) in self.lengths.iter_mut().zip(other.lengths) {
            *sum += times;
        }
        self.calls += other.calls;
    }

    fn print(&self) {
        println!("{} calls", self.calls);
        for (what, times) in &self.times {
            println!("{what:<50}{times:>8}");
        }
        let least = self.least();
        println!("{:<50}{least:>8}", "put: values, least of a length");
    }

    /// Of the length that came least. Document 02 (g): no value is empty.
    fn least(&self) -> usize {
        *self.lengths[1..].iter().min().unwrap()
    }

    fn came(&self, least: usize, wanted: &[&str]) {
        for &what in wanted {
            let times = self.times.get(what).copied().unwrap_or(0);
            assert!(times >= least, "came {times} times: {what}");
        }
    }
}

/// An accepted transaction of one edit.
struct Sent {
    edit: Edit,
    /// The edit's leaf before it, and whether (f) speaks of the edit.
    ground: Ground,
    met: bool,
    /// The commit place's kind, 1 for a header, and that header's page.
    place: (u64, usize),
    bytes: usize,
    flushes: usize,
    barriers: usize,
    commands: Vec<Command>,
}

impl Sent {
    fn new(image: &[u8], edit: &Edit, after: &Call) -> Sent {
        let [_, kind, page, bytes, flushes] = after.answer[..] else {
            unreachable!("there is room for five numbers");
        };
        let ground = Ground::of(image, edit.key).expect("the image is sound");
        let commands = decode(&after.tape[..bytes as usize], image.len()).unwrap();
        Sent {
            edit: edit.clone(),
            ground,
            met: ground.is_met(edit),
            place: (kind, page as usize),
            bytes: bytes as usize,
            flushes: flushes as usize,
            barriers: count_barriers(&commands),
            commands,
        }
    }

    fn is_put(&self) -> bool {
        self.edit.kind != Kind::Delete
    }

    /// The last store is the line of this page's header, and only words are stored
    /// before it: how many.
    fn words_before(&self, header: usize) -> usize {
        let is_store = |command: &&Command| command.stored_line().is_some();
        let stores: Vec<&Command> = self.commands.iter().filter(is_store).collect();
        let (last, words) = stores.split_last().expect("a header is stored");
        assert!(matches!(last, Command::LineStore { line, .. } if *line == 16 * header));
        let word = |store: &&Command| matches!(store, Command::WordStore { .. });
        assert!(words.iter().all(word), "a line store before the header's");
        words.len()
    }

    /// What (f) says of this transaction, or what comes where it says nothing.
    fn judge(&self, image: &[u8], tally: &mut Tally) {
        assert_eq!(count_flushes(&self.commands), self.flushes);
        match (self.is_put(), self.met) {
            (true, true) => self.put(tally),
            (true, false) => self.other_put(image, tally),
            (false, true) => self.delete(tally),
            (false, false) => self.last_delete(image, tally),
        }
    }

    /// "One insert or update whose record fits .. must be shown to need at most
    /// six flushes": by the leaf's header, and with at most 27 words besides. It
    /// "gains at most two barriers", one where no word differs.
    fn put(&self, tally: &mut Tally) {
        assert_eq!(self.place, (1, self.ground.page));
        let (words, flushes) = (self.words_before(self.ground.page), self.flushes);
        assert!(words <= MOST_WORDS, "{words} words");
        assert!(flushes <= MOST_FLUSHES, "{flushes} flushes");
        assert!(words > 0 || flushes == 1, "no word, {flushes} flushes");
        let barriers = if words > 0 { MOST_BARRIERS } else { 1 };
        assert_eq!(self.barriers, barriers, "{words} words");
        tally.lengths[self.edit.value.len()] += 1;
        tally.count("put");
        tally.count(format!("put: flushes {flushes}"));
        if words == MOST_WORDS {
            tally.count("put: 27 words");
        }
    }

    /// Where (f) does not speak of an insert or update, its leaf is copied or split
    /// over new pages: the index page's header commits. If that is copied or split too,
    /// the top's does, or the root word if there is no top or it is copied. The flushes
    /// are often more.
    fn other_put(&self, image: &[u8], tally: &mut Tally) {
        tally.count("other put");
        let (index, top) = above(image, self.edit.key);
        tally.count(match self.place {
            (1, page) if page == index => "other put: by the index's header",
            (1, page) if Some(page) == top => "other put: by the top's header",
            (2, _) => "other put: by the root word",
            place => panic!("commit at {place:?}"),
        });
        if self.flushes > MOST_FLUSHES {
            tally.count("other put: more than six flushes");
        }
    }

    /// "An accepted delete alone that leaves its leaf with a record needs exactly
    /// one": the header's line store of 68 bytes, its flush and its barrier are the
    /// whole tape.
    fn delete(&self, tally: &mut Tally) {
        assert_eq!(self.place, (1, self.ground.page));
        assert_eq!(self.words_before(self.ground.page), 0);
        assert_eq!((self.flushes, self.barriers, self.bytes), (1, 1, 76));
        tally.count("delete");
    }

    /// "A leaf left empty, unless it is the only one, loses its index record": then
    /// the index page's header commits, which is again the only store; or the top's, if
    /// the index page is left empty too.
    fn last_delete(&self, image: &[u8], tally: &mut Tally) {
        let (page, what) = match (
            sound_leaves(image).unwrap().len(),
            above(image, self.edit.key),
        ) {
            (1, _) => (self.ground.page, "last delete: by the only leaf's header"),
            (_, (index, Some(top))) if names(image, index).len() == 1 => {
                (top, "last delete: by the top's header")
            }
            (_, (index, _)) => (index, "last delete: by the index's header"),
        };
        assert_eq!(self.place, (1, page));
        assert_eq!(self.words_before(page), 0);
        assert_eq!((self.flushes, self.barriers, self.bytes), (1, 1, 76));
        tally.count(what);
    }

    /// What the store is like, and how near the edit is to the ground's limits.
    fn count_limits(&self, image: &[u8], tally: &mut Tally) {
        let leaves = sound_leaves(image).unwrap().len();
        let (_, top) = above(image, self.edit.key);
        if self.met && top.is_some() {
            tally.count(match self.is_put() {
                true => "put under a top",
                false => "delete under a top",
            });
        }
        if self.met && leaves >= 2 {
            tally.count("met in a store of several leaves");
        }
        if self.met && leaves >= 27 {
            tally.count("met in a store of 27 or 28 leaves");
        }
        let value = self.edit.value.clone();
        let needed = 64 + Record { key: 1, value }.size();
        let room = needed <= self.ground.start;
        match (self.edit.kind, self.ground.records) {
            (Kind::Delete, 2) => tally.count("delete that finds 2"),
            (Kind::Insert, 27) if room => tally.count("insert with room that finds 27"),
            (Kind::Insert, 28) if room => tally.count("insert with room that finds 28"),
            (Kind::Update, 28) if room => tally.count("update with room that finds 28"),
            _ => {}
        }
        if self.met && matches!(lookup(image, self.edit.key), Ok(Some((_, 0)))) {
            tally.count(format!("{:?} of a stored empty value", self.edit.kind));
        }
        if self.is_put() && needed == self.ground.start {
            tally.count("record that takes all room");
        }
        if self.is_put() && needed == self.ground.start + 8 {
            tally.count("record a word too long");
        }
    }
}

/// The index page of a key, and the top if there is one.
fn above(image: &[u8], key: u64) -> (usize, Option<usize>) {
    let mut reader = Reader::new(image).expect("the image is sound");
    let place = reader.place_of(key).expect("the image is sound");
    let index = reader.index(place.index).expect("the image is sound").page;
    (index, Some(reader.root.page).filter(|&root| root != index))
}

/// The pages that an index page names.
fn names(image: &[u8], index: usize) -> Vec<usize> {
    let mut reader = Reader::new(image).expect("the image is sound");
    let mut indexes = 0..reader.count_indexes();
    let at = indexes.find(|&at| reader.index(at).is_ok_and(|page| page.page == index));
    let page = reader.index(at.expect("it is an index page")).unwrap();
    page.names().collect()
}

/// The edit alone, by both; nothing if it is refused.
fn send_one(random: &mut Random, image: &[u8], edit: &Edit, tally: &mut Tally) -> Option<Sent> {
    let call = Call::new(random, image, edit.encode());
    let (number, after) = compare_transaction(Device::Lines, tally.calls, &call);
    tally.calls += 1;
    if number != 0 {
        tally.count(format!("refused, {number}"));
        return None;
    }
    let sent = Sent::new(image, edit, &after);
    sent.judge(image, tally);
    sent.count_limits(image, tally);
    Some(sent)
}

/// One edit, and the same again where the power fails before its commit: some
/// words of the record are durable by then, or all of them.
fn one_edit(random: &mut Random, image: &[u8], edit: &Edit, tally: &mut Tally) {
    let Some(sent) = send_one(random, image, edit, tally) else {
        return;
    };
    if !(sent.is_put() && sent.met && random.one_in(3)) {
        return;
    }
    // Past all word stores, past their flushes too, or past their barrier: the
    // header's line, its flush and its barrier are left out.
    let before_commit = sent.commands.len() - 3;
    let barrier = sent.barriers - 1;
    let c = before_commit - random.pick(&[0, barrier, sent.flushes - 1 + barrier]);
    let choices: Vec<u8> = (0..image.len() / 64)
        .map(|_| random.below(9) as u8)
        .collect();
    let mut failed = vec![0; image.len()];
    cut(image, &mut failed, &encode(&sent.commands), c, &choices).unwrap();
    let again = send_one(random, &failed, edit, tally).expect("the table is the same");
    assert!(again.met && again.flushes <= sent.flushes);
    tally.count("put again");
}

/// Stores of every shape, fresh ones of any length, and leaves of 27 or 28 records
/// with room for more.
fn any_store(random: &mut Random) -> Vec<u8> {
    match random.below(8) {
        0 => fresh(random.between(8, 64)),
        1 => stores::many_leaves(random).image,
        2 => stores::full(random).image,
        4 => stores::tall(random).image,
        3 => {
            let leaves = random.between(1, 8);
            let quotes = leaves * random.between(27, 28);
            even(random, 12, leaves, quotes).image
        }
        _ => stores::any_store(random),
    }
}

/// The first edit of a list, which is possible alone; or one whose record takes
/// all the room that its leaf has, or would need a byte more.
fn any_edit(random: &mut Random, image: &[u8], list: &List) -> Edit {
    let mut edit = parse(&list.edits[0]).unwrap().remove(0);
    if edit.kind != Kind::Delete && random.one_in(4) {
        let room = Ground::of(image, edit.key).unwrap().start - 64;
        if let Some(length @ 1..=200) = (room + random.below(2)).checked_sub(16) {
            edit.value = random.bytes(length);
        }
    }
    edit
}

/// A store that goes on by transactions of 1 to 16 edits, and single edits tried
/// at each point.
fn life(random: &mut Random, tally: &mut Tally) {
    let mut image = any_store(random);
    for _ in 0..24 {
        let table = table(&image).expect("the image is sound");
        let keys: Vec<u64> = table.iter().map(|entry| entry.0).collect();
        for _ in 0..3 {
            let list = List::any(random, &keys);
            let edit = any_edit(random, &image, &list);
            one_edit(random, &image, &edit, tally);
        }
        let list = List::any(random, &keys).bytes();
        let call = Call::new(random, &image, list);
        let (number, after) = compare_transaction(Device::Lines, tally.calls, &call);
        tally.calls += 1;
        if number == 0 {
            image = after.work;
        }
    }
}

fn calls_in(thread: usize) -> Tally {
    let mut random = Random::new(SEED + 10 * thread as u64);
    let mut tally = Tally::new();
    while tally.calls < CALLS / THREADS {
        life(&mut random, &mut tally);
    }
    tally
}

#[test]
fn cost_of_one_edit() {
    println!("seed {SEED}");
    let mut tally = Tally::new();
    for other in in_threads(THREADS, calls_in) {
        tally.add(other);
    }
    tally.print();
    assert!(tally.least() > 10 && tally.lengths[0] == 0);
    for flushes in 1..=MOST_FLUSHES {
        tally.came(500, &[&format!("put: flushes {flushes}")]);
    }
    tally.came(CALLS / 4, &["put"]);
    tally.came(CALLS / 20, &["delete", "other put"]);
    // (f) must say of which edits it speaks.
    let otherwise = [
        "other put: by the index's header",
        "other put: by the root word",
        "other put: more than six flushes",
        "last delete: by the index's header",
        "last delete: by the only leaf's header",
        "other put: by the top's header",
        "last delete: by the top's header",
        "put under a top",
        "delete under a top",
    ];
    tally.came(100, &otherwise);
    let limits = [
        "put: 27 words",
        "put again",
        "met in a store of several leaves",
        "met in a store of 27 or 28 leaves",
        "delete that finds 2",
        "insert with room that finds 27",
        "insert with room that finds 28",
        "update with room that finds 28",
        "Update of a stored empty value",
        "Delete of a stored empty value",
        "record that takes all room",
        "record a word too long",
    ];
    tally.came(100, &limits);
}

/// The commit by the header of page 2: its line, its flush and a barrier.
const HEADER: [(u8, usize); 3] = [(2, 32), (3, 32), BARRIER];

/// A record of 48 bytes leaves the content start at 976. One of 216, no word of it
/// zero, then lies from 760, which is word 95 of page 2 and the last of its line,
/// to 976, two words into the fifth line from there.
#[test]
fn six_flushes() {
    let (_, _, image) = send(Device::Lines, &fresh(8), edit(Kind::Insert, 101, 32));
    let (five, tape, _) = send(Device::Lines, &image, edit(Kind::Insert, 102, 200));
    let first = 2 * 128 + 95;
    let record = [words(first, first + 26), flushes(43, 47)].concat();
    assert_eq!(outline(&tape, &image), [record, HEADER.to_vec()].concat());
    assert_eq!(five, [0, 1, 2, (27 * 12 + 5 * 4 + 4) + (68 + 4 + 4), 6]);
    assert_eq!(five[3], 424);
}

/// A delete that leaves a record, and one that leaves none in the only leaf: the
/// header's line, its flush and its barrier.
#[test]
fn one_flush_for_a_delete() {
    let two = [101, 102].map(|key| edit(Kind::Insert, key, 8)).concat();
    let (_, _, mut image) = send(Device::Lines, &fresh(8), two);
    for key in [101, 102] {
        let (five, tape, work) = send(Device::Lines, &image, edit(Kind::Delete, key, 0));
        assert_eq!(outline(&tape, &image), HEADER);
        assert_eq!(five, [0, 1, 2, 76, 1]);
        image = work;
    }
}

/// The power fails just before the header is stored, and the insert is sent again:
/// no word of the record differs, so the header's flush and barrier are the only
/// ones.
#[test]
fn one_flush_for_a_record_that_lies_there() {
    let (image, insert) = (fresh(8), edit(Kind::Insert, 101, 200));
    let (_, tape, work) = send(Device::Lines, &image, insert.clone());
    let mut failed = vec![0; image.len()];
    let c = outline(&tape, &image).len() - HEADER.len();
    cut(&image, &mut failed, &tape, c, &[0; 128]).unwrap();
    let (five, tape, again) = send(Device::Lines, &failed, insert);
    assert_eq!(outline(&tape, &image), HEADER);
    assert_eq!(five, [0, 1, 2, 76, 1]);
    assert!(again == work);
}

/// An update in each of 16 leaves, where one leaf and the index have no room: these
/// two are copied, so that the root moves, and the log has 15 headers. The power
/// fails once the mark is flushed and past its barrier.
fn longest_log() -> Vec<u8> {
    let mut built = even(&mut Random::new(1), 64, 16, 32);
    for page in [built.root().page, built.leaves[0].page] {
        built.image[page * 1024 + 2..][..2].copy_from_slice(&[64, 0]);
    }
    let keys = built.leaves.iter().map(|leaf| leaf.places[0].key);
    let edits: Vec<u8> = keys.flat_map(|key| edit(Kind::Update, key, 8)).collect();
    let (five, tape, _) = send(Device::Lines, &built.image, edits);
    assert_eq!(five[1], 3);
    let commands = outline(&tape, &built.image);
    let mark = commands.iter().position(|&command| command == (1, 0));
    let mut failed = vec![0; built.image.len()];
    let c = mark.expect("a log has a mark") + 3;
    cut(&built.image, &mut failed, &tape, c, &[0; 1024]).unwrap();
    assert_eq!(failed[..2], [1, 15]);
    assert_ne!(failed[2], failed[8]);
    failed
}

/// The longest recovery: 15 headers of 68 bytes, by words 96, and flushes of 4, and a
/// barrier of 4; root word and mark of 12; a flush and a barrier. A tape one byte
/// shorter is too short.
#[test]
fn longest_recoveries() {
    let image = longest_log();
    for (device, size) in [(Device::Lines, 1116), (Device::Words, 1536)] {
        let mut call = Call::new(&mut Random::new(1), &image, Vec::new());
        call.answer.truncate(2);
        call.tape.truncate(size);
        let (number, after) = compare_recovery(device, 0, &call);
        assert_eq!((number, &after.answer[..]), (0, &[size as u64, 16][..]));
        call.tape.pop();
        let (number, _) = compare_recovery(device, 1, &call);
        assert_eq!(number, 13);
    }
}
