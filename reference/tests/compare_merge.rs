//! Document 02 (i), "Two books into one", on random pairs of books, under a top or
//! not, and with a result under a top or not (document 02 (j)): the answer and every
//! byte of the third buffer of the proved library are those of the reference, and
//! both are what the builder of the pair knows.

mod both;
mod earlier;

use both::merges::merge_both;
use both::number;
use cases::damage::{damage, other_length, FIELDS};
use cases::images::{Built, LAST_KEY};
use cases::logs;
use cases::merges::{
    any_pair, any_third, index_pages, packed, pages_for, Pair, Quotes, DEALS, IN_BOTH,
};
use cases::random::Random;
use cases::stores::fresh;
use reference::device::Device;
use reference::edits::{Edit, Kind};
use reference::image::{check, sound_leaves, table, Leaf};
use reference::page::Record;
use std::collections::BTreeMap;
use std::fmt::Write;

const SEED: u64 = 20_241_201;
/// Pairs that are dealt, each with so many third buffers.
const DEALT: usize = 12_000;
const THIRDS: usize = 2;
/// Pairs of books that transactions made.
const MADE: usize = 28_000;
/// Pairs with damage.
const DAMAGED: usize = 10_000;

/// 8 to 64 whole pages.
fn is_image_size(length: usize) -> bool {
    length.is_multiple_of(1024) && (8192..=65_536).contains(&length)
}

/// How often each thing came.
#[derive(Default)]
struct Tally {
    calls: usize,
    times: BTreeMap<String, usize>,
}

impl Tally {
    fn count(&mut self, what: impl Into<String>) {
        *self.times.entry(what.into()).or_default() += 1;
    }

    fn count_if(&mut self, came: bool, what: &str) {
        if came {
            self.count(what);
        }
    }

    /// In one piece: the tests run at the same time.
    fn print(&self, name: &str, seed: u64) {
        let mut text = format!("{name}, seed {seed}: {} calls\n", self.calls);
        for (what, times) in &self.times {
            writeln!(text, "  {what:<60}{times:>7}").unwrap();
        }
        print!("{text}");
    }

    fn came(&self, least: usize, wanted: &[&str]) {
        for what in wanted {
            let times = self.times.get(*what).copied().unwrap_or(0);
            assert!(times >= least, "came too seldom, {times} times: {what}");
        }
    }

    /// One call by both. `quotes` are those of both books, a key that is in both twice;
    /// the books are sound.
    fn merge(&mut self, books: [&[u8]; 2], third: &[u8], quotes: &Quotes) {
        self.calls += 1;
        let (number, image) = merge_both(&format!("call {}", self.calls), books, third);
        let leaves = packed(quotes).len();
        let (needed, pages) = (pages_for(leaves), third.len() / 1024);
        let twice = quotes.windows(2).any(|two| two[0].0 == two[1].0);
        let wanted = match () {
            _ if !is_image_size(third.len()) => 1,
            _ if twice => 20,
            // 10 never comes: 64 pages have room for 59 leaves.
            _ if needed > pages => 11,
            _ => 0,
        };
        assert_eq!(number, wanted, "{leaves} leaves, {} bytes", third.len());
        self.count(format!("answer {number}"));
        match number {
            1 => self.count_if(twice, "1 for the third, a key in both"),
            20 => self.count_if(needed > pages, "20, too few pages"),
            11 => {
                self.count_if(needed == pages + 1, "11, one page short");
                let short = leaves > 28 && needed == pages + 1;
                self.count_if(short, "11, one page short under a top");
                self.count_if(needed > 64, "11, more than 64 pages");
            }
            _ => self.accepted(&image, quotes, needed == pages),
        }
    }

    /// "Its table holds every record of both and nothing else."
    fn accepted(&mut self, image: &[u8], quotes: &Quotes, full: bool) {
        let leaves = sound_leaves(image).expect("the result is sound");
        let records = leaves.iter().flat_map(|leaf| &leaf.records);
        let wanted = quotes.iter().map(|(key, value)| (key, value));
        assert!(records
            .map(|record| (&record.key, &record.value))
            .eq(wanted));
        let bytes = |leaf: &Leaf| leaf.records.iter().map(Record::size).sum::<usize>();
        let is_full = |leaf: &Leaf| leaf.records.len() == 28;
        let (_, closed) = leaves.split_last().unwrap();
        self.count_if(quotes.is_empty(), "no quotes");
        for count in [28, 29, 56, 57, 59] {
            self.count_if(leaves.len() == count, &format!("{count} leaves"));
        }
        let indexes = index_pages(leaves.len());
        assert_eq!(image[8], 1, "the root");
        assert_eq!(
            image[1024 + 4],
            if indexes == 0 { 2 } else { 3 },
            "its kind"
        );
        if indexes > 0 {
            assert_eq!(image[1024] as usize, indexes, "index pages");
        }
        self.count_if(full, "no page left");
        self.count_if(closed.iter().any(is_full), "a leaf of 28");
        let by_bytes = closed.iter().any(|leaf| !is_full(leaf));
        self.count_if(by_bytes, "a leaf closed for its bytes");
        self.count_if(leaves.iter().any(|leaf| bytes(leaf) == 960), "960 bytes");
        let empty = quotes.iter().any(|quote| quote.1.is_empty());
        self.count_if(empty, "an empty value");
    }
}

const LIMITS: [&str; 12] = [
    "answer 0",
    "answer 1",
    "answer 11",
    "answer 20",
    "11, one page short",
    "11, one page short under a top",
    "20, too few pages",
    "no quotes",
    "28 leaves",
    "29 leaves",
    "no page left",
    "a leaf of 28",
];

/// Pairs that are dealt from the quotes of both.
#[test]
fn dealt_books() {
    let mut random = Random::new(SEED);
    let mut tally = Tally::default();
    for _ in 0..DEALT {
        let pair = any_pair(&mut random);
        let books = pair.books.each_ref().map(|book| &book.image[..]);
        for _ in 0..THIRDS {
            let third = any_third(&mut random, pair.leaves);
            tally.merge(books, &third, &pair.quotes);
        }
        count_pair(&mut tally, &pair);
    }
    tally.print("dealt books", SEED);
    tally.came(200, &LIMITS);
    tally.came(
        500,
        &["a leaf closed for its bytes", "960 bytes", "an empty value"],
    );
    tally.came(500, &["1 for the third, a key in both"]);
    let tops = [
        "56 leaves",
        "57 leaves",
        "59 leaves",
        "11, more than 64 pages",
    ];
    tally.came(50, &tops);
    tally.came(
        500,
        &["a book under a top", "a book of more than 28 leaves"],
    );
    tally.came(
        100,
        &["the first has no quotes", "the second has no quotes"],
    );
    for deal in DEALS {
        tally.came(100, &[&format!("{deal:?}, no key in both")]);
        for place in IN_BOTH {
            tally.came(100, &[&format!("{deal:?}, in both: {place:?}")]);
        }
    }
    let sizes = (8..=64).map(|pages| format!("a book of {pages} pages"));
    sizes.for_each(|size| tally.came(10, &[&size]));
}

fn count_pair(tally: &mut Tally, pair: &Pair) {
    let deal = pair.deal;
    tally.count(match pair.in_both {
        None => format!("{deal:?}, no key in both"),
        Some(place) => format!("{deal:?}, in both: {place:?}"),
    });
    let [first, second] = &pair.books;
    tally.count_if(first.table.is_empty(), "the first has no quotes");
    tally.count_if(second.table.is_empty(), "the second has no quotes");
    for book in &pair.books {
        tally.count_if(book.top.is_some(), "a book under a top");
        tally.count_if(book.leaves.len() > 28, "a book of more than 28 leaves");
        tally.count(format!("a book of {} pages", book.pages));
    }
}

/// The book's image with something wrong, or perhaps not.
fn harmed(random: &mut Random, book: &Built) -> Vec<u8> {
    match random.below(6) {
        0 => other_length(random, book),
        1 => {
            let headers = random.between(1, 15);
            logs::waiting(random, book, headers)
        }
        2 => {
            let mut image = book.image.clone();
            for _ in 0..random.between(1, 8) {
                let at = random.below(image.len());
                image[at] ^= random.between(1, 255) as u8;
            }
            image
        }
        3 => {
            let length = random.pick(&[0, 1, 8192, 20_480]);
            random.bytes(length)
        }
        _ => {
            let field = random.below(FIELDS.len());
            damage(random, book, field).unwrap_or_default()
        }
    }
}

/// The first, the second or both of a pair harmed.
fn any_harmed(random: &mut Random, pair: &Pair) -> [Vec<u8>; 2] {
    let which = random.below(3);
    let mut images = pair.images();
    for (i, image) in images.iter_mut().enumerate() {
        if which != 1 - i {
            *image = harmed(random, &pair.books[i]);
        }
    }
    images
}

/// "Check's for the first image, check's for the second": one call, the third buffer's
/// length good or not.
fn merge_harmed(tally: &mut Tally, [first, second]: &[Vec<u8>; 2], third: &[u8]) {
    tally.calls += 1;
    let name = format!("damaged call {}", tally.calls);
    let (given, _) = merge_both(&name, [first, second], third);
    let said = [first, second].map(|image| number(&check(image)));
    let (wanted, what) = match (is_image_size(third.len()), said) {
        (false, [0, 0]) => (1, "1 for the third alone".into()),
        (false, _) => (1, "1 for the third, a book bad too".into()),
        (true, [0, 0]) => (given, format!("both sound after all: {given}")),
        (true, [0, two]) => (two, format!("{two} for the second")),
        (true, [one, 0]) => (one, format!("{one} for the first")),
        (true, [one, two]) => (one, format!("{one} for the first, {two} behind it")),
    };
    assert_eq!(given, wanted, "{name}");
    tally.count(what);
}

#[test]
fn damaged_books() {
    let mut random = Random::new(SEED + 1);
    let mut tally = Tally::default();
    for _ in 0..DAMAGED {
        let pair = any_pair(&mut random);
        let images = any_harmed(&mut random, &pair);
        let third = any_third(&mut random, pair.leaves);
        merge_harmed(&mut tally, &images, &third);
    }
    tally.print("damaged books", SEED + 1);
    for number in [1, 3, 4] {
        tally.came(100, &[&format!("{number} for the first")]);
        tally.came(100, &[&format!("{number} for the second")]);
        for behind in [1, 3, 4] {
            tally.came(
                20,
                &[&format!("{number} for the first, {behind} behind it")],
            );
        }
    }
    tally.came(
        20,
        &["1 for the third alone", "1 for the third, a book bad too"],
    );
    tally.came(100, &["both sound after all: 0"]);
}

/// Keys that no book of another lane has: the first four lanes lie in each other, the
/// next above them, the last at the end of all keys.
const LANES: u64 = 6;

fn key(lane: u64, i: u64) -> u64 {
    match lane {
        0..=3 => 4 * i + lane + 1,
        4 => 1_000_000 + i,
        _ => LAST_KEY - i,
    }
}

/// A store of so many pages after some transactions of the reference, by the rule of
/// before document 02 (g) at times: inserts, updates and deletes; leaves are copied,
/// split and lost.
fn made_book(random: &mut Random, pages: usize, lane: u64) -> Vec<u8> {
    let mut image = fresh(pages);
    let longest = random.pick(&[8, 8, 40, 200]);
    let spread = random.pick(&[100, 1000, 1000]);
    for _ in 0..random.pick(&[0, 1, 10, 40, 40, 70]) {
        let edits = any_edits(random, &image, (lane, spread), longest);
        let device = random.pick(&[Device::Lines, Device::Words]);
        if let Ok(work) = earlier::made(device, &image, &edits) {
            image = work;
        }
    }
    image
}

/// Up to 15 edits, of one kind or all inserts and updates; deletes in a row.
fn any_edits(
    random: &mut Random,
    image: &[u8],
    (lane, spread): (u64, usize),
    longest: usize,
) -> Vec<Edit> {
    let table = table(image).expect("transactions keep the store sound");
    let count = random.between(1, 15);
    if table.len() > count && random.one_in(5) {
        let first = random.below(table.len() - count);
        let keys = table[first..first + count].iter().map(|entry| entry.0);
        return keys
            .map(|key| edit(Kind::Delete, key, Vec::new()))
            .collect();
    }
    let mut edits: Vec<Edit> = Vec::new();
    for _ in 0..count {
        let key = key(lane, random.below(spread) as u64);
        let has = table.binary_search_by_key(&key, |entry| entry.0).is_ok();
        let kind = if has { Kind::Update } else { Kind::Insert };
        let length = match random.below(8) {
            0 => 0,
            _ => random.between(1, longest),
        };
        if edits.iter().all(|edit| edit.key != key) {
            edits.push(edit(kind, key, random.bytes(length)));
        }
    }
    edits
}

fn edit(kind: Kind, key: u64, value: Vec<u8>) -> Edit {
    Edit { kind, key, value }
}

/// The second with a key of the first inserted, if there is room for it.
fn with_key_of(random: &mut Random, first: &[u8], second: &[u8]) -> Option<Vec<u8>> {
    let keys: Vec<u64> = table(first)?.iter().map(|entry| entry.0).collect();
    let at = match random.below(3) {
        0 => 0,
        1 => keys.len().checked_sub(1)?,
        _ => keys.len() / 2,
    };
    let insert = edit(Kind::Insert, *keys.get(at)?, vec![7; 8]);
    earlier::made(Device::Lines, second, &[insert]).ok()
}

/// Books of all sizes in all lanes, made once, each with its lane and its table.
fn made_books(random: &mut Random) -> Vec<(u64, Vec<u8>, Quotes)> {
    let mut books = Vec::new();
    for pages in 8..=64 {
        for lane in 0..LANES {
            let image = made_book(random, pages, lane);
            let quotes = table(&image).expect("transactions keep the store sound");
            books.push((lane, image, quotes));
        }
    }
    books
}

/// Pairs of books that transactions made.
#[test]
fn books_of_transactions() {
    let mut random = Random::new(SEED + 2);
    let mut tally = Tally::default();
    let books = made_books(&mut random);
    for _ in 0..MADE {
        let [i, j] = [random.below(books.len()), random.below(books.len())];
        let ((lane, first, one), (other_lane, second, other)) = (&books[i], &books[j]);
        let (mut second, mut other) = (second.clone(), other.clone());
        if lane != other_lane && random.one_in(4) {
            if let Some(joined) = with_key_of(&mut random, first, &second) {
                tally.count("one key in both");
                (other, second) = (table(&joined).unwrap(), joined);
            }
        }
        tally.count_if(i == j, "a book and itself");
        tally.count_if(*lane.max(other_lane) > 3, "one after the other");
        let mut quotes = [&one[..], &other].concat();
        quotes.sort_by_key(|quote| quote.0);
        let third = any_third(&mut random, packed(&quotes).len());
        tally.merge([first, &second], &third, &quotes);
    }
    tally.print("books of transactions", SEED + 2);
    tally.came(20, &LIMITS);
    tally.came(20, &["a book and itself"]);
    tally.came(1000, &["one key in both", "one after the other"]);
    tally.came(1000, &["a leaf closed for its bytes", "an empty value"]);
}
