//! Format, check, lookup and next key on random images, sound and damaged:
//! the answer and every buffer of the proved library are those of the
//! reference. The images are built apart from the reference, and on sound ones
//! the reference is also held to the table that the builder put in. Reads of
//! images in which some pages are bad are in compare_narrow.rs too.

mod both;

use both::{number, Both};
use cases::damage::{damage, other_length, FIELDS};
use cases::empties;
use cases::images::{any_shape, build, size, Built, Flaw, Reached, Shape, LAST_KEY};
use cases::random::Random;
use reference::{image as plain, Refusal};
use std::collections::BTreeMap;

const SEED: u64 = 20_240_603;
const ROUNDS: usize = 3_000;
const DAMAGED: usize = 8;

/// How often each answer of each call came.
#[derive(Default)]
struct Tally {
    answers: BTreeMap<(&'static str, String), usize>,
    calls: usize,
    sound: usize,
}

impl Tally {
    fn count(&mut self, call: &'static str, answer: String, sound: bool) {
        *self.answers.entry((call, answer)).or_default() += 1;
        self.calls += 1;
        self.sound += usize::from(sound);
    }

    fn print(&self) {
        println!("{} calls, {} on sound images", self.calls, self.sound);
        for ((call, answer), times) in &self.answers {
            println!("{call:<9} {answer:<10} {times:>7}");
        }
    }

    fn came(&self, call: &'static str, answer: &str) -> usize {
        let key = (call, answer.to_string());
        self.answers.get(&key).copied().unwrap_or(0)
    }
}

/// The three calls that read, on one image.
struct Reader<'a> {
    both: Both<'a>,
    sound: bool,
}

impl Reader<'_> {
    fn new(image: &[u8]) -> Reader<'_> {
        Reader {
            both: Both::new(image),
            sound: plain::check(image).is_ok(),
        }
    }

    fn check(&mut self, tally: &mut Tally) {
        let answer = self.both.check();
        tally.count("check", name(&answer.map(Some)), self.sound);
    }

    fn lookup(&mut self, key: u64, tally: &mut Tally) {
        let answer = self.both.lookup(key);
        tally.count("lookup", name(&answer), self.sound);
    }

    fn next_key(&mut self, key: u64, tally: &mut Tally) {
        let answer = self.both.next_key(key);
        tally.count("next key", name(&answer), self.sound);
    }

    fn all(&mut self, random: &mut Random, built: &Built, tally: &mut Tally) {
        self.check(tally);
        self.lookup(any_key(random, built), tally);
        self.next_key(any_key(random, built), tally);
    }

    /// Lookup and next key where the image differs from the one built: what
    /// they read is damaged. (b): elsewhere they see nothing of it.
    fn at_change(&mut self, random: &mut Random, built: &Built, tally: &mut Tally) {
        let Some(key) = key_at_change(random, built, self.both.image) else {
            return;
        };
        self.lookup(key, tally);
        self.next_key(key, tally);
    }
}

/// A key, as it was built or as it is now, of the page in which the image first
/// differs from the one built; of the index, a separator.
fn key_at_change(random: &mut Random, built: &Built, image: &[u8]) -> Option<u64> {
    let at = (0..image.len()).find(|&at| image[at] != built.image[at])?;
    let page = built.reached().find(|reached| reached.page == at / 1024)?;
    if page.places.is_empty() {
        return None;
    }
    let place = page.places[random.below(page.places.len())];
    match random.below(2) {
        0 => Some(place.key),
        _ => Some(u64::from_le_bytes(
            image[place.at..][..8].try_into().unwrap(),
        )),
    }
}

fn name<T>(answer: &Result<Option<T>, Refusal>) -> String {
    match answer {
        Ok(Some(_)) => "good".to_string(),
        Ok(None) => "none".to_string(),
        Err(refusal) => format!("refused {}", refusal.number),
    }
}

/// A key at a limit, or at or beside one that the image has, or any number.
fn any_key(random: &mut Random, built: &Built) -> u64 {
    let separators: Vec<u64> = built.separators().collect();
    let near = match random.below(3) {
        0 if !separators.is_empty() => random.pick(&separators),
        _ if built.table.is_empty() => 1,
        _ => built.table[random.below(built.table.len())].0,
    };
    match random.below(12) {
        0 => random.pick(&[0, 1, LAST_KEY, LAST_KEY + 1, u64::MAX]),
        1 => random.number(),
        2 => random.number() % LAST_KEY,
        3 | 4 => near.saturating_sub(1),
        5 | 6 => near + 1,
        _ => near,
    }
}

/// The reference against what the builder knows. Document 02 (b): "On a sound
/// image every answer is as it was", by the whole table.
fn hold_to_builder(random: &mut Random, built: &Built) {
    let table = &built.table;
    assert_eq!(plain::table(&built.image).as_ref(), Some(table));
    for _ in 0..10 {
        let key = any_key(random, built);
        let entry = table.iter().find(|entry| entry.0 == key);
        let found = plain::lookup(&built.image, key);
        match (1..=LAST_KEY).contains(&key) {
            true => assert_eq!(found.map(|place| place.is_some()), Ok(entry.is_some())),
            false => assert_eq!(number(&found), 6),
        }
        let wanted = entry.map_or(&[][..], |entry| &entry.1);
        assert_eq!(plain::value(&built.image, key), wanted);
        let next = table.iter().map(|entry| entry.0).find(|&k| k > key);
        assert_eq!(plain::next_key(&built.image, key), Ok(next));
    }
}

/// The shapes that the sound images must come in.
const SHAPES: [&str; 21] = [
    "8 pages",
    "64 pages",
    "28 leaves",
    "an empty only leaf",
    "a leaf of 28 records",
    "a leaf without a free byte",
    "a key below the first separator",
    "a first separator other than 0",
    "offsets that don't fall as keys rise",
    "the least key",
    "the last key",
    "an empty value",
    "a top",
    "an empty only leaf under a top",
    "one index page under a top",
    "28 index pages",
    "a full index page under a top",
    "more than 28 leaves",
    "a key below the separator of slot 0 of a later index page",
    "a key below the first separator in the top",
    "a separator below the first one in the top",
];

fn count_shapes(built: &Built, times: &mut [usize; SHAPES.len()]) {
    let leaves = &built.leaves;
    let bytes = |leaf: &Reached| leaf.places.iter().map(|place| size(place.length)).sum();
    let first = built.indexes[0].places[0].key;
    let top = built.top.as_ref().map_or(&[][..], |top| &top.places[..]);
    let indexes = built.indexes.len();
    let later_below_own = (1..leaves.len()).any(|leaf| {
        let (index, slot) = built.place_of(leaf);
        let own = built.indexes[index].places[slot].key;
        slot == 0 && leaves[leaf].places[0].key < own
    });
    let least = built.table.first().map(|entry| entry.0);
    let has = [
        built.pages == 8,
        built.pages == 64,
        leaves.len() == 28,
        built.table.is_empty(),
        leaves.iter().any(|leaf| leaf.places.len() == 28),
        leaves.iter().any(|leaf| 960usize == bytes(leaf)),
        built.table.first().is_some_and(|entry| entry.0 < first),
        first > 0,
        (leaves.iter()).any(|leaf| leaf.places.windows(2).any(|two| two[0].at < two[1].at)),
        built.table.first().is_some_and(|entry| entry.0 == 1),
        built.table.last().is_some_and(|entry| entry.0 == LAST_KEY),
        empties::any_stored(&built.table),
        !top.is_empty(),
        !top.is_empty() && built.table.is_empty(),
        top.len() == 1,
        top.len() == 28,
        !top.is_empty() && built.indexes.iter().any(|index| index.places.len() == 28),
        indexes > 1 && leaves.len() > 28,
        later_below_own,
        !top.is_empty() && least.is_some_and(|least| least < top[0].key),
        !top.is_empty() && first < top[0].key,
    ];
    for (times, has) in times.iter_mut().zip(has) {
        *times += usize::from(has);
    }
}

fn sound_calls(random: &mut Random, built: &Built, tally: &mut Tally) {
    let mut reader = Reader::new(&built.image);
    assert!(reader.sound);
    reader.check(tally);
    for _ in 0..10 {
        reader.lookup(any_key(random, built), tally);
        reader.next_key(any_key(random, built), tally);
    }
}

/// Calls on a damaged image; counts whether the damage in its first field was
/// refused.
fn damaged_calls(
    random: &mut Random,
    built: &Built,
    tally: &mut Tally,
    refused: &mut [usize; FIELDS.len()],
) {
    let field = random.below(FIELDS.len());
    let Some(mut image) = damage(random, built, field) else {
        return;
    };
    refused[field] += usize::from(plain::check(&image).is_err());
    if random.one_in(4) {
        let twice = Built {
            image,
            ..built.clone()
        };
        let second = random.below(FIELDS.len());
        image = damage(random, &twice, second).unwrap_or(twice.image);
    }
    let mut reader = Reader::new(&image);
    reader.all(random, built, tally);
    reader.at_change(random, built, tally);
}

const FLAWS: [(&str, Flaw); 5] = [
    ("a value too long", Flaw::LongValue),
    ("an empty leaf of several", Flaw::EmptyLeaf),
    ("a root without records", Flaw::EmptyRoot),
    ("an index page without records", Flaw::EmptyIndex),
    ("slots that are no multiples of 8", Flaw::OddSlots),
];

/// Calls on an image built with a flaw; counts whether it was refused.
fn flawed_calls(random: &mut Random, tally: &mut Tally, refused: &mut [usize; FLAWS.len()]) {
    let flaw = random.below(FLAWS.len());
    let shape = Shape {
        flaw: FLAWS[flaw].1,
        ..any_shape(random)
    };
    let built = build(random, shape);
    refused[flaw] += usize::from(plain::check(&built.image).is_err());
    Reader::new(&built.image).all(random, &built, tally);
}

fn format_call(random: &mut Random, length: usize, tally: &mut Tally) {
    let mut left = random.bytes(length);
    let mut right = left.clone();
    let wanted = plain::format(&mut left);
    assert_eq!(proved::format(&mut right), number(&wanted), "format");
    assert!(left == right, "format's image");
    tally.count("format", name(&wanted.map(Some)), false);
    if wanted.is_ok() {
        assert_eq!(plain::table(&left), Some(Vec::new()));
    }
}

#[test]
fn reading_calls_are_the_references() {
    println!("seed {SEED}");
    let mut random = Random::new(SEED);
    let mut tally = Tally::default();
    let mut refused = [0; FIELDS.len()];
    let mut flawed = [0; FLAWS.len()];
    let mut shapes = [0; SHAPES.len()];
    for _ in 0..ROUNDS {
        let shape = any_shape(&mut random);
        let built = build(&mut random, shape);
        count_shapes(&built, &mut shapes);
        hold_to_builder(&mut random, &built);
        sound_calls(&mut random, &built, &mut tally);
        for _ in 0..DAMAGED {
            damaged_calls(&mut random, &built, &mut tally, &mut refused);
        }
        flawed_calls(&mut random, &mut tally, &mut flawed);
        let other = other_length(&mut random, &built);
        Reader::new(&other).all(&mut random, &built, &mut tally);
        format_call(&mut random, other.len(), &mut tally);
    }
    tally.print();
    print_counts("sound images with", &SHAPES, &shapes);
    print_counts("damaged images refused, by field", &FIELDS, &refused);
    print_counts(
        "flawed images refused, with",
        &FLAWS.map(|flaw| flaw.0),
        &flawed,
    );
    assert!(shapes.iter().all(|&times| times > 20));
    assert!(refused.iter().all(|&times| times > 100));
    assert!(flawed.iter().all(|&times| times > 100));
    every_answer_came(&tally);
}

fn print_counts(heading: &str, names: &[&str], times: &[usize]) {
    println!("{heading}:");
    for (name, times) in names.iter().zip(times) {
        println!("  {name:<38}{times:>6}");
    }
}

fn every_answer_came(tally: &Tally) {
    assert!(tally.calls >= 100_000);
    assert!(5 * tally.sound >= tally.calls);
    for answer in ["good", "refused 1", "refused 3", "refused 4"] {
        assert!(tally.came("check", answer) > 100, "check: {answer}");
    }
    for answer in ["good", "none", "refused 1", "refused 3", "refused 4"] {
        assert!(tally.came("lookup", answer) > 100, "lookup: {answer}");
        assert!(tally.came("next key", answer) > 100, "next key: {answer}");
    }
    assert!(tally.came("lookup", "refused 6") > 100);
    assert!(tally.came("format", "good") > 100);
    assert!(tally.came("format", "refused 1") > 100);
    assert_eq!(tally.answers.len(), 4 + 6 + 5 + 2);
}
