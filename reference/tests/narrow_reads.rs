//! Document 02 (b), "One bad leaf shouldn't blank the screen": each page of an
//! image is harmed in turn, and every key is asked by every call that reads. The
//! keys of a harmed leaf are refused with 4, and all others answer as before; those
//! of an index page under a top likewise (document 02 (j)). And each call reads
//! exactly the pages that (b) names.

mod both;

use both::Both;
use cases::harms::{of_leaves, of_lower, of_root, Harm, Harmed, OF_PAGE_ZERO};
use cases::images::{any_shape, build, even, even_under, Built, Flaw, Shape, LAST_KEY};
use cases::previews::{any_key, any_list};
use cases::random::Random;
use reference::edits::{Edit, Kind};
use reference::preview::Preview;
use reference::Refusal;
use std::collections::BTreeMap;

const SEED: u64 = 20_240_715;
/// Images in which pages that are not read are overwritten.
const OVERWRITTEN: usize = 500;

const BAD: Refusal = Refusal { number: 4, edit: 0 };

/// What the calls answer for one number; the previews are of the lists of two
/// leaves.
#[derive(Clone, Debug, PartialEq, Eq)]
struct Answers {
    lookup: Result<Option<(usize, usize)>, Refusal>,
    value: Vec<u8>,
    next_key: Result<Option<u64>, Refusal>,
    previews: [Result<Preview, Refusal>; 2],
}

impl Answers {
    /// Every call refused for page 0 or the root.
    fn refused(number: u8) -> Answers {
        let refusal = Refusal { number, edit: 0 };
        Answers {
            lookup: Err(refusal),
            value: Vec::new(),
            next_key: Err(refusal),
            previews: [Err(refusal); 2],
        }
    }
}

/// An image, and the numbers that are asked of it.
struct Screen {
    built: Built,
    numbers: Vec<u64>,
    /// For each leaf an edit list: an update of its first key, or in an empty
    /// leaf an insert.
    lists: Vec<Edit>,
}

impl Screen {
    /// Asks every key of the table and every separator, the numbers beside
    /// them, and the limits.
    fn new(built: Built) -> Screen {
        let keys = built.table.iter().map(|entry| entry.0);
        let mut numbers: Vec<u64> = (keys.chain(built.separators()))
            .flat_map(|key| [key.saturating_sub(1), key, key + 1])
            .chain([0, 1, LAST_KEY, LAST_KEY + 1, u64::MAX])
            .collect();
        numbers.sort();
        numbers.dedup();
        let list = |first: Option<u64>| Edit {
            kind: first.map_or(Kind::Insert, |_| Kind::Update),
            key: first.unwrap_or(7),
            value: b"seen".to_vec(),
        };
        let leaves = built.leaves.iter();
        let lists = leaves.map(|leaf| list(leaf.places.first().map(|place| place.key)));
        Screen {
            lists: lists.collect(),
            numbers,
            built,
        }
    }

    fn leaf_of(&self, key: u64) -> usize {
        self.built.leaf_of(key)
    }

    /// The leaves of this index page.
    fn leaves_of(&self, index: usize) -> Vec<usize> {
        let leaves = 0..self.lists.len();
        leaves
            .filter(|&leaf| self.built.place_of(leaf).0 == index)
            .collect()
    }

    /// The leaf itself, and the one after it or, of the last, the first.
    fn two_leaves(&self, at: usize) -> [usize; 2] {
        [at, (at + 1) % self.lists.len()]
    }

    fn ask(&self, image: &[u8], two: [usize; 2]) -> Vec<Answers> {
        let mut both = Both::new(image);
        let mut ask = |&number: &u64| Answers {
            lookup: both.lookup(number),
            value: both.value(number).to_vec(),
            next_key: both.next_key(number),
            previews: two.map(|leaf| both.preview(&self.lists[leaf].encode(), number, 4)),
        };
        self.numbers.iter().map(&mut ask).collect()
    }

    /// Every number is answered so.
    fn hold(&self, image: &[u8], two: [usize; 2], wanted: &[Answers], harm: &str) {
        let given = self.ask(image, two);
        for ((number, given), wanted) in self.numbers.iter().zip(given).zip(wanted) {
            assert_eq!(given, *wanted, "{harm}: {number}");
        }
    }

    /// How many keys of the table are found with the bytes that it has.
    fn still_found(&self, image: &[u8]) -> usize {
        let mut both = Both::new(image);
        let table = self.built.table.iter();
        table
            .filter(|(key, value)| {
                let found = both.lookup(*key).is_ok_and(|place| place.is_some());
                found && both.value(*key) == *value
            })
            .count()
    }
}

/// The leaves that the next key after a number reads: its own and, only if that
/// holds no larger key, the leaf after.
fn read_by_next_key(built: &Built, at: usize, number: u64) -> Vec<usize> {
    let larger = built.leaves[at]
        .places
        .iter()
        .any(|place| place.key > number);
    if larger || at + 1 == built.leaves.len() {
        return vec![at];
    }
    vec![at, at + 1]
}

/// What is answered if these leaves can't be read, from what was answered before.
fn with_bad(screen: &Screen, bad: &[usize], number: u64, before: &Answers) -> Answers {
    let mut wanted = before.clone();
    let own = screen.leaf_of(number);
    if bad.contains(&own) {
        wanted.lookup = Err(BAD);
        wanted.value.clear();
    }
    let mut read = read_by_next_key(&screen.built, own, number).into_iter();
    if read.any(|leaf| bad.contains(&leaf)) {
        wanted.next_key = Err(BAD);
    }
    // 6 for the key asked comes before every leaf's 4.
    if !(1..=LAST_KEY).contains(&number) {
        return wanted;
    }
    for (leaf, preview) in screen.two_leaves(bad[0]).iter().zip(&mut wanted.previews) {
        let edited = screen.lists[*leaf].key == number;
        if bad.contains(leaf) || (bad.contains(&own) && !edited) {
            *preview = Err(BAD);
        }
    }
    wanted
}

/// What every number is answered if these leaves can't be read.
fn all_with_bad(screen: &Screen, bad: &[usize]) -> Vec<Answers> {
    let before = screen.ask(&screen.built.image, screen.two_leaves(bad[0]));
    let numbers = screen.numbers.iter().zip(&before);
    numbers
        .map(|(&number, before)| with_bad(screen, bad, number, before))
        .collect()
}

/// How often each harm was done.
type Tally = BTreeMap<String, usize>;

/// Each leaf in turn: "a lookup now reads page 0, the index and one leaf". If
/// not all, one harm a leaf, in turn.
fn harm_leaves(random: &mut Random, screen: &Screen, all: bool, tally: &mut Tally) {
    let harms = of_leaves();
    for at in 0..screen.lists.len() {
        let two = screen.two_leaves(at);
        let wanted = all_with_bad(screen, &[at]);
        for (i, &harm) in harms.iter().enumerate() {
            // These change the index, and with it where a key belongs.
            let moves = matches!(harm, Harm::SeparatorLowered | Harm::SeparatorRaised);
            let mut harmed = Harmed::not_yet(&screen.built);
            let turn = all || i % harms.len() == at % harms.len();
            if moves || !turn || !harmed.harm_leaf(random, at, harm) {
                continue;
            }
            let image = &harmed.built.image;
            assert_eq!(Both::new(image).check(), Err(BAD), "{harm:?}");
            screen.hold(image, two, &wanted, &format!("leaf {at}, {harm:?}"));
            let lost = screen.built.leaves[at].places.len();
            assert_eq!(screen.still_found(image), screen.built.table.len() - lost);
            *tally.entry(format!("leaf, {harm:?}")).or_default() += 1;
        }
    }
}

/// Each index page under a top in turn: a bad one blanks the keys of its own leaves
/// alone. If not all, one harm an index page, in turn.
fn harm_lower(random: &mut Random, screen: &Screen, all: bool, tally: &mut Tally) {
    if screen.built.top.is_none() {
        return;
    }
    let harms = of_lower();
    for at in 0..screen.built.indexes.len() {
        let leaves = screen.leaves_of(at);
        let wanted = all_with_bad(screen, &leaves);
        let lost: usize = leaves
            .iter()
            .map(|&leaf| screen.built.leaves[leaf].places.len())
            .sum();
        for (i, &harm) in harms.iter().enumerate() {
            let mut harmed = Harmed::not_yet(&screen.built);
            let turn = all || i % 4 == at % 4;
            if !turn || !harmed.harm_lower(random, at, harm) {
                continue;
            }
            let image = &harmed.built.image;
            assert_eq!(Both::new(image).check(), Err(BAD), "{harm:?}");
            let name = format!("index page {at}, {harm:?}");
            screen.hold(image, screen.two_leaves(leaves[0]), &wanted, &name);
            assert_eq!(screen.still_found(image), screen.built.table.len() - lost);
            *tally.entry(format!("index page, {harm:?}")).or_default() += 1;
        }
    }
}

/// The root, an index page or a top: every key is refused with 4.
fn harm_root(random: &mut Random, screen: &Screen, tally: &mut Tally) {
    let wanted = vec![Answers::refused(4); screen.numbers.len()];
    let root = screen.built.top.as_ref().map_or("index", |_| "top");
    for harm in of_root() {
        let mut harmed = Harmed::not_yet(&screen.built);
        if harmed.harm_root(random, harm) {
            let image = &harmed.built.image;
            screen.hold(image, screen.two_leaves(0), &wanted, &format!("{harm:?}"));
            assert_eq!(screen.still_found(image), 0);
            *tally.entry(format!("{root}, {harm:?}")).or_default() += 1;
        }
    }
}

/// Line 0 of page 0: every key is refused, with 3 if a mark waits, else with 4.
fn harm_page_zero(random: &mut Random, screen: &Screen, tally: &mut Tally) {
    for (which, (name, number)) in OF_PAGE_ZERO.iter().enumerate() {
        let mut harmed = Harmed::not_yet(&screen.built);
        harmed.harm_page_zero(random, which);
        let image = &harmed.built.image;
        let wanted = vec![Answers::refused(*number); screen.numbers.len()];
        screen.hold(image, screen.two_leaves(0), &wanted, name);
        assert_eq!(screen.still_found(image), 0);
        *tally.entry(format!("page 0, {name}")).or_default() += 1;
    }
}

/// Log lines and pages that are not reached: every key answers as before.
fn overwrite_unreached(random: &mut Random, screen: &Screen, tally: &mut Tally) {
    let built = &screen.built;
    let two = screen.two_leaves(0);
    let before = screen.ask(&built.image, two);
    let reached = |page: usize| built.reached().any(|reached| reached.page == page);
    let pages = (1..built.pages).filter(|&page| !reached(page));
    let pages = pages.map(|page| ("page", page * 1024, 1024));
    let lines = (1..16).map(|line| ("log line", line * 64, 64));
    for (name, at, length) in pages.chain(lines) {
        let mut image = built.image.clone();
        random.fill(&mut image[at..at + length]);
        screen.hold(&image, two, &before, name);
        assert_eq!(screen.still_found(&image), built.table.len());
        *tally.entry(name.to_string()).or_default() += 1;
    }
}

/// Images of every shape that matters here.
fn images(random: &mut Random) -> Vec<Built> {
    let shape = |pages, indexes, leaves, most, longest| Shape {
        pages,
        indexes,
        leaves,
        most,
        longest,
        tidy: false,
        flaw: Flaw::None,
    };
    vec![
        even(random, 8, 5, 60),
        build(random, shape(9, 0, 4, 8, 40)),
        build(random, shape(8, 0, 6, 1, 3)),
        build(random, shape(8, 0, 2, 28, 16)),
        build(random, shape(8, 0, 1, 12, 200)),
        build(random, shape(8, 0, 1, 0, 0)),
        build(random, shape(64, 0, 28, 3, 20)),
        even_under(random, 12, &[2, 3, 1], 60),
        build(random, shape(12, 3, 6, 5, 40)),
        build(random, shape(9, 1, 5, 8, 16)),
        build(random, shape(8, 1, 1, 0, 0)),
        build(random, shape(64, 2, 40, 2, 20)),
    ]
}

#[test]
fn each_page_in_turn() {
    let mut random = Random::new(SEED);
    let mut tally = Tally::new();
    for built in images(&mut random) {
        let screen = Screen::new(built);
        let all = screen.lists.len() < 28;
        harm_leaves(&mut random, &screen, all, &mut tally);
        harm_lower(&mut random, &screen, all, &mut tally);
        harm_root(&mut random, &screen, &mut tally);
        harm_page_zero(&mut random, &screen, &mut tally);
        overwrite_unreached(&mut random, &screen, &mut tally);
    }
    println!("each page in turn, seed {SEED}, images by what was harmed:");
    for (harm, times) in &tally {
        println!("  {harm:<44}{times:>5}");
    }
    // The two moves of a separator are left out; each other harm was done.
    let above = of_lower().len() + 2 * of_root().len();
    let kinds = (of_leaves().len() - 2) + above + OF_PAGE_ZERO.len() + 2;
    assert_eq!(tally.len(), kinds);
}

/// "No leaf is empty unless it is the only one": an only leaf that is emptied
/// answers that every key is missing, one of two is bad.
#[test]
fn only_one_leaf_may_be_empty() {
    let mut random = Random::new(SEED + 1);
    for (leaves, bad) in [(1, false), (2, true)] {
        let built = even(&mut random, 8, leaves, 20);
        let mut image = built.image.clone();
        let line = &mut image[built.leaves[0].page * 1024..][..64];
        line[0] = 0;
        line[8..].fill(0);
        let mut both = Both::new(&image);
        for place in &built.leaves[0].places {
            let wanted = if bad { Err(BAD) } else { Ok(None) };
            assert_eq!(both.lookup(place.key), wanted);
            assert_eq!(both.next_key(place.key), wanted.map(|_| None));
            assert_eq!(both.value(place.key), b"");
        }
    }
}

/// The image with other bytes everywhere but in line 0 of page 0, the root, these
/// leaves and the index pages above them.
fn only_with(random: &mut Random, built: &Built, leaves: &[usize]) -> Vec<u8> {
    let mut image = random.bytes(built.image.len());
    image[..64].copy_from_slice(&built.image[..64]);
    let read = leaves.iter().map(|&at| built.leaves[at].page);
    let above = leaves
        .iter()
        .map(|&at| built.indexes[built.place_of(at).0].page);
    for page in read.chain(above).chain([built.root().page]) {
        let range = page * 1024..(page + 1) * 1024;
        image[range.clone()].copy_from_slice(&built.image[range]);
    }
    image
}

/// A call reads exactly these leaves: with other bytes in all others it answers
/// the same, and with other bytes in one of these 4.
fn reads<T: PartialEq + std::fmt::Debug>(
    random: &mut Random,
    (built, leaves): (&Built, &[usize]),
    call: impl Fn(&mut Both) -> Result<T, Refusal>,
) -> bool {
    let answer = call(&mut Both::new(&built.image));
    let image = only_with(random, built, leaves);
    assert_eq!(
        call(&mut Both::new(&image)),
        answer,
        "pages not read matter"
    );
    for &leaf in leaves {
        let index = built.indexes[built.place_of(leaf).0].page;
        for page in [built.leaves[leaf].page, index] {
            let mut image = built.image.clone();
            random.fill(&mut image[page * 1024..][..1024]);
            assert_eq!(call(&mut Both::new(&image)), Err(BAD), "a page read is bad");
        }
    }
    let unread = leaves.len() < built.leaves.len();
    if unread {
        assert_eq!(
            Both::new(&image).check(),
            Err(BAD),
            "check reads every leaf"
        );
    }
    unread
}

/// The leaves that a preview reads: those of its edits up to the one that is
/// refused, and that of the key asked if no edit has that key.
fn read_by_preview(screen: &Screen, keys: &[u64], key: u64, edits: &[u8]) -> Vec<usize> {
    let answer = Both::new(&screen.built.image).preview(edits, key, 4);
    let mut needed = match answer {
        Err(Refusal {
            number: 8 | 9,
            edit,
        }) => keys[..=edit].to_vec(),
        Err(_) => Vec::new(),
        Ok(_) => keys.to_vec(),
    };
    if answer.is_ok() && !keys.contains(&key) {
        needed.push(key);
    }
    let mut leaves: Vec<usize> = needed.iter().map(|&key| screen.leaf_of(key)).collect();
    leaves.sort();
    leaves.dedup();
    leaves
}

/// One lookup, one next key and one preview; gives how many left a leaf unread.
fn calls(random: &mut Random, screen: &Screen) -> usize {
    let built = &screen.built;
    let number = random.pick(&screen.numbers);
    let at = screen.leaf_of(number);
    let lookup = reads(random, (built, &[at]), |both| both.lookup(number));
    let leaves = read_by_next_key(built, at, number);
    let next_key = reads(random, (built, &leaves), |both| both.next_key(number));
    let mut list = any_list(random, &built.table);
    if random.one_in(3) {
        // Key out of range, key rules, empty value.
        let fault = random.between(7, 11);
        list.spoil(random, fault);
        list.edits.truncate(16);
    }
    let key = match random.below(2) {
        0 => number,
        _ => any_key(random, &built.table, &list),
    };
    let edits = list.bytes();
    let leaves = read_by_preview(screen, &list.keys(), key, &edits);
    let preview = reads(random, (built, &leaves), |both| {
        both.preview(&edits, key, 4)
    });
    [lookup, next_key, preview].map(usize::from).iter().sum()
}

#[test]
fn pages_not_read_may_hold_anything() {
    let mut random = Random::new(SEED + 2);
    let mut unread = 0;
    for _ in 0..OVERWRITTEN {
        let shape = any_shape(&mut random);
        let screen = Screen::new(build(&mut random, shape));
        for _ in 0..4 {
            unread += calls(&mut random, &screen);
        }
    }
    println!("{unread} calls left a leaf unread");
    assert!(unread > 2 * OVERWRITTEN);
}
