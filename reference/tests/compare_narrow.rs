//! Document 02 (b), "One bad leaf shouldn't blank the screen", on random images
//! in which pages are harmed, index pages under a top too (document 02 (j)): the
//! answer and every buffer of the proved library are those of the reference, and
//! both are what the builder of the harm knows.

mod both;

use both::Both;
use cases::harms::{any_harmed, of_leaves, of_lower, of_root, Harmed};
use cases::images::{any_shape, build, LAST_KEY};
use cases::lists::{List, OWN};
use cases::narrow::End;
use cases::random::Random;
use reference::numbers::of_preview;
use reference::Refusal;
use std::collections::BTreeMap;

const SEED: u64 = 20_240_701;
const IMAGES: usize = 32_000;
/// Calls of each of lookup, value and next key on an image; and previews.
const READS: usize = 7;
const PREVIEWS: usize = 4;

/// How often each thing came.
#[derive(Default)]
struct Tally {
    times: BTreeMap<String, usize>,
    reads: usize,
    previews: usize,
}

impl Tally {
    fn count(&mut self, what: impl Into<String>) {
        *self.times.entry(what.into()).or_default() += 1;
    }

    fn count_if(&mut self, came: bool, what: impl Into<String>) {
        if came {
            self.count(what);
        }
    }

    fn print(&self) {
        println!(
            "seed {SEED}, reads {}, previews {}",
            self.reads, self.previews
        );
        for (what, times) in &self.times {
            println!("  {what:<64}{times:>7}");
        }
    }

    fn all_came(&self, wanted: &[String]) {
        for what in wanted {
            let times = self.times.get(what).copied().unwrap_or(0);
            assert!(times > 20, "came too seldom, {times} times: {what}");
        }
    }
}

fn in_range(key: u64) -> bool {
    (1..=LAST_KEY).contains(&key)
}

/// Whether a leaf that is none of these can't be read.
fn bad_beside(harmed: &Harmed, read: &[usize]) -> bool {
    let mut leaves = 0..harmed.leaves.len();
    leaves.any(|at| is_bad(harmed, at) && !read.contains(&at))
}

/// Whether this leaf, if there is one, can't be read: for itself or for its index
/// page under a top.
fn is_bad(harmed: &Harmed, at: usize) -> bool {
    at < harmed.leaves.len() && harmed.on_way_to(at).is_some()
}

/// What is wrong on the way to a leaf.
fn harm_of(harmed: &Harmed, at: usize) -> String {
    match harmed.index_of(at) {
        Some(harm) => format!("index page, {harm:?}"),
        None => format!("{:?}", harmed.leaves[at].expect("the leaf is bad")),
    }
}

/// Check judges the whole image: any harm is refused.
fn check(both: &mut Both, harmed: &Harmed, tally: &mut Tally) {
    let early = harmed.before_leaves();
    let bad = harmed.lower.iter().chain(&harmed.leaves).flatten().count();
    let wanted = early.or((bad > 0).then_some(4));
    let given = both.check().err().map(|refusal| refusal.number);
    assert_eq!(given, wanted, "check");
    tally.count(match (early, bad) {
        (Some(_), _) => "check: refused for page 0 or the root",
        (None, 0) => "check: good",
        (None, 1) => "check: 4, one page bad",
        (None, _) => "check: 4, several pages bad",
    });
}

fn plain<T>(answer: Result<T, Refusal>) -> Result<T, u8> {
    answer.map_err(|refusal| refusal.number)
}

/// Lookup and its companion.
fn lookup(both: &mut Both, harmed: &Harmed, key: u64, tally: &mut Tally) {
    let answer = plain(both.lookup(key));
    assert_eq!(answer, harmed.lookup(key), "lookup of {key}");
    let length = answer.ok().flatten().map_or(0, |place| place.1);
    assert_eq!(both.value(key).len(), length, "value of {key}");
    tally.reads += 2;
    let at = harmed.leaf_of(key);
    let beside = bad_beside(harmed, &[at]);
    match answer {
        Err(_) if harmed.before_leaves().is_some() => count_early("lookup", harmed, &[at], tally),
        Err(6) => tally.count_if(beside, "lookup: 6, another leaf bad"),
        Err(_) => {
            tally.count(format!("lookup: 4, {}", harm_of(harmed, at)));
            tally.count_if(!beside, "lookup: 4, every other leaf good");
            tally.count_if(!in_range(key), "lookup: 4 before 6");
        }
        Ok(Some(_)) => {
            tally.count_if(beside, "lookup: found, another leaf bad");
            let between = at > 0 && is_bad(harmed, at - 1) && is_bad(harmed, at + 1);
            tally.count_if(between, "lookup: found, both leaves beside it bad");
            let other = harmed.lower.iter().any(Option::is_some);
            tally.count_if(other, "lookup: found, another index page bad");
        }
        Ok(None) => {
            tally.count_if(beside, "lookup: missing, another leaf bad");
            let listed = harmed.built.table.iter().any(|entry| entry.0 == key);
            tally.count_if(listed, "lookup: missing, listed in a leaf not read");
        }
    }
}

/// A refusal of page 0 or the root, where these leaves would be read.
fn count_early(call: &str, harmed: &Harmed, read: &[usize], tally: &mut Tally) {
    let good = !read.iter().any(|&at| is_bad(harmed, at));
    match (harmed.page_zero, harmed.root) {
        (Some(number), Some(_)) => tally.count(format!("{call}: {number}, page 0, root bad too")),
        (Some(number), None) if good => tally.count(format!("{call}: {number}, page 0 alone")),
        (Some(number), None) => tally.count(format!("{call}: {number}, page 0, leaf bad too")),
        (None, Some(harm)) => {
            let root = if harmed.lower.is_empty() {
                "index"
            } else {
                "top"
            };
            tally.count_if(good, format!("{call}: 4, {root} alone, {harm:?}"));
            tally.count_if(!good, format!("{call}: 4, {root}, leaf bad too"));
        }
        (None, None) => panic!("page 0 and the root are good"),
    }
}

fn next_key(both: &mut Both, harmed: &Harmed, number: u64, tally: &mut Tally) {
    let answer = plain(both.next_key(number));
    assert_eq!(answer, harmed.next_key(number), "next key after {number}");
    tally.reads += 1;
    let at = harmed.leaf_of(number);
    let after = at + 1;
    let beside = bad_beside(harmed, &[at, after]);
    match answer {
        Err(_) if harmed.before_leaves().is_some() => count_early("next key", harmed, &[at], tally),
        Err(_) => match is_bad(harmed, at) {
            true => {
                tally.count(format!("next key: 4, {}", harm_of(harmed, at)));
                let good = after < harmed.leaves.len() && !is_bad(harmed, after);
                tally.count_if(good, "next key: 4, the leaf after good");
            }
            false => {
                let harm = harm_of(harmed, after);
                tally.count(format!("next key: 4, the leaf after, {harm}"));
            }
        },
        Ok(Some(key)) => {
            let places = &harmed.built.leaves[at].places;
            let first = places.iter().any(|place| place.key == key);
            let unread = first && is_bad(harmed, after);
            tally.count_if(unread, "next key: in the leaf, the leaf after bad");
            tally.count_if(!first, "next key: in the leaf after");
            tally.count_if(!first && beside, "next key: in the leaf after, another bad");
            let other_page = harmed.built.place_of(at).0 + 1
                == harmed.built.place_of(after.min(harmed.leaves.len() - 1)).0;
            tally.count_if(!first && other_page, "next key: in the next index page");
        }
        Ok(None) => tally.count_if(beside, "next key: none, another leaf bad"),
    }
}

/// A preview of a list that has no fault of its own.
fn preview(both: &mut Both, harmed: &Harmed, list: &List, key: u64, tally: &mut Tally) -> End {
    let end = harmed.preview(&list.edits, key);
    let answer = both.preview(&list.bytes(), key, 4);
    assert_eq!(
        of_preview(&answer),
        end.numbers(),
        "preview of {key}: {end:?}"
    );
    tally.previews += 1;
    let bad = |key: &u64| is_bad(harmed, harmed.leaf_of(*key));
    let keys = list.keys();
    match end {
        End::BeforeLeaves(_) => count_early("preview", harmed, &[], tally),
        End::KeyAsked => tally.count_if(keys.iter().any(bad), "preview: 6 before a leaf's 4"),
        End::LeafOfEdit(at) => count_leaf_of_edit(harmed, list, at, tally),
        End::KeyRule { number, edit } => {
            let later = keys[edit + 1..].iter().any(bad);
            tally.count_if(later, format!("preview: {number} before a later edit's 4"));
            let last = !later && !keys.contains(&key) && bad(&key);
            tally.count_if(last, format!("preview: {number} before the asked key's 4"));
        }
        End::LeafOfKey => {
            tally.count("preview: 4 last of all");
            let index = harmed.index_of(harmed.leaf_of(key));
            tally.count_if(index.is_some(), "preview: 4 last of all, of its index page");
        }
        found => {
            let read: Vec<usize> = keys.iter().map(|&key| harmed.leaf_of(key)).collect();
            let beside = bad_beside(harmed, &[&read[..], &[harmed.leaf_of(key)]].concat());
            let place = match found {
                End::InList { .. } => "in the list",
                End::InImage { .. } => "in the image",
                _ => "missing",
            };
            tally.count_if(beside, format!("preview: {place}, another leaf bad"));
        }
    }
    end
}

/// 4 at an edit, beside what the same list would get if no leaf were bad.
fn count_leaf_of_edit(harmed: &Harmed, list: &List, at: usize, tally: &mut Tally) {
    let kind = ["an insert", "an update", "a delete"][list.edits[at][0] as usize - 1];
    tally.count(format!("preview: 4 at {kind}"));
    tally.count_if(at > 0, "preview: 4 at a later edit");
    let index = harmed.index_of(harmed.leaf_of(list.keys()[at]));
    tally.count_if(index.is_some(), "preview: 4 at an edit, of its index page");
    let good = Harmed {
        lower: vec![None; harmed.lower.len()],
        leaves: vec![None; harmed.leaves.len()],
        ..harmed.clone()
    };
    if let End::KeyRule { number, edit } = good.preview(&list.edits, list.keys()[0]) {
        assert!(edit >= at, "the edits before have no 8 or 9");
        let place = match edit == at {
            true => "of the same edit",
            false => "of a later edit",
        };
        tally.count(format!("preview: 4 before the {number} {place}"));
    }
}

/// A list with a fault is refused for it before any leaf is read.
fn faulty_preview(both: &mut Both, random: &mut Random, asked: (List, u64), tally: &mut Tally) {
    let (mut list, key) = asked;
    let fault = random.pick(&OWN);
    list.spoil(random, fault);
    let answer = both.preview(&list.bytes(), key, 4);
    tally.previews += 1;
    match plain(answer) {
        Err(number @ (5..=7 | 19)) => {
            tally.count(format!("preview: the list's {number} before a leaf's 4"));
        }
        // It is no fault after all.
        _ => tally.count("preview: a list spoilt to no effect"),
    }
}

fn previews(random: &mut Random, both: &mut Both, harmed: &Harmed, tally: &mut Tally) {
    for _ in 0..PREVIEWS {
        let (list, key) = harmed.any_preview(random);
        let end = preview(both, harmed, &list, key, tally);
        let leaf = matches!(end, End::LeafOfEdit(_) | End::LeafOfKey);
        if leaf && random.one_in(4) {
            faulty_preview(both, random, (list, key), tally);
        }
    }
}

#[test]
fn narrow_reads_are_the_references() {
    let mut random = Random::new(SEED);
    let mut tally = Tally::default();
    for _ in 0..IMAGES / 8 {
        let shape = any_shape(&mut random);
        let built = build(&mut random, shape);
        for _ in 0..8 {
            let harmed = any_harmed(&mut random, &built);
            let mut both = Both::new(&harmed.built.image);
            check(&mut both, &harmed, &mut tally);
            for _ in 0..READS {
                lookup(&mut both, &harmed, harmed.any_key(&mut random), &mut tally);
                next_key(&mut both, &harmed, harmed.any_key(&mut random), &mut tally);
            }
            previews(&mut random, &mut both, &harmed, &mut tally);
        }
    }
    tally.print();
    assert!(tally.reads >= 500_000 && tally.previews >= 90_000);
    tally.all_came(&wanted_reads());
    tally.all_came(&wanted_previews());
    for call in ["lookup", "next key", "preview"] {
        tally.all_came(&wanted_early(call));
    }
}

fn wanted_reads() -> Vec<String> {
    let plain = [
        "check: refused for page 0 or the root",
        "check: good",
        "check: 4, one page bad",
        "check: 4, several pages bad",
        "lookup: found, another leaf bad",
        "lookup: found, both leaves beside it bad",
        "lookup: found, another index page bad",
        "lookup: missing, another leaf bad",
        "lookup: missing, listed in a leaf not read",
        "lookup: 6, another leaf bad",
        "lookup: 4, every other leaf good",
        "lookup: 4 before 6",
        "next key: in the leaf, the leaf after bad",
        "next key: in the leaf after",
        "next key: in the leaf after, another bad",
        "next key: in the next index page",
        "next key: none, another leaf bad",
        "next key: 4, the leaf after good",
    ];
    let mut wanted = plain.map(String::from).to_vec();
    for harm in of_leaves() {
        wanted.push(format!("lookup: 4, {harm:?}"));
        wanted.push(format!("next key: 4, {harm:?}"));
        wanted.push(format!("next key: 4, the leaf after, {harm:?}"));
    }
    for harm in of_lower() {
        wanted.push(format!("lookup: 4, index page, {harm:?}"));
        wanted.push(format!("next key: 4, index page, {harm:?}"));
        wanted.push(format!("next key: 4, the leaf after, index page, {harm:?}"));
    }
    for call in ["lookup", "next key"] {
        wanted.extend(["index", "top"].map(|root| format!("{call}: 4, {root}, leaf bad too")));
        wanted.extend([3, 4].map(|n| format!("{call}: {n}, page 0, leaf bad too")));
    }
    wanted
}

/// Refusals of page 0 and of the root.
fn wanted_early(call: &str) -> Vec<String> {
    let roots = ["index", "top"].into_iter();
    // A top has no padding less than an index page has: every harm is done to both.
    let harms = roots.flat_map(|root| of_root().into_iter().map(move |harm| (root, harm)));
    (harms.map(|(root, harm)| format!("{call}: 4, {root} alone, {harm:?}")))
        .chain([3, 4].map(|n| format!("{call}: {n}, page 0 alone")))
        .chain([3, 4].map(|n| format!("{call}: {n}, page 0, root bad too")))
        .collect()
}

fn wanted_previews() -> Vec<String> {
    let plain = [
        "6 before a leaf's 4",
        "4 at an insert",
        "4 at an update",
        "4 at a delete",
        "4 at a later edit",
        "4 last of all",
        "4 at an edit, of its index page",
        "4 last of all, of its index page",
        "in the list, another leaf bad",
        "in the image, another leaf bad",
        "missing, another leaf bad",
    ];
    let mut wanted = plain.map(|what| format!("preview: {what}")).to_vec();
    for number in [8, 9] {
        wanted.push(format!("preview: {number} before a later edit's 4"));
        wanted.push(format!("preview: {number} before the asked key's 4"));
        wanted.push(format!("preview: 4 before the {number} of the same edit"));
        wanted.push(format!("preview: 4 before the {number} of a later edit"));
    }
    let numbers = [5, 6, 7, 19].into_iter();
    wanted.extend(numbers.map(|n| format!("preview: the list's {n} before a leaf's 4")));
    wanted
}
