//! Format, check, lookup and next key: the check that the three agree, their
//! rows, and lookup and next key beside what they cost when each judged the
//! whole image.

use bench::books;
use bench::{lean, measure};
use cases::damage::{damage, other_length, FIELDS};
use cases::images::{any_shape, build, Built, LAST_KEY};
use cases::random::Random;
use reference::{image as plain, Refusal};

const SEED: u64 = 20_240_604;
const CHECKED: usize = 1_000;

/// One call's buffers, and the keys that repeated calls take in turn.
#[derive(Clone, PartialEq)]
struct Call {
    image: Vec<u8>,
    key: u64,
    answer: [u64; 3],
    keys: Vec<u64>,
    turn: usize,
}

/// A way to make one of the calls; the answer is 0 or the refusal's number.
type Way = fn(&mut Call) -> u8;

const FORMAT: [Way; 3] = [
    |call| lean::image::format(&mut call.image),
    |call| proved::format(&mut call.image),
    |call| number(plain::format(&mut call.image)),
];

const CHECK: [Way; 3] = [
    |call| lean::image::check(&call.image),
    |call| proved::check(&mut call.image),
    |call| number(plain::check(&call.image)),
];

const LOOKUP: [Way; 3] = [
    |call| lean::read::lookup(&call.image, call.key, &mut call.answer),
    |call| proved::lookup(&mut call.image, call.key, &mut call.answer),
    |call| {
        number(plain::lookup(&call.image, call.key).map(|found| {
            let place = found.map_or([0; 3], |(at, length)| [1, at as u64, length as u64]);
            call.answer = place;
        }))
    },
];

const NEXT: [Way; 3] = [
    |call| lean::read::next_key(&call.image, call.key, two(&mut call.answer)),
    |call| proved::next_key(&mut call.image, call.key, two(&mut call.answer)),
    |call| {
        number(plain::next_key(&call.image, call.key).map(|next| {
            *two(&mut call.answer) = next.map_or([0; 2], |key| [1, key]);
        }))
    },
];

/// All keys by next key, from 0 on: one call more than there are keys.
const WALK: [Way; 3] = [
    |call| walk(call, NEXT[0]),
    |call| walk(call, NEXT[1]),
    |call| walk(call, NEXT[2]),
];

fn walk(call: &mut Call, next: Way) -> u8 {
    call.key = 0;
    loop {
        let number = next(call);
        let [found, key, _] = call.answer;
        if number != 0 || found == 0 {
            return number;
        }
        call.key = key;
    }
}

fn number(answer: Result<(), Refusal>) -> u8 {
    answer.map_or_else(|refusal| refusal.number, |()| 0)
}

fn two(answer: &mut [u64; 3]) -> &mut [u64; 2] {
    answer.first_chunk_mut().unwrap()
}

/// Stops the program if the three differ in an answer or a buffer.
pub fn check() {
    let mut random = Random::new(SEED);
    let (mut calls, mut accepted) = (0, 0);
    for _ in 0..CHECKED {
        let shape = any_shape(&mut random);
        let built = build(&mut random, shape);
        let field = random.below(FIELDS.len());
        let damaged = damage(&mut random, &built, field).unwrap_or_default();
        let other = other_length(&mut random, &built);
        for image in [built.image.clone(), damaged, other] {
            for ways in [FORMAT, CHECK, LOOKUP, NEXT, WALK] {
                let key = any_key(&mut random, &built);
                accepted += usize::from(agree(ways, image.clone(), key, calls) == 0);
                calls += 1;
            }
        }
    }
    println!(
        "format, check, lookup, next key and walk: the three agree on {calls} calls, {accepted} accepted"
    );
}

fn any_key(random: &mut Random, built: &Built) -> u64 {
    match random.below(4) {
        0 => random.pick(&[0, 1, LAST_KEY, LAST_KEY + 1, u64::MAX]),
        1 => random.number() % LAST_KEY,
        _ if built.table.is_empty() => 1,
        _ => built.table[random.below(built.table.len())].0,
    }
}

/// The answer of all three.
fn agree(ways: [Way; 3], image: Vec<u8>, key: u64, which: usize) -> u8 {
    let call = Call {
        image,
        key,
        answer: [7; 3],
        keys: Vec::new(),
        turn: 0,
    };
    measure::agreed(ways, &call, which, SEED).0
}

/// Pages of a store, the leaves of each index page, and quotes.
type Store = (usize, &'static [usize], usize);

/// The stores that are measured, the last two under a top.
const STORES: [Store; 6] = [
    (8, &[1], 1),
    (8, &[6], 168),
    (64, &[1], 1),
    (64, &[26], 500),
    (64, &[13, 13], 500),
    (64, &[26, 26], 1000),
];

pub fn measure() {
    measure::heading("call      pages  leaves  quotes");
    let calls = [
        ("check", CHECK),
        ("lookup", LOOKUP),
        ("next key", NEXT),
        ("walk", WALK),
    ];
    for (name, ways) in calls {
        for store in STORES {
            measure::row(&title(name, store), medians(ways, store));
        }
    }
    for pages in [8, 64] {
        let times = medians(FORMAT, (pages, &[1], 1));
        measure::row(&format!("{:<10}{pages:>5}", "format"), times);
    }
    measure_old_way();
}

fn title(name: &str, (pages, leaves, quotes): Store) -> String {
    let leaves = books::name(leaves);
    format!("{name:<10}{pages:>5}{leaves:>8}{quotes:>8}")
}

/// The calls that read one leaf, each with check before it, and alone.
const READS: [(&str, [Way; 2]); 3] = [
    ("lookup", [checked_lookup, LOOKUP[1]]),
    ("next key", [checked_next, NEXT[1]]),
    ("walk", [|call| walk(call, checked_next), WALK[1]]),
];

fn checked_lookup(call: &mut Call) -> u8 {
    CHECK[1](call).max(LOOKUP[1](call))
}

fn checked_next(call: &mut Call) -> u8 {
    CHECK[1](call).max(NEXT[1](call))
}

/// What a read costs that judges the whole image first, as all did before
/// document 02 (b), beside what it costs now.
fn measure_old_way() {
    let ways = ["check, then it", "it alone"];
    measure::pair_heading("proved    pages  leaves  quotes", ways);
    for (name, ways) in READS {
        for store in STORES {
            measure::pair_row(&title(name, store), medians(ways, store));
        }
    }
}

/// The median time of each way on a store of so many pages, leaves and quotes.
fn medians<const N: usize>(ways: [Way; N], (pages, leaves, quotes): Store) -> [f64; N] {
    let mut random = Random::new(SEED);
    let built = books::store(&mut random, pages, leaves, quotes);
    let mut keys: Vec<u64> = built.table.iter().map(|entry| entry.0).collect();
    random.shuffle(&mut keys);
    let call = Call {
        image: built.image,
        key: keys[0],
        answer: [0; 3],
        keys,
        turn: 0,
    };
    let mut candidates = ways.map(|way| {
        let mut call = call.clone();
        move || timed(way, &mut call)
    });
    measure::medians(&mut candidates.each_mut().map(|one| one as &mut dyn FnMut()))
}

fn timed(way: Way, call: &mut Call) {
    call.turn = (call.turn + 1) % call.keys.len();
    call.key = call.keys[call.turn];
    measure::timed(way, call);
}
