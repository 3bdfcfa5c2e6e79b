//! Preview: the check that the three agree, and its rows.

use bench::books::{book_of, delete, insert, name, one, spread, update, updates};
use bench::{lean, measure};
use cases::images::Built;
use cases::previews::any_call;
use cases::random::Random;
use cases::stores::any_built;
use reference::edits::parse;
use reference::numbers::of_preview;

const SEED: u64 = 20_240_610;
const CHECKED: usize = 10_000;
/// So many lists, so that the processor can't foresee the descents.
const TURNS: usize = 50;

/// One call's buffers. Repeated calls take the lists in turn, each with the key
/// that is asked.
#[derive(Clone, PartialEq)]
struct Call {
    image: Vec<u8>,
    lists: Vec<(Vec<u8>, u64)>,
    turn: usize,
    answer: [u64; 4],
}

impl Call {
    fn new(image: Vec<u8>, lists: Vec<(Vec<u8>, u64)>) -> Call {
        Call {
            image,
            lists,
            turn: 0,
            answer: [7; 4],
        }
    }
}

/// A way to make the call; the answer is 0 or the refusal's number.
type Way = fn(&mut Call) -> u8;

const PREVIEW: [Way; 3] = [
    |call| {
        let (list, key) = &call.lists[call.turn];
        lean::preview::preview(&call.image, list, *key, &mut call.answer)
    },
    |call| {
        let (list, key) = &mut call.lists[call.turn];
        proved::preview(&mut call.image, list, *key, &mut call.answer)
    },
    |call| {
        let (list, key) = &call.lists[call.turn];
        let answer = reference::preview::preview(&call.image, list, *key);
        let (number, four) = of_preview(&answer);
        call.answer = four;
        number
    },
];

/// Stops the program if the three differ in an answer or a buffer.
pub fn check() {
    let mut random = Random::new(SEED);
    let mut accepted = 0;
    for which in 0..CHECKED {
        let built = any_built(&mut random);
        let call = any_call(&mut random, &built);
        let call = Call::new(call.image, vec![(call.edits, call.key)]);
        let reference = measure::agreed(PREVIEW, &call, which, SEED);
        accepted += usize::from(reference.0 == 0);
    }
    println!("preview: the three agree on {CHECKED} calls, {accepted} accepted");
}

/// The keys that a list edits.
fn keys(list: &[u8]) -> Vec<u64> {
    let edits = parse(list).expect("the list has no fault");
    edits.iter().map(|edit| edit.key).collect()
}

/// Makes the list of a turn.
type Maker = fn(&Built, usize) -> Vec<u8>;

const LISTS: [(&str, Maker); 3] = [
    ("1 update", |built, turn| updates(&one(built, turn))),
    ("16 updates", |built, turn| updates(&spread(built, turn))),
    ("16 mixed", mixed),
];

/// Every kind of edit, and keys that are edited twice.
fn mixed(built: &Built, turn: usize) -> Vec<u8> {
    let four = |&key: &u64| {
        let new = key + 1;
        [insert(new), update(key), delete(key), update(new)]
    };
    let keys = spread(built, turn);
    keys[..4].iter().flat_map(four).flatten().collect()
}

pub fn measure() {
    measure::heading("preview of  key in  pages  leaves  quotes");
    let stores: [(usize, &[usize]); 3] = [(8, &[4]), (64, &[26]), (64, &[26, 26])];
    for (pages, leaves) in stores {
        let quotes = leaves.iter().sum::<usize>() * 14;
        let built = book_of(pages, leaves, quotes);
        let leaves = name(leaves);
        for (list, maker) in LISTS {
            for (asked, in_list) in [("list", true), ("image", false)] {
                let times = medians(timed_call(&built, maker, in_list));
                let row = format!("{list:<12}{asked:<6}{pages:>7}{leaves:>8}{quotes:>8}");
                measure::row(&row, times);
            }
        }
    }
}

/// A call with many lists, and for each a key that it edits or one that it
/// leaves alone and the image has.
fn timed_call(built: &Built, maker: Maker, in_list: bool) -> Call {
    let mut random = Random::new(SEED);
    let present = || built.table.iter().map(|entry| entry.0);
    let with_key = |turn| {
        let list = maker(built, turn);
        let edited = keys(&list);
        let others: Vec<u64> = present().filter(|key| !edited.contains(key)).collect();
        let key = random.pick(if in_list { &edited } else { &others });
        (list, key)
    };
    Call::new(built.image.clone(), (0..TURNS).map(with_key).collect())
}

fn medians(call: Call) -> [f64; 3] {
    let mut calls = [call.clone(), call.clone(), call];
    let [lean, proved, reference] = &mut calls;
    measure::medians(&mut [
        &mut || timed(PREVIEW[0], lean),
        &mut || timed(PREVIEW[1], proved),
        &mut || timed(PREVIEW[2], reference),
    ])
}

fn timed(way: Way, call: &mut Call) {
    call.turn = (call.turn + 1) % call.lists.len();
    measure::timed(way, call);
}
