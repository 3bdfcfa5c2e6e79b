//! Merge: the check that the three agree, and its rows.

use bench::measure::timed;
use bench::{lean, measure};
use cases::damage::{damage, FIELDS};
use cases::images::from_leaves;
use cases::merges::{any_pair, any_third};
use cases::random::Random;

const SEED: u64 = 20_241_203;
const CHECKED: usize = 5_000;

/// One call's buffers.
#[derive(Clone, PartialEq)]
struct Call {
    first: Vec<u8>,
    second: Vec<u8>,
    out: Vec<u8>,
}

/// A way to make the call; the answer is 0 or the refusal's number.
type Way = fn(&mut Call) -> u8;

const MERGE: [Way; 3] = [
    |call| lean::merge::merge(&call.first, &call.second, &mut call.out),
    |call| proved::merge(&mut call.first, &mut call.second, &mut call.out),
    |call| {
        let merged = reference::merge::merge(&call.first, &call.second, &mut call.out);
        merged.map_or_else(|refusal| refusal.number, |()| 0)
    },
];

/// Stops the program if the three differ in an answer or a buffer.
pub fn check() {
    let mut random = Random::new(SEED);
    let mut accepted = 0;
    for which in 0..CHECKED {
        let pair = any_pair(&mut random);
        let [mut first, second] = pair.images();
        if random.one_in(4) {
            let field = random.below(FIELDS.len());
            first = damage(&mut random, &pair.books[0], field).unwrap_or_default();
        }
        let call = Call {
            first,
            second,
            out: any_third(&mut random, pair.leaves),
        };
        let reference = measure::agreed(MERGE, &call, which, SEED);
        accepted += usize::from(reference.0 == 0);
    }
    println!("merge: the three agree on {CHECKED} calls, {accepted} accepted");
}

/// Quotes of each book, its pages, and those of the result. From 500 on the result
/// stands under a top, with 700 the books too.
const ROWS: [(usize, usize, usize); 6] = [
    (0, 8, 8),
    (60, 8, 8),
    (250, 64, 64),
    (390, 64, 64),
    (500, 64, 64),
    (700, 64, 64),
];

/// Which book the quote with this place among all has, of so many in each.
type Deal = fn(usize, usize) -> usize;

/// They take turns, or all keys of the first are below those of the second.
const DEALS: [(&str, Deal); 2] = [
    ("in turn", |i, _| i % 2),
    ("apart", |i, quotes| usize::from(i >= quotes)),
];

pub fn measure() {
    measure::heading("merge of 2 x  pages  into  keys");
    for row in ROWS {
        let (quotes, pages, into) = row;
        for (keys, deal) in DEALS {
            let name = format!("{quotes:>12}{pages:>7}{into:>6}  {keys}");
            measure::row(&name, medians(&dealt(row, deal)));
        }
    }
}

/// Two books of quotes of 8 bytes, about 20 in a leaf.
fn dealt((quotes, pages, into): (usize, usize, usize), deal: Deal) -> Call {
    let mut random = Random::new(SEED);
    let leaves = quotes.div_ceil(20).max(1);
    let mut books = [vec![Vec::new(); leaves], vec![Vec::new(); leaves]];
    let mut counts = [0, 0];
    for i in 0..2 * quotes {
        let to = deal(i, quotes);
        let leaf = counts[to] * leaves / quotes;
        books[to][leaf].push((1000 * (i as u64 + 1), random.bytes(8)));
        counts[to] += 1;
    }
    let counts: &[usize] = if leaves > 28 { &[28, leaves - 28] } else { &[] };
    let [first, second] =
        books.map(|lists| from_leaves(&mut random, pages, true, counts, lists).image);
    Call {
        first,
        second,
        out: vec![0xcc; into * 1024],
    }
}

fn medians(call: &Call) -> [f64; 3] {
    let [mut lean, mut proved, mut reference] = [call.clone(), call.clone(), call.clone()];
    measure::medians(&mut [
        &mut || timed(MERGE[0], &mut lean),
        &mut || timed(MERGE[1], &mut proved),
        &mut || timed(MERGE[2], &mut reference),
    ])
}
