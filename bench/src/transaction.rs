//! Transaction and recovery: the check that the three agree, and their rows.

use bench::books::{book, book_of, delete, insert, key, neighbours, one, spread, update, updates};
use bench::measure::timed;
use bench::{lean, measure};
use cases::images::Built;
use cases::lists::any_list;
use cases::logs;
use cases::random::Random;
use cases::stores::{any_built, any_store};
use reference::device::{cut, decode};
use reference::image::table;
use reference::numbers::{of_recovery, of_transaction};
use reference::recovery::recover_words;
use reference::transaction::transaction_words;

const SEED: u64 = 20_240_607;
const CHECKED: usize = 30_000;

/// The buffers of one call; recovery uses no edits and the first two numbers.
#[derive(Clone, PartialEq)]
struct Call {
    image: Vec<u8>,
    work: Vec<u8>,
    tape: Vec<u8>,
    edits: Vec<u8>,
    answer: [u64; 5],
}

impl Call {
    fn new(image: &[u8], edits: Vec<u8>) -> Call {
        Call {
            image: image.to_vec(),
            work: vec![0xcc; image.len()],
            tape: vec![0xdd; 65_536],
            edits,
            answer: [7; 5],
        }
    }
}

/// A way to make one of the calls; the answer is 0 or the refusal's number.
type Way = fn(&mut Call) -> u8;

const TRANSACTION: [Way; 3] = [
    |call| {
        let (work, tape) = (&mut call.work, &mut call.tape);
        lean::transaction::transaction(&call.image, work, tape, &call.edits, &mut call.answer)
    },
    |call| {
        proved::transaction(
            &mut call.image,
            &mut call.work,
            &mut call.tape,
            &mut call.edits,
            &mut call.answer,
        )
    },
    |call| {
        let (work, tape) = (&mut call.work, &mut call.tape);
        let answer = reference::transaction::transaction(&call.image, work, tape, &call.edits);
        let (number, five) = of_transaction(&answer);
        call.answer = five;
        number
    },
];

/// The proved calls for memory without line stores (document 02 (d)), and the
/// reference's.
const TRANSACTION_WORDS: [Way; 2] = [
    |call| {
        let (work, tape) = (&mut call.work, &mut call.tape);
        let (image, edits) = (&mut call.image, &mut call.edits);
        proved::transaction_words(image, work, tape, edits, &mut call.answer)
    },
    |call| {
        let (work, tape) = (&mut call.work, &mut call.tape);
        let answer = transaction_words(&call.image, work, tape, &call.edits);
        let (number, five) = of_transaction(&answer);
        call.answer = five;
        number
    },
];

const RECOVERY_WORDS: [Way; 2] = [
    |call| {
        let (work, tape) = (&mut call.work, &mut call.tape);
        proved::recover_words(&mut call.image, work, tape, two(&mut call.answer))
    },
    |call| {
        let (work, tape) = (&mut call.work, &mut call.tape);
        let (number, numbers) = of_recovery(&recover_words(&call.image, work, tape));
        if let Some(numbers) = numbers {
            *two(&mut call.answer) = numbers;
        }
        number
    },
];

const RECOVERY: [Way; 3] = [
    |call| {
        let (work, tape) = (&mut call.work, &mut call.tape);
        lean::recovery::recover(&call.image, work, tape, two(&mut call.answer))
    },
    |call| {
        let (work, tape) = (&mut call.work, &mut call.tape);
        proved::recover(&mut call.image, work, tape, two(&mut call.answer))
    },
    |call| {
        let (work, tape) = (&mut call.work, &mut call.tape);
        let answer = reference::recovery::recover(&call.image, work, tape);
        let (number, numbers) = of_recovery(&answer);
        if let Some(numbers) = numbers {
            *two(&mut call.answer) = numbers;
        }
        number
    },
];

fn two(answer: &mut [u64; 5]) -> &mut [u64; 2] {
    answer.first_chunk_mut().unwrap()
}

/// How many calls were compared, and how many of them were accepted.
#[derive(Default)]
struct Compared {
    calls: usize,
    accepted: usize,
}

impl Compared {
    /// Stops the program if the three differ in an answer or a buffer; gives
    /// the answer and the buffers.
    fn agree(&mut self, ways: [Way; 3], call: &Call) -> (u8, Call) {
        let reference = measure::agreed(ways, call, self.calls, SEED);
        self.calls += 1;
        self.accepted += usize::from(reference.0 == 0);
        reference
    }
}

pub fn check() {
    let mut random = Random::new(SEED);
    let mut compared = Compared::default();
    while compared.calls < CHECKED {
        let mut image = any_store(&mut random);
        for _ in 0..20 {
            image = check_transaction(&mut random, image, &mut compared);
        }
        let built = any_built(&mut random);
        let headers = random.between(1, 15);
        let mut image = logs::waiting(&mut random, &built, headers);
        compared.agree(RECOVERY, &Call::new(&image, Vec::new()));
        let field = random.below(logs::FIELDS.len());
        logs::damage(&mut random, &mut image, field);
        compared.agree(RECOVERY, &Call::new(&image, Vec::new()));
    }
    println!(
        "transaction and recovery: the three agree on {} calls, {} accepted",
        compared.calls, compared.accepted
    );
}

/// A transaction, the same with too short a tape, and the recovery of a cut;
/// gives the image to go on with.
fn check_transaction(random: &mut Random, image: Vec<u8>, compared: &mut Compared) -> Vec<u8> {
    let keys: Vec<u64> = table(&image).unwrap().iter().map(|entry| entry.0).collect();
    let mut call = Call::new(&image, any_list(random, &keys));
    let (number, after) = compared.agree(TRANSACTION, &call);
    if number != 0 {
        return image;
    }
    let bytes = after.answer[3] as usize;
    call.tape.truncate(bytes - 1);
    compared.agree(TRANSACTION, &call);
    let tape = &after.tape[..bytes];
    let commands = decode(tape, image.len()).unwrap().len();
    let c = random.between(0, commands);
    let choices: Vec<u8> = (0..image.len() / 64)
        .map(|_| random.below(4) as u8)
        .collect();
    let mut crashed = vec![0; image.len()];
    cut(&image, &mut crashed, tape, c, &choices).unwrap();
    let mut call = Call::new(&crashed, Vec::new());
    let (_, recovered) = compared.agree(RECOVERY, &call);
    call.tape
        .truncate((recovered.answer[0] as usize).saturating_sub(1));
    compared.agree(RECOVERY, &call);
    after.work
}

pub fn measure() {
    measure::heading("transaction                  pages");
    for (name, pages, call) in transactions() {
        row(name, pages, TRANSACTION, call);
    }
    measure::heading("recovery                     pages");
    for (name, pages, call) in recoveries() {
        row(&name, pages, RECOVERY, call);
    }
    measure_words();
}

/// The proved calls without line stores beside those with them.
fn measure_words() {
    let ways = ["line stores", "words alone"];
    measure::pair_heading("transaction, proved          pages", ways);
    for (name, pages, call) in transactions() {
        words_row(name, pages, TRANSACTION[1], TRANSACTION_WORDS, call);
    }
    measure::pair_heading("recovery, proved             pages", ways);
    for (name, pages, call) in recoveries() {
        words_row(&name, pages, RECOVERY[1], RECOVERY_WORDS, call);
    }
}

/// Before it is timed, the call without line stores must be the reference's.
fn words_row(name: &str, pages: usize, lines: Way, words: [Way; 2], call: Call) {
    let [given, wanted] = words.map(|way| {
        let mut after = call.clone();
        (way(&mut after), after)
    });
    assert!(given == wanted, "proved and reference differ on {name}");
    let mut calls = placed([call.clone(), call]);
    let [one, other] = &mut calls;
    let times = measure::medians(&mut [&mut || timed(lines, one), &mut || timed(words[0], other)]);
    measure::pair_row(&format!("{name:<29}{pages:>5}"), times);
}

fn recoveries() -> Vec<(String, usize, Call)> {
    let mut all = Vec::new();
    for pages in [8, 64] {
        // 8 pages have seven headers.
        for headers in [0, 2, 7, 15].into_iter().filter(|&headers| headers < pages) {
            let call = Call::new(&logged(pages, headers), Vec::new());
            all.push((format!("{headers} logged headers"), pages, call));
        }
    }
    all
}

fn transactions() -> Vec<(&'static str, usize, Call)> {
    let on = |pages| transactions_on(pages).map(|(name, call)| (name, pages, call));
    let under_a_top = transactions_under_a_top().map(|(name, call)| (name, 64, call));
    [&on(8)[..], &on(64), &under_a_top].concat()
}

/// 52 leaves in two index pages under a top, but for the last: 28 in a root index, which
/// then splits under a new top.
fn transactions_under_a_top() -> [(&'static str, Call); 7] {
    let built = book_of(64, &[26, 26], 52 * 14);
    let full = book_of(64, &[26, 26], 52 * 28);
    let full_index = book_of(64, &[28, 24], 52 * 28);
    let full_root = book(64, 28, 28 * 28);
    let call = |name, built: &Built, edits: Vec<u8>| (name, Call::new(&built.image, edits));
    let split = |built: &Built| insert(key(built, 1, 0) + 1);
    [
        call("1 edit, top", &built, updates(&one(&built, 0))),
        call(
            "16 neighbours, top",
            &built,
            updates(&neighbours(&built, 0)),
        ),
        call("16 spread, top", &built, updates(&spread(&built, 0))),
        call("insert and delete, top", &built, in_turn(&built)),
        call("split of a leaf, top", &full, split(&full)),
        call(
            "split of an index page, top",
            &full_index,
            split(&full_index),
        ),
        call("split under a new top", &full_root, split(&full_root)),
    ]
}

/// The transactions that are timed, all accepted.
fn transactions_on(pages: usize) -> [(&'static str, Call); 7] {
    let leaves = if pages == 8 { 4 } else { 26 };
    let built = book(pages, leaves, leaves * 14);
    let full = book(pages, leaves, leaves * 28);
    // On 64 pages the index is then copied too.
    let halves = if pages == 8 { 2 } else { 14 };
    let to_split = book(pages, halves, halves * 28);
    let call = |name, built: &Built, edits: Vec<u8>| (name, Call::new(&built.image, edits));
    let mut without_room = built.clone();
    let page = built.leaves[1].page;
    without_room.image[page * 1024 + 2..][..2].copy_from_slice(&[64, 0]);
    [
        call("1 edit", &built, updates(&one(&built, 0))),
        call(
            "16 edits, neighbours",
            &built,
            updates(&neighbours(&built, 0)),
        ),
        call("16 edits, spread", &built, updates(&spread(&built, 0))),
        call("insert and delete in turn", &built, in_turn(&built)),
        call("copy of a leaf", &without_room, update(key(&built, 1, 5))),
        call("split of a leaf", &full, insert(key(&full, 1, 0) + 1)),
        call("split of every leaf", &to_split, in_every_leaf(&to_split)),
    ]
}

fn logged(pages: usize, headers: usize) -> Vec<u8> {
    let leaves = if pages == 8 { 4 } else { 26 };
    let built = book(pages, leaves, leaves * 14);
    match headers {
        0 => built.image,
        _ => logs::waiting(&mut Random::new(SEED), &built, headers),
    }
}

fn in_turn(built: &Built) -> Vec<u8> {
    let both = |i| [insert(key(built, 1, i) + 1), delete(key(built, 1, i))];
    (0..8).flat_map(both).flatten().collect()
}

fn in_every_leaf(built: &Built) -> Vec<u8> {
    let leaves = 0..built.leaves.len();
    let one = |leaf| insert(key(built, leaf, 0) + 1);
    leaves.flat_map(one).collect()
}

fn row(name: &str, pages: usize, ways: [Way; 3], call: Call) {
    let mut calls = placed([call.clone(), call.clone(), call]);
    let [lean, proved, reference] = &mut calls;
    let times = measure::medians(&mut [
        &mut || timed(ways[0], lean),
        &mut || timed(ways[1], proved),
        &mut || timed(ways[2], reference),
    ]);
    measure::row(&format!("{name:<29}{pages:>5}"), times);
}

fn placed<const N: usize>(mut calls: [Call; N]) -> [Call; N] {
    for call in &mut calls {
        measure::place_apart(&call.image, &mut call.work);
    }
    calls
}
