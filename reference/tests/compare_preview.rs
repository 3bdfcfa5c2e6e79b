//! Document 02 (a), the preview, on random calls: the answer and every buffer
//! of the proved library are those of the reference, on images, lists and keys
//! good and wrong. And the preview is held to what a transaction of the same
//! list leaves, and to the ledger. Previews of images in which some pages are
//! bad are in compare_narrow.rs too.

mod both;
mod earlier;

use both::{Both, BEFORE};
use cases::damage::FIELDS;
use cases::empties::{orders, ORDERS};
use cases::images::{any_shape, build};
use cases::lists::FAULTS;
use cases::previews::{any_call, any_key, any_list, PreviewCall, OTHERS};
use cases::random::Random;
use cases::stores::{any_built, any_store, even_leaves, many_leaves};
use reference::edits::{parse, Edit, Kind};
use reference::image::{lookup, table, value, Reader};
use reference::ledger::Ledger;
use reference::numbers::of_transaction;
use reference::page::LAST_KEY;
use reference::preview::{preview, Preview};
use reference::transaction::transaction;
use reference::Refusal;
use std::collections::BTreeMap;
use std::fmt::Write;

const SEED: u64 = 20_240_617;
const CALLS: usize = 160_000;
/// Transactions whose lists are previewed first, each for several keys.
const TRANSACTIONS: usize = 6_000;

/// How often each thing came.
#[derive(Default)]
struct Tally {
    times: BTreeMap<String, usize>,
    calls: usize,
}

impl Tally {
    fn count(&mut self, what: impl Into<String>) {
        *self.times.entry(what.into()).or_default() += 1;
    }

    /// In one piece: the tests run at the same time.
    fn print(&self, heading: &str) {
        let mut text = format!("{heading}: {} calls\n", self.calls);
        for (what, times) in &self.times {
            writeln!(text, "  {what:<58}{times:>7}").unwrap();
        }
        print!("{text}");
    }

    fn all_came(&self, wanted: &[String]) {
        for what in wanted {
            let times = self.times.get(what).copied().unwrap_or(0);
            assert!(times > 20, "came too seldom, {times} times: {what}");
        }
    }
}

/// An image, an edit list and the key asked.
#[derive(Clone, Copy)]
struct Asked<'a> {
    image: &'a [u8],
    edits: &'a [u8],
    key: u64,
}

/// One preview by both, with so many numbers lent for the answer.
fn compare(asked: Asked, room: usize, tally: &mut Tally) -> Result<Preview, Refusal> {
    let answer = Both::new(asked.image).preview(asked.edits, asked.key, room);
    if let Err(refusal) = answer {
        // No preview is refused with 2 or for pages, log or tape.
        assert!([1, 3, 4, 5, 6, 7, 8, 9, 19].contains(&refusal.number));
    }
    tally.calls += 1;
    count_answer(asked, &answer, tally);
    answer
}

fn count_answer(asked: Asked, answer: &Result<Preview, Refusal>, tally: &mut Tally) {
    match answer {
        Err(refusal) => match parse(asked.edits) {
            Err(_) => count_faulty_list(asked, refusal, tally),
            Ok(edits) => count_good_list(asked, refusal, &edits, tally),
        },
        Ok(found) => {
            let edits = parse(asked.edits).expect("the list was accepted");
            count_found(asked, found, &edits, tally);
        }
    }
}

/// A refusal where the list has a fault of its own.
fn count_faulty_list(asked: Asked, refusal: &Refusal, tally: &mut Tally) {
    match refusal.number {
        1 | 3 | 4 => {
            tally.count(format!("refused {}", refusal.number));
            tally.count("order: page 0's and the root's before the list's");
        }
        number => {
            tally.count(match number {
                6 => "refused 6, of an edit".to_string(),
                _ => format!("refused {number}"),
            });
            tally.count(format!("refused at edit {:>2}", refusal.edit));
            count_empty(asked.edits, refusal, tally);
            if !(1..=LAST_KEY).contains(&asked.key) {
                tally.count("order: the list's before the key's");
            }
            if refused_with(lookup(asked.image, asked.key), 4) {
                tally.count("order: the list's before a leaf's 4");
            }
        }
    }
}

/// Document 02 (g): "The table rule and the look of (a) take the new refusal in."
fn count_empty(list: &[u8], refusal: &Refusal, tally: &mut Tally) {
    if refusal.number == 19 {
        tally.count(match refusal.edit {
            0 => "refused 19, at edit 0",
            _ => "refused 19, at a later edit",
        });
    }
    for order in orders(list, refusal.number, refusal.edit) {
        tally.count(order);
    }
}

fn refused_with<T>(answer: Result<T, Refusal>, number: u8) -> bool {
    answer.is_err_and(|refusal| refusal.number == number)
}

/// A refusal where the list has none.
fn count_good_list(asked: Asked, refusal: &Refusal, edits: &[Edit], tally: &mut Tally) {
    let number = refusal.number;
    if number == 6 {
        tally.count("refused 6, of the key asked");
        match at_edits(asked, edits) {
            Err(Refusal { number: 4, .. }) => tally.count("order: the key's before a leaf's 4"),
            Err(_) => tally.count("order: the key's before 8 or 9"),
            Ok(_) => {}
        }
        return;
    }
    tally.count(format!("refused {number}"));
    match number {
        4 => count_unsound(asked, refusal, edits, tally),
        8 | 9 => count_key_rule(asked, refusal, edits, tally),
        _ => {}
    }
}

/// The preview of a key of the list, for which no leaf is read but those that
/// the edits need.
fn at_edits(asked: Asked, edits: &[Edit]) -> Result<Preview, Refusal> {
    preview(asked.image, asked.edits, edits[0].key)
}

/// Document 02 (b): "a leaf's 4 comes just before the 8 or 9 of the first edit
/// that needs that leaf, or last of all for the key asked".
fn count_unsound(asked: Asked, refusal: &Refusal, edits: &[Edit], tally: &mut Tally) {
    assert_eq!(refusal.edit, 0, "a leaf's 4 names no edit");
    tally.count(match (Reader::new(asked.image), at_edits(asked, edits)) {
        (Err(_), _) => "refused 4, of page 0 or the root",
        (_, Err(_)) => "refused 4, of a leaf that an edit needs",
        (_, Ok(_)) => "refused 4, of the key's leaf, last of all",
    });
}

/// 8 or 9.
fn count_key_rule(asked: Asked, refusal: &Refusal, edits: &[Edit], tally: &mut Tally) {
    let number = refusal.number;
    tally.count(format!("refused at edit {:>2}", refusal.edit));
    let of_asked = |edit: &Edit| edit.key == asked.key;
    let place = match edits.iter().rposition(of_asked) {
        None => "with no edit of the key asked",
        Some(_) if of_asked(&edits[refusal.edit]) => "at an edit of the key asked",
        Some(last) if last < refusal.edit => "after the last edit of the key asked",
        Some(_) => "at another before the last edit of the key asked",
    };
    tally.count(format!("refused {number}, {place}"));
    let (earlier, later) = edits.split_at(refusal.edit);
    if earlier.iter().any(|edit| edit.key == later[0].key) {
        tally.count(format!("refused {number}, after an edit of the same key"));
    }
}

fn count_found(asked: Asked, found: &Preview, edits: &[Edit], tally: &mut Tally) {
    let of_key: Vec<&Edit> = edits.iter().filter(|edit| edit.key == asked.key).collect();
    // An edit of the key, or else the key itself, has had that leaf read.
    let stored = lookup(asked.image, asked.key).expect("the key's leaf was accepted");
    match *found {
        Preview::InList { offset, length } => {
            assert_ne!(length, 0, "a list has no empty value");
            count_part("in the list", length, tally);
            count_in_list(&of_key, tally);
            let bytes = &asked.edits[offset..offset + length];
            if stored.is_some() && value(asked.image, asked.key) == bytes {
                tally.count("in the list, the same bytes as stored");
            }
        }
        Preview::InImage { offset, length } => {
            count_part("in the image", length, tally);
            if offset == asked.image.len() {
                tally.count("in the image, empty at the very end");
            }
        }
        Preview::Missing => tally.count(match (of_key.len(), stored) {
            (0, _) => "missing in both",
            (1, _) => "missing, deleted",
            (_, None) => "missing, inserted and deleted",
            (_, Some(_)) => "missing, deleted after other edits",
        }),
    }
}

/// A value found.
fn count_part(place: &str, length: usize, tally: &mut Tally) {
    tally.count(place);
    if [0, 1, 200].contains(&length) {
        tally.count(format!("{place}, length {length}"));
    }
}

/// What the edits of a key are like whose value is in the list.
fn count_in_list(of_key: &[&Edit], tally: &mut Tally) {
    let (last, before) = of_key.split_last().expect("the value is an edit's");
    tally.count(match last.kind {
        Kind::Insert => "in the list, by an insert",
        _ => "in the list, by an update",
    });
    if !before.is_empty() {
        tally.count("in the list, key in several edits");
    }
    if last.kind == Kind::Insert && !before.is_empty() {
        tally.count("in the list, deleted and inserted again");
    }
    if before.iter().any(|edit| edit.value == last.value) {
        tally.count("in the list, an earlier edit with the same bytes");
    }
}

/// A call by both, on the image, list and key of a builder.
fn one_call(random: &mut Random, call: &PreviewCall, tally: &mut Tally) {
    let asked = Asked {
        image: &call.image,
        edits: &call.edits,
        key: call.key,
    };
    let room = random.pick(&[4, 4, 4, 5, 8, 0, 1, 3]);
    let answer = compare(asked, room, tally);
    tally.count(match room {
        0..4 => "room for fewer than four numbers",
        4 => "room for four numbers",
        _ => "room for more than four numbers",
    });
    if LIMITS.contains(&call.key) {
        tally.count(format!("asked: {}", call.key));
    }
    if let ([wrong], Err(_)) = (&call.wrong[..], answer) {
        tally.count(format!("refused for: {wrong}"));
    }
}

const LIMITS: [u64; 5] = [0, 1, LAST_KEY, LAST_KEY + 1, u64::MAX];

#[test]
fn preview_is_the_references() {
    let mut random = Random::new(SEED);
    let mut tally = Tally::default();
    while tally.calls < CALLS {
        let built = match random.below(2) {
            0 => any_built(&mut random),
            _ => {
                let shape = any_shape(&mut random);
                build(&mut random, shape)
            }
        };
        for _ in 0..20 {
            let call = any_call(&mut random, &built);
            one_call(&mut random, &call, &mut tally);
        }
    }
    tally.print(&format!("random calls, seed {SEED}"));
    tally.all_came(&wanted_refusals());
    tally.all_came(&wanted_finds());
    tally.all_came(&wanted_calls());
}

fn wanted_refusals() -> Vec<String> {
    let numbers = [1, 3, 4, 5, 7, 8, 9, 19].map(|number| format!("refused {number}"));
    let edits = (0..=16).map(|edit| format!("refused at edit {edit:>2}"));
    let places = [
        "with no edit of the key asked",
        "at an edit of the key asked",
        "after the last edit of the key asked",
        "at another before the last edit of the key asked",
        "after an edit of the same key",
    ];
    let places = places.map(|place| [8, 9].map(|number| format!("refused {number}, {place}")));
    let others = [
        "refused 6, of an edit",
        "refused 6, of the key asked",
        "refused 19, at edit 0",
        "refused 19, at a later edit",
        "refused 4, of page 0 or the root",
        "refused 4, of a leaf that an edit needs",
        "refused 4, of the key's leaf, last of all",
        "order: page 0's and the root's before the list's",
        "order: the list's before the key's",
        "order: the list's before a leaf's 4",
        "order: the key's before 8 or 9",
        "order: the key's before a leaf's 4",
    ];
    (numbers.into_iter().chain(edits))
        .chain(places.concat())
        .chain(ORDERS.map(String::from))
        .chain(others.map(String::from))
        .collect()
}

fn wanted_finds() -> Vec<String> {
    let finds = [
        "in the list",
        "in the list, by an insert",
        "in the list, by an update",
        "in the list, length 1",
        "in the list, length 200",
        "in the list, key in several edits",
        "in the list, deleted and inserted again",
        "in the list, an earlier edit with the same bytes",
        "in the list, the same bytes as stored",
        "in the image",
        "in the image, length 0",
        "in the image, length 1",
        "in the image, length 200",
        "in the image, empty at the very end",
        "missing in both",
        "missing, deleted",
        "missing, inserted and deleted",
        "missing, deleted after other edits",
    ];
    finds.map(String::from).to_vec()
}

fn wanted_calls() -> Vec<String> {
    let rooms = ["fewer than four", "four", "more than four"];
    let rooms = rooms.map(|room| format!("room for {room} numbers"));
    let limits = LIMITS.map(|key| format!("asked: {key}"));
    let faults = FAULTS.map(|fault| fault.0);
    let wrong = FIELDS.iter().chain(&faults).chain(&OTHERS);
    (rooms.into_iter().chain(limits))
        .chain(wrong.map(|wrong| format!("refused for: {wrong}")))
        .collect()
}

/// The transaction of this list by both: the image after it, or its refusal.
fn send(image: &[u8], edits: &[u8], tape_length: usize) -> Result<Vec<u8>, Refusal> {
    let (mut work, mut tape) = (vec![0; image.len()], vec![0; tape_length]);
    let answer = transaction(image, &mut work, &mut tape, edits);
    let mut five = [BEFORE; 5];
    let mut lent_work = vec![0; image.len()];
    let number = proved::transaction(
        &mut image.to_vec(),
        &mut lent_work,
        &mut tape,
        &mut edits.to_vec(),
        &mut five,
    );
    assert_eq!((number, five), of_transaction(&answer), "transaction");
    assert!(lent_work == work, "work of a transaction");
    answer.map(|_| work)
}

/// The value of a key in an image, by both.
fn value_in(image: &[u8], key: u64) -> Option<Vec<u8>> {
    let found = Both::new(image).lookup(key).expect("the image is sound");
    found.map(|(offset, length)| image[offset..offset + length].to_vec())
}

/// The part that a preview hands back; none if missing.
fn part<'a>(asked: Asked<'a>, found: Preview) -> Option<&'a [u8]> {
    match found {
        Preview::InList { offset, length } => Some(&asked.edits[offset..offset + length]),
        Preview::InImage { offset, length } => Some(&asked.image[offset..offset + length]),
        Preview::Missing => None,
    }
}

/// Previews of a list that was sent, of each of these keys. Where the preview
/// answers, it is the value that the ledger has after the list.
fn hold(
    (image, edits): (&[u8], &[u8]),
    keys: &[u64],
    sent: &Result<Vec<u8>, Refusal>,
    tally: &mut Tally,
) {
    let mut ledger = Ledger::new(image);
    ledger.feed(edits, parse(edits).is_ok());
    for &key in keys {
        let asked = Asked { image, edits, key };
        let answer = compare(asked, 4, tally);
        if let Ok(found) = answer {
            let wanted = ledger.value(key, 1);
            assert_eq!(part(asked, found), wanted, "the ledger's value of {key}");
        }
        match sent {
            Ok(work) => {
                let found = answer.expect("the transaction is accepted");
                let wanted = value_in(work, key);
                assert_eq!(part(asked, found), wanted.as_deref(), "{key} in work");
                tally.count("answered, transaction accepted");
            }
            Err(refusal) => hold_to_refusal(refusal, answer, tally),
        }
    }
}

/// The preview of a list whose transaction is refused: with 5 to 9 or 19, alike;
/// for pages, log or tape, it answers, unless a later edit gets 8 or 9.
fn hold_to_refusal(refusal: &Refusal, answer: Result<Preview, Refusal>, tally: &mut Tally) {
    let number = refusal.number;
    let alike = matches!(number, 5..=9 | 19);
    match answer {
        Err(given) if alike => {
            assert_eq!(given, *refusal);
            tally.count(format!("refused alike, {number}"));
        }
        Err(given) => {
            let key_rule = matches!(given.number, 8 | 9);
            let later = number < 12 && key_rule && given.edit > refusal.edit;
            assert!(later, "transaction: {refusal:?}, preview: {given:?}");
            tally.count(format!("refused later, transaction refused {number}"));
        }
        Ok(_) => {
            assert!(!alike, "transaction: {refusal:?}, but a preview");
            tally.count(format!("answered, transaction refused {number}"));
        }
    }
}

/// A list for this store, mostly good, and keys to ask: those of the list, some
/// of the store, some others.
fn list_and_keys(random: &mut Random, image: &[u8]) -> (Vec<u8>, Vec<u64>) {
    let table = table(image).expect("the image is sound");
    let mut list = any_list(random, &table);
    let mut keys = list.keys();
    let fault = random.below(FAULTS.len());
    match random.below(12) {
        0 | 1 => list.spoil(random, fault),
        2 => list.repeat(random),
        _ => {}
    }
    for _ in 0..4 {
        keys.push(any_key(random, &table, &list));
    }
    keys.sort();
    keys.dedup();
    (list.bytes(), keys)
}

/// A store, its lists previewed and sent one after the other; gives how many.
fn life(random: &mut Random, tally: &mut Tally) -> usize {
    let mut image = match random.below(6) {
        0 => even_leaves(random).image,
        1 => many_leaves(random).image,
        _ => any_store(random),
    };
    for _ in 0..10 {
        let (edits, keys) = list_and_keys(random, &image);
        let tape_length = match random.below(8) {
            0 => random.below(400),
            _ => 65_536,
        };
        let sent = send(&image, &edits, tape_length);
        hold((&image, &edits), &keys, &sent, tally);
        image = sent.unwrap_or(image);
    }
    10
}

#[test]
fn preview_is_as_if_committed() {
    let mut random = Random::new(SEED + 1);
    let mut tally = Tally::default();
    let mut transactions = 0;
    while transactions < TRANSACTIONS {
        transactions += life(&mut random, &mut tally);
    }
    tally.print(&format!("as if committed, seed {}", SEED + 1));
    tally.all_came(&wanted_beside_transactions());
}

fn wanted_beside_transactions() -> Vec<String> {
    let alike = (5..=9).chain([19]);
    let alike = alike.map(|number| format!("refused alike, {number}"));
    let answered = (11..=13).map(|number| format!("answered, transaction refused {number}"));
    let others = [
        "refused later, transaction refused 11",
        "answered, transaction accepted",
        "in the list",
        "in the image",
        "missing in both",
        "missing, deleted",
    ];
    (alike.chain(answered))
        .chain(others.map(String::from))
        .collect()
}

fn insert(key: u64, bytes: &[u8]) -> Vec<u8> {
    edit(Kind::Insert, key, bytes)
}

fn update(key: u64, bytes: &[u8]) -> Vec<u8> {
    edit(Kind::Update, key, bytes)
}

fn delete(key: u64) -> Vec<u8> {
    edit(Kind::Delete, key, b"")
}

fn edit(kind: Kind, key: u64, bytes: &[u8]) -> Vec<u8> {
    let value = bytes.to_vec();
    Edit { kind, key, value }.encode()
}

/// A list, the key asked, and the answer worked out by hand.
type Row = (Vec<Vec<u8>>, u64, Result<Preview, Refusal>);

/// Lists for the two quotes, whose values are at 3,064 and 3,048.
fn rows() -> Vec<Row> {
    let in_list = |offset, length| Ok(Preview::InList { offset, length });
    let in_image = |offset, length| Ok(Preview::InImage { offset, length });
    let refused = |number, edit| Err(Refusal { number, edit });
    let missing = Ok(Preview::Missing);
    vec![
        // The image's value, unless the list has an edit of the key.
        (vec![update(7, b"x")], 5, in_image(3064, 3)),
        (vec![update(5, b"x")], 7, in_image(3048, 0)),
        (vec![update(5, b"x")], 6, missing),
        (vec![update(5, b"abc")], 5, in_list(10, 3)),
        (vec![insert(6, b"x")], 6, in_list(10, 1)),
        (vec![delete(5)], 5, missing),
        // The last edit of the key decides.
        (vec![delete(5), insert(5, b"xy")], 5, in_list(20, 2)),
        (vec![insert(6, b"xy"), delete(6)], 6, missing),
        (vec![update(5, b"x"), update(5, b"yz")], 5, in_list(21, 2)),
        (vec![update(5, b"xy"), delete(7)], 5, in_list(10, 2)),
        // 8 and 9, wherever they are in the list.
        (vec![update(5, b"x"), insert(7, b"x")], 5, refused(8, 1)),
        (vec![insert(6, b"x"), insert(6, b"x")], 5, refused(8, 1)),
        (vec![update(5, b"x"), delete(6)], 5, refused(9, 1)),
        (vec![delete(5), update(5, b"x")], 7, refused(9, 1)),
        (vec![update(6, b"x"), insert(5, b"x")], 1, refused(9, 0)),
        // 6 for the key asked comes before them, and after the list's.
        (vec![update(5, b"x"), insert(7, b"x")], 0, refused(6, 0)),
        (vec![update(5, b"x")], LAST_KEY + 1, refused(6, 0)),
        (vec![update(5, b"x"), insert(0, b"x")], 0, refused(6, 1)),
        (vec![delete(6), vec![1]], 0, refused(5, 1)),
        (vec![], 0, refused(5, 0)),
        (vec![delete(7), insert(1, &[0; 201])], 0, refused(7, 1)),
    ]
}

/// Document 02 (g): the empty value that is stored, and lists with another.
fn empty_rows() -> Vec<Row> {
    let refused = |number, edit| Err(Refusal { number, edit });
    let (offset, length) = (10, 1);
    vec![
        (
            vec![update(7, b"x")],
            7,
            Ok(Preview::InList { offset, length }),
        ),
        (vec![delete(7)], 7, Ok(Preview::Missing)),
        (vec![update(7, b"")], 7, refused(19, 0)),
        (vec![update(7, b"")], 5, refused(19, 0)),
        (vec![update(5, b"x"), insert(6, b"")], 7, refused(19, 1)),
        // Before 6 for the key asked, and before 8 and 9.
        (vec![delete(7), insert(7, b"")], 0, refused(19, 1)),
        (vec![delete(6), insert(7, b"")], 7, refused(19, 1)),
    ]
}

#[test]
fn previews_by_hand() {
    let image = earlier::two_quotes();
    let rows = [rows(), empty_rows()].concat();
    for (i, (edits, key, wanted)) in rows.into_iter().enumerate() {
        let edits = edits.concat();
        let asked = Asked {
            image: &image,
            edits: &edits,
            key,
        };
        let answer = compare(asked, 4, &mut Tally::default());
        assert_eq!(answer, wanted, "row {i}");
    }
}
