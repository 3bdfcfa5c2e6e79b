//! Document 02 (g), "No more empty quotes", on lists worked out by hand: 19 beside
//! the list's other refusals, in the transactions of either device and in the
//! preview. Each call is made by the reference and by the proved library.

mod both;
mod earlier;
mod writes;

use both::Both;
use cases::random::Random;
use reference::device::Device;
use reference::edits::Kind;
use reference::image::{table, Table};
use reference::page::LAST_KEY;
use reference::Refusal;
use writes::by_hand::{edit, send};
use writes::{compare_transaction, Call};

const DEVICES: [Device; 2] = [Device::Lines, Device::Words];

fn insert(key: u64, length: usize) -> Vec<u8> {
    edit(Kind::Insert, key, length)
}

fn update(key: u64, length: usize) -> Vec<u8> {
    edit(Kind::Update, key, length)
}

fn delete(key: u64) -> Vec<u8> {
    edit(Kind::Delete, key, 0)
}

/// An edit of length 0 whose kind is none.
fn unknown(kind: u8, key: u64) -> Vec<u8> {
    let mut bytes = insert(key, 0);
    bytes[0] = kind;
    bytes
}

/// The first bytes of an insert of length 0.
fn cut_short(bytes: usize) -> Vec<u8> {
    insert(6, 0)[..bytes].to_vec()
}

/// Updates of 5 with a byte, and then this edit.
fn after_updates(count: usize, last: Vec<u8>) -> Vec<Vec<u8>> {
    let mut list = vec![update(5, 1); count];
    list.push(last);
    list
}

/// A list for the store of 5, with three bytes, and 7, with none; and the number
/// and edit number of its refusal.
type Row = (Vec<Vec<u8>>, (u8, usize));

fn rows() -> Vec<Row> {
    vec![
        // "19, with its edit's number, for an insert or update of length 0."
        (vec![insert(6, 0)], (19, 0)),
        (vec![update(5, 0)], (19, 0)),
        (vec![update(7, 0)], (19, 0)),
        (vec![delete(7), insert(7, 0)], (19, 1)),
        (after_updates(16, update(5, 0)), (5, 16)),
        // 5 comes before it: unknown kind, head cut short, delete with a length.
        (vec![unknown(0, 6)], (5, 0)),
        (vec![unknown(4, 6)], (5, 0)),
        (vec![cut_short(1)], (5, 0)),
        (vec![cut_short(2)], (5, 0)),
        (vec![cut_short(9)], (5, 0)),
        (vec![edit(Kind::Delete, 7, 1)], (5, 0)),
        // 6 comes after it, and 8 and 9 after the whole list.
        (vec![insert(0, 0)], (19, 0)),
        (vec![update(LAST_KEY + 1, 0)], (19, 0)),
        (vec![delete(0)], (6, 0)),
        (vec![insert(7, 0)], (19, 0)),
        (vec![update(6, 0)], (19, 0)),
        (vec![update(6, 1), update(5, 0)], (19, 1)),
        // "First faulty edit."
        (vec![insert(6, 0), insert(8, 201)], (19, 0)),
        (vec![insert(6, 201), insert(8, 0)], (7, 0)),
        (vec![insert(6, 0), insert(0, 1)], (19, 0)),
        (vec![insert(0, 1), insert(6, 0)], (6, 0)),
        (vec![insert(6, 0), unknown(4, 6)], (19, 0)),
        (vec![unknown(4, 6), insert(6, 0)], (5, 0)),
        (vec![insert(6, 0), cut_short(9)], (19, 0)),
    ]
}

#[test]
fn lists_refused() {
    let image = earlier::two_quotes();
    let every_edit = (0..16).map(|edit| (after_updates(edit, update(5, 0)), (19, edit)));
    let rows = rows().into_iter().chain(every_edit);
    for (i, (edits, (number, edit))) in rows.enumerate() {
        let edits = edits.concat();
        for device in DEVICES {
            let call = Call::new(&mut Random::new(1), &image, edits.clone());
            let (given, after) = compare_transaction(device, i, &call);
            assert_eq!(given, number, "row {i}");
            assert_eq!(after.answer, [edit as u64, 0, 0, 0, 0], "row {i}");
            // The list check leaves work alone.
            assert!(after.work == call.work && after.tape == call.tape);
        }
        let seen = Both::new(&image).preview(&edits, 5, 4);
        assert_eq!(seen, Err(Refusal { number, edit }), "row {i}");
    }
}

/// "Stored ones work as before, and can be updated to a longer value or deleted":
/// lists, and the table after each.
fn accepted_rows() -> Vec<(Vec<Vec<u8>>, Table)> {
    let (five, seven) = ((5, b"abc".to_vec()), (7, Vec::new()));
    vec![
        (vec![update(7, 1)], vec![five.clone(), (7, vec![7])]),
        (vec![update(7, 200)], vec![five.clone(), (7, vec![7; 200])]),
        (vec![delete(7)], vec![five.clone()]),
        (
            vec![delete(7), insert(7, 1)],
            vec![five.clone(), (7, vec![7])],
        ),
        // Left alone, it stays.
        (vec![update(5, 1)], vec![(5, vec![7]), seven.clone()]),
        (vec![delete(5)], vec![seven.clone()]),
        (vec![insert(6, 1)], vec![five, (6, vec![7]), seven]),
    ]
}

#[test]
fn stored_ones() {
    let image = earlier::two_quotes();
    for (edits, wanted) in accepted_rows() {
        for device in DEVICES {
            let (_, _, work) = send(device, &image, edits.concat());
            assert_eq!(table(&work).as_ref(), Some(&wanted));
        }
    }
}
