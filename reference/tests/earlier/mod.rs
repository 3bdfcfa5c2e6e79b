//! Stores in which transactions left empty values, by the rule before document 02
//! (g): document 01 has "values 0 to 200 bytes" in a list too. "Stored ones work
//! as before."

// Each test uses some of these.
#![allow(dead_code)]

use cases::empties;
use cases::images::even;
use cases::lists::List;
use cases::random::Random;
use cases::stores::fresh;
use reference::device::Device;
use reference::edits::{parse, Edit, Kind};
use reference::image::table;
use reference::ledger::Ledger;
use reference::transaction::{make_edits, Fault};
use reference::Refusal;

/// The image after these edits, any of which may have an empty value.
pub fn made(device: Device, image: &[u8], edits: &[Edit]) -> Result<Vec<u8>, Refusal> {
    let (mut work, mut tape) = (image.to_vec(), vec![0; image.len() / 1024 * 1600]);
    make_edits(device, Fault::None, image, &mut work, &mut tape, edits)?;
    Ok(work)
}

/// A fresh store of 8 pages after inserts of 5 with three bytes and of 7 with none.
pub fn two_quotes() -> Vec<u8> {
    let insert = |(key, value): (u64, &[u8])| Edit {
        kind: Kind::Insert,
        key,
        value: value.to_vec(),
    };
    let edits = [(5, &b"abc"[..]), (7, b"")].map(insert);
    made(Device::Lines, &fresh(8), &edits).expect("there is room")
}

/// A store with an empty value.
pub fn any_store(random: &mut Random) -> Vec<u8> {
    let mut stores = (0..1000).filter_map(|_| after_transactions(random));
    stores.next().expect("transactions leave empty values")
}

/// A store after some transactions, if they left an empty value. Before them it
/// had none.
fn after_transactions(random: &mut Random) -> Option<Vec<u8>> {
    let mut image = any_start(random);
    let mut ledger = Ledger::new(&image);
    for _ in 0..random.between(1, 12) {
        let edits = any_edits(random, &image);
        let device = random.pick(&[Device::Lines, Device::Words]);
        if let Ok(work) = made(device, &image, &edits) {
            ledger.make(edits);
            image = work;
        }
    }
    let table = table(&image).expect("transactions keep the store sound");
    assert!(ledger.holds(Some(&table), ledger.count()), "the table");
    empties::any_stored(&table).then_some(image)
}

/// A fresh store, or one of values of 8 bytes.
fn any_start(random: &mut Random) -> Vec<u8> {
    let pages = random.between(8, 12);
    if random.one_in(2) {
        return fresh(pages);
    }
    let leaves = random.between(1, pages - 4);
    let quotes = leaves * random.between(1, 28);
    even(random, pages, leaves, quotes).image
}

/// Edits of which about half of the inserts and updates have an empty value.
fn any_edits(random: &mut Random, image: &[u8]) -> Vec<Edit> {
    let table = table(image).expect("the image is sound");
    let keys: Vec<u64> = table.iter().map(|entry| entry.0).collect();
    let mut edits = parse(&List::any(random, &keys).bytes()).expect("the list has no fault");
    for edit in &mut edits {
        if edit.kind != Kind::Delete && random.one_in(2) {
            edit.value.clear();
        }
    }
    edits
}
