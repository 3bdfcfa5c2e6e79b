//! Document 02 (g), "No more empty quotes": "Stored ones work as before, and can be
//! updated to a longer value or deleted." Stores with empty values, which are
//! built, or which transactions left by the earlier rule: every call on them by the
//! reference and by the proved library, those that write on either device. Power
//! cuts on such stores are in crash.rs.

mod both;
mod earlier;
mod writes;

use both::Both;
use cases::empties;
use cases::lists::List;
use cases::random::Random;
use cases::stores::any_built;
use reference::device::Device;
use reference::edits::Kind;
use reference::image::{sound_leaves, table, Leaf, Table};
use reference::ledger::Ledger;
use reference::preview::Preview;
use reference::Refusal;
use std::collections::BTreeMap;
use std::fmt::Write;
use writes::by_hand::edit;
use writes::{compare_transaction, Call};

const SEED: u64 = 20_240_901;
/// Stores of each origin.
const STORES: usize = 250;
/// Empty values of a store that are edited, and transactions of other edits.
const EDITED: usize = 3;
const TRANSACTIONS: usize = 8;

const DEVICES: [Device; 2] = [Device::Lines, Device::Words];

/// A store that was built with an empty value.
fn built(random: &mut Random) -> Vec<u8> {
    let mut stores = (0..1000).map(|_| any_built(random));
    let built = stores.find(|built| empties::any_stored(&built.table));
    built.expect("the builder makes empty values").image
}

/// The test so far, and how often each thing came.
struct Test {
    random: Random,
    calls: usize,
    times: BTreeMap<String, usize>,
}

impl Test {
    fn count(&mut self, what: impl Into<String>) {
        *self.times.entry(what.into()).or_default() += 1;
    }

    /// In one piece: the tests run at the same time.
    fn print(&self, origin: &str) {
        let mut text = format!("{origin}, seed {SEED}: {} transactions\n", self.calls);
        for (what, times) in &self.times {
            writeln!(text, "  {what:<58}{times:>7}").unwrap();
        }
        print!("{text}");
    }

    fn one_store(&mut self, image: &[u8]) {
        let table = table(image).expect("the store is sound");
        self.read(image, &table);
        let empty = table.iter().filter(|(_, value)| value.is_empty());
        let empty: Vec<u64> = empty.map(|(key, _)| *key).collect();
        for _ in 0..EDITED {
            let key = self.random.pick(&empty);
            self.preview(image, &table, key);
            for device in DEVICES {
                self.edit(device, image, key);
                self.refused(device, image, key);
            }
        }
        for device in DEVICES {
            self.go_on(device, image.to_vec());
        }
    }

    /// Check accepts, a lookup finds each empty value, and next key comes to it.
    fn read(&mut self, image: &[u8], table: &Table) {
        let mut both = Both::new(image);
        assert_eq!(both.check(), Ok(()));
        self.count("check accepts");
        let mut last = 0;
        for &(key, ref value) in table {
            if value.is_empty() {
                self.read_one(&mut both, last, key);
            }
            last = key;
        }
    }

    /// An empty value, and the key before it in the table, or 0.
    fn read_one(&mut self, both: &mut Both, last: u64, key: u64) {
        let found = both.lookup(key);
        assert!(matches!(found, Ok(Some((_, 0)))), "{key}: {found:?}");
        assert_eq!(both.value(key), b"");
        self.count("lookup finds it with length 0");
        assert_eq!(both.next_key(last), Ok(Some(key)));
        self.count("next key comes to it");
        if key - last > 1 {
            assert_eq!(both.lookup(key - 1), Ok(None));
            self.count("the key before it is missing");
        }
    }

    /// The preview of an empty value that the list leaves alone, updates, deletes, or
    /// would make empty again.
    fn preview(&mut self, image: &[u8], table: &Table, key: u64) {
        let mut both = Both::new(image);
        let (offset, length) = both.lookup(key).unwrap().expect("it is stored");
        let other = self.another(table, key);
        let longer = self.random.between(1, 200);
        let update = |length| edit(Kind::Update, key, length);
        let in_list = Preview::InList {
            offset: other.len() + 10,
            length: longer,
        };
        let rows = [
            (
                "in the image",
                vec![],
                Ok(Preview::InImage { offset, length }),
            ),
            ("in the list once updated", update(longer), Ok(in_list)),
            (
                "missing once deleted",
                edit(Kind::Delete, key, 0),
                Ok(Preview::Missing),
            ),
            (
                "19 at edit 1",
                update(0),
                Err(Refusal {
                    number: 19,
                    edit: 1,
                }),
            ),
        ];
        for (what, last, wanted) in rows {
            let list = [&other[..], &last].concat();
            assert_eq!(both.preview(&list, key, 4), wanted, "{what}");
            self.count(format!("preview: {what}"));
        }
    }

    /// An edit of another key that can be made.
    fn another(&mut self, table: &Table, key: u64) -> Vec<u8> {
        let others = table.iter().filter(|entry| entry.0 != key);
        let others: Vec<u64> = others.map(|entry| entry.0).collect();
        if others.is_empty() {
            return edit(Kind::Insert, if key == 1 { 2 } else { 1 }, 8);
        }
        edit(Kind::Update, self.random.pick(&others), 8)
    }

    /// A transaction by both. Accepted, it does what the ledger says.
    fn send(&mut self, device: Device, image: &[u8], list: Vec<u8>) -> (u8, Call) {
        let call = Call::new(&mut self.random, image, list);
        let (number, after) = compare_transaction(device, self.calls, &call);
        self.calls += 1;
        let mut ledger = Ledger::new(image);
        ledger.feed(&call.edits, number == 0);
        if number == 0 {
            assert!(ledger.holds(table(&after.work).as_ref(), 1), "the table");
        }
        (number, after)
    }

    /// "Can be updated to a longer value or deleted", unless pages run out.
    fn edit(&mut self, device: Device, image: &[u8], key: u64) {
        let longer = self.random.between(1, 200);
        let (update, delete) = (edit(Kind::Update, key, longer), edit(Kind::Delete, key, 0));
        let insert = edit(Kind::Insert, key, longer);
        let again = [&delete[..], &insert].concat();
        for (what, list, pages) in [
            ("updated to a longer value", update, true),
            ("deleted", delete, false),
            ("deleted and inserted again", again, true),
        ] {
            match self.send(device, image, list).0 {
                0 => self.count(format!("{device:?}: {what}")),
                10 | 11 if pages => {}
                number => panic!("not {what}, but refused with {number}"),
            }
        }
    }

    /// Refused, a list changes nothing: `compare_transaction` sees to it.
    fn refused(&mut self, device: Device, image: &[u8], key: u64) {
        let update = |length| edit(Kind::Update, key, length);
        for (what, list, number, at) in [
            ("19 for an update to an empty one", update(0), 19, 0),
            (
                "19 for a second update",
                [update(1), update(0)].concat(),
                19,
                1,
            ),
            ("8 for an insert", edit(Kind::Insert, key, 8), 8, 0),
        ] {
            let (given, after) = self.send(device, image, list);
            assert_eq!((given, after.answer[0]), (number, at), "{what}");
            self.count(format!("{device:?}: {what}"));
        }
    }

    /// Transactions of any edits, one after the other.
    fn go_on(&mut self, device: Device, mut image: Vec<u8>) {
        for _ in 0..TRANSACTIONS {
            let table = table(&image).expect("the store is sound");
            let keys: Vec<u64> = table.iter().map(|entry| entry.0).collect();
            let list = List::any(&mut self.random, &keys);
            let (number, after) = self.send(device, &image, list.bytes());
            if number == 0 {
                self.count_kept(device, [&image, &after.work], &list.keys());
                image = after.work;
            }
        }
    }

    /// Leaves with an empty value that no edit has, by where their records are now.
    /// The ledger has seen that none is lost.
    fn count_kept(&mut self, device: Device, images: [&[u8]; 2], edited: &[u64]) {
        let [before, after] = images.map(|image| sound_leaves(image).expect("it is sound"));
        for leaf in &before {
            let mut records = leaf.records.iter();
            if !records.any(|record| record.value.is_empty() && !edited.contains(&record.key)) {
                continue;
            }
            let shared = |now: &&Leaf| now.records.iter().any(|r| leaf.find(r.key).is_some());
            let now: Vec<usize> = after.iter().filter(shared).map(|now| now.page).collect();
            let place = match now[..] {
                [page] if page == leaf.page => "in its page",
                [_] => "in a copied leaf",
                _ => "in a split leaf",
            };
            self.count(format!("{device:?}: kept {place}"));
        }
    }
}

fn wanted() -> Vec<String> {
    let reads = [
        "check accepts",
        "lookup finds it with length 0",
        "next key comes to it",
        "the key before it is missing",
        "preview: in the image",
        "preview: in the list once updated",
        "preview: missing once deleted",
        "preview: 19 at edit 1",
    ];
    let writes = [
        "updated to a longer value",
        "deleted",
        "deleted and inserted again",
        "19 for an update to an empty one",
        "19 for a second update",
        "8 for an insert",
        "kept in its page",
        "kept in a copied leaf",
        "kept in a split leaf",
    ];
    let on = |device: Device| writes.map(|what| format!("{device:?}: {what}"));
    let writes = DEVICES.into_iter().flat_map(on);
    reads.map(String::from).into_iter().chain(writes).collect()
}

fn work_as_before(origin: &str, any_store: fn(&mut Random) -> Vec<u8>) {
    let mut test = Test {
        random: Random::new(SEED),
        calls: 0,
        times: BTreeMap::new(),
    };
    for _ in 0..STORES {
        let image = any_store(&mut test.random);
        test.one_store(&image);
    }
    test.print(origin);
    for what in wanted() {
        let times = test.times.get(&what).copied().unwrap_or(0);
        assert!(times > 20, "{origin}: came {times} times: {what}");
    }
}

#[test]
fn built_ones_work_as_before() {
    work_as_before("built", built);
}

#[test]
fn those_of_earlier_lists_work_as_before() {
    work_as_before("by the earlier rule", earlier::any_store);
}
