//! The `Store` type against a plain map, and through power failures.

mod images;

use cases::random::Random;
use images::empty_out;
use quote_store::{calls, Device, Edit, Refusal, Store, LAST_KEY, LINE};
use std::collections::BTreeMap;

const SEED: u64 = 20_240_612;

/// Every value is a part of this.
const DATA: &[u8] = b"101.25 99.50 100.03125 98.765625 102.5 97.1875";

type Map = BTreeMap<u64, &'static [u8]>;

/// An edit that is possible, made on the map too.
fn any_edit(random: &mut Random, map: &mut Map) -> Edit<'static> {
    let key = random.between(1, 60) as u64;
    let value = &DATA[random.below(DATA.len())..];
    let present = map.contains_key(&key);
    if present && random.one_in(4) {
        map.remove(&key);
        return Edit::Delete { key };
    }
    map.insert(key, value);
    match present {
        true => Edit::Update { key, value },
        false => Edit::Insert { key, value },
    }
}

fn holds(store: &Store, map: &Map) -> bool {
    store
        .iter()
        .eq(map.iter().map(|(key, value)| (*key, *value)))
}

/// What the device holds after its tape, whole.
fn played(image: &[u8], tape: &[u8]) -> Vec<u8> {
    let mut device = vec![0; image.len()];
    calls::run(image, &mut device, tape).expect("the tape is well formed");
    device
}

/// How many stores not yet durable a line keeps.
type Choice = fn(usize) -> u8;

/// None, one or all; or those of every other line.
const CHOICES: [Choice; 5] = [
    |_| 0,
    |_| 1,
    |_| 255,
    |line| if line % 2 == 0 { 255 } else { 0 },
    |line| if line % 2 == 1 { 255 } else { 0 },
];

/// The power fails after each of the tape's commands: at first the first of
/// these tables is there, at the end the last one, and none comes back once it
/// was left. Gives how often a commit had to be finished.
fn every_cut(kind: Device, before: &[u8], tape: &[u8], tables: &[&Map]) -> usize {
    let mut recovered = 0;
    for choice in CHOICES {
        let (mut c, mut left, mut ends) = (0, 0, false);
        while let Some(device) = after_cut(before, tape, c, choice) {
            let found = Store::open_on(kind, &device).expect("no cut is refused");
            let more = tables[left..].iter().position(|map| holds(&found, map));
            left += more.expect("it holds one of the tables");
            assert!(left == 0 || c > 0);
            ends = holds(&found, tables[tables.len() - 1]);
            recovered += usize::from(device_follows(&device, found));
            c += 1;
        }
        assert!(ends && c > 1);
    }
    recovered
}

/// What the device holds after c commands; none if the tape has fewer.
fn after_cut(before: &[u8], tape: &[u8], c: usize, choice: Choice) -> Option<Vec<u8>> {
    let mut device = vec![0; before.len()];
    let choices: Vec<u8> = (0..before.len() / LINE).map(choice).collect();
    match calls::cut(before, &mut device, tape, c, &choices) {
        Ok(()) => Some(device),
        Err(refusal) => {
            assert_eq!(refusal, Refusal::PastEnd);
            None
        }
    }
}

/// The device comes to the store that was opened on it, and so if a transaction
/// is made before the tape is taken. Gives whether a commit had to be finished.
fn device_follows(device: &[u8], mut found: Store) -> bool {
    let (image, recovery) = (found.image().to_vec(), found.waiting());
    let value = DATA;
    found.apply(&[Edit::Insert { key: 61, value }]).unwrap();
    let tape = found.take_tape();
    assert!(played(device, &tape[..recovery]) == image);
    assert!(played(device, &tape) == found.image());
    assert_eq!(found.get(61), Some(DATA));
    recovery > 0
}

/// A store on a device of this kind, which holds the map, through 60 transactions.
fn is_the_map(kind: Device, mut store: Store, mut map: Map) {
    println!("{kind:?}, seed {SEED}");
    let mut random = Random::new(SEED);
    let (mut accepted, mut recovered) = (0, 0);
    while accepted < 60 {
        let (before, old) = (store.image().to_vec(), map.clone());
        let count = random.between(1, 6);
        let edits: Vec<Edit> = (0..count)
            .map(|_| any_edit(&mut random, &mut map))
            .collect();
        match store.apply(&edits) {
            Ok(commit) => {
                let tape = store.take_tape();
                assert_eq!(commit.bytes, tape.len());
                assert!(played(&before, &tape) == store.image());
                recovered += every_cut(kind, &before, &tape, &[&old, &map]);
                accepted += 1;
            }
            Err(refusal) => panic!("{refusal}"),
        }
        assert!(holds(&store, &map));
    }
    println!("{accepted} transactions, {recovered} recoveries");
    assert!(recovered > 100);
}

fn fresh_is_the_map(kind: Device) {
    is_the_map(kind, Store::fresh_on(kind, 16).unwrap(), Map::new());
}

#[test]
fn store_is_the_map_through_power_failures() {
    fresh_is_the_map(Device::Lines);
}

#[test]
fn store_on_words_is_the_map_through_power_failures() {
    fresh_is_the_map(Device::Words);
}

/// The same from a store that holds empty values of all keys: they stay until they
/// are updated or deleted, through copies, splits and recoveries.
#[test]
fn store_with_empty_values_is_the_map_through_power_failures() {
    for kind in [Device::Lines, Device::Words] {
        let mut image = Store::fresh(16).unwrap().image().to_vec();
        for key in 1..=60 {
            let mut store = Store::open(&image).unwrap();
            store.apply(&[Edit::Insert { key, value: DATA }]).unwrap();
            image = store.image().to_vec();
            empty_out(&mut image, key);
        }
        let map = (1..=60).map(|key| (key, &b""[..])).collect();
        is_the_map(kind, Store::open_on(kind, &image).unwrap(), map);
    }
}

#[test]
fn a_refused_list_changes_nothing() {
    let (mut store, long) = (Store::fresh(8).unwrap(), [0; 1000]);
    let insert = |key, value| Edit::Insert { key, value };
    let update = |key, value| Edit::Update { key, value };
    let (good, other) = (insert(1, DATA), insert(2, DATA));
    store.apply(&[good]).unwrap();
    assert!(!store.take_tape().is_empty());
    let image = store.image().to_vec();
    let lists: [(&[Edit], Refusal); 9] = [
        (&[], Refusal::BadList { edit: 0 }),
        (&[other; 17], Refusal::BadList { edit: 16 }),
        (&[other, good], Refusal::KeyPresent { edit: 1 }),
        (&[other, other], Refusal::KeyPresent { edit: 1 }),
        (&[Edit::Delete { key: 2 }], Refusal::KeyMissing { edit: 0 }),
        (&[update(2, DATA)], Refusal::KeyMissing { edit: 0 }),
        (
            &[other, Edit::Delete { key: LAST_KEY + 1 }],
            Refusal::KeyRange { edit: 1 },
        ),
        (&[insert(2, &long)], Refusal::LongValue { edit: 0 }),
        (&[other, update(1, b"")], Refusal::EmptyValue { edit: 1 }),
    ];
    for (edits, refusal) in lists {
        assert_eq!(store.apply(edits), Err(refusal));
        assert!(store.image() == image && store.take_tape().is_empty());
    }
}

/// "A power failure among them leaves some first transactions, each whole": a
/// recovery and two transactions, taken together.
#[test]
fn cut_among_the_commands_of_several_calls() {
    several_calls(Device::Lines);
    several_calls(Device::Words);
}

fn several_calls(kind: Device) {
    let (mut store, mut map) = (Store::fresh_on(kind, 16).unwrap(), Map::new());
    let insert = |key| Edit::Insert { key, value: DATA };
    for key in 1..=60 {
        store.apply(&[insert(key)]).unwrap();
        map.insert(key, DATA);
    }
    let (before, _) = (store.image().to_vec(), store.take_tape());
    let shift = [1, 60].map(|key| Edit::Update { key, value: b"1" });
    store.apply(&shift).unwrap();
    map.extend([(1, &b"1"[..]), (60, b"1")]);
    let tape = store.take_tape();
    let mut cuts = (0..).map_while(|c| after_cut(&before, &tape, c, |_| 1));
    let waits = cuts.find(|device| calls::check(device) == Err(Refusal::MarkWaits));
    let device = waits.expect("a commit is cut");

    let mut store = Store::open_on(kind, &device).unwrap();
    store.apply(&[Edit::Delete { key: 1 }]).unwrap();
    store
        .apply(&[Edit::Delete { key: 60 }, Edit::Delete { key: 2 }])
        .unwrap();
    let (mut next, mut last) = (map.clone(), map.clone());
    next.remove(&1);
    last.retain(|key, _| ![1, 2, 60].contains(key));
    let finished = every_cut(kind, &device, &store.take_tape(), &[&map, &next, &last]);
    assert!(finished > 0);
}

/// Commands wait until they are taken, in the order of the calls; a refused call
/// takes none away.
#[test]
fn commands_gather_until_they_are_taken() {
    let mut store = Store::fresh(8).unwrap();
    let fresh = store.image().to_vec();
    let value = b"99.50";
    let mut bytes = 0;
    for key in 1..60 {
        let edits = [Edit::Insert { key, value }];
        bytes += store.apply(&edits).unwrap().bytes;
        assert!(store.apply(&edits).is_err());
    }
    let tape = store.take_tape();
    assert_eq!(tape.len(), bytes);
    assert!(played(&fresh, &tape) == store.image());
    assert!(store.take_tape().is_empty());
}

/// The lengths that a byte can't hold, and those about the limit.
#[test]
fn long_values_are_refused() {
    let mut store = Store::fresh(8).unwrap();
    let long = [0; 1000];
    for length in [201, 255, 256, 257, 456, 1000] {
        let value = &long[..length];
        let refused = store.apply(&[Edit::Insert { key: 2, value }]);
        assert_eq!(refused, Err(Refusal::LongValue { edit: 0 }), "{length}");
    }
}

#[test]
fn images_of_other_lengths_are_refused() {
    for length in [0, 1, 1023, 7 * 1024, 8191, 8193, 65 * 1024, 1 << 20] {
        let refusal = Store::open(&vec![0; length]).unwrap_err();
        assert_eq!(refusal, Refusal::ImageSize, "{length}");
    }
}

#[test]
fn fresh_stores_of_other_lengths_are_refused() {
    for pages in [0, 7, 65, usize::MAX] {
        assert_eq!(Store::fresh(pages).unwrap_err(), Refusal::ImageSize);
    }
}

#[test]
fn unsound_images_are_refused() {
    assert_eq!(Store::open(&[0; 8192]).unwrap_err(), Refusal::Unsound);
    // A mark that waits over a log that is none.
    let mut image = Store::fresh(8).unwrap().image().to_vec();
    image[..3].copy_from_slice(&[1, 1, 1]);
    assert_eq!(calls::check(&image), Err(Refusal::MarkWaits));
    assert_eq!(Store::open(&image).unwrap_err(), Refusal::Unsound);
}

/// Each number has words of its own, and leads back to its refusal.
#[test]
fn every_refusal_says_why() {
    let mut words = std::collections::BTreeSet::new();
    for number in 1..=20 {
        let refusal = Refusal::of(number, 3).unwrap();
        let names_edit = matches!(number, 5..=11 | 19);
        assert_eq!(refusal.number(), number);
        assert_eq!(refusal.edit(), if names_edit { 3 } else { 0 });
        assert_eq!(refusal.to_string().starts_with("edit 3: "), names_edit);
        assert!(words.insert(refusal.to_string()));
    }
    assert_eq!((Refusal::of(0, 0), Refusal::of(21, 0)), (None, None));
}
