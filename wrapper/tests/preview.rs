//! `Store::preview` against a plain map, and against what `apply` then does.

mod images;

use cases::lists::{List, FAULTS};
use cases::random::Random;
use cases::stores::any_built;
use images::empty_out;
use quote_store::{calls, encode, Edit, Preview, Refusal, Store, LAST_KEY, LONGEST_VALUE, PAGE};
use std::collections::{BTreeMap, BTreeSet};

const SEED: u64 = 20_250_117;
const LISTS: usize = 10_000;

type Map<'a> = BTreeMap<u64, &'a [u8]>;

const OUT_OF_RANGE: [u64; 3] = [0, LAST_KEY + 1, u64::MAX];

fn edit_of(bytes: &[u8]) -> Edit<'_> {
    let (key, value) = (key_of(bytes), &bytes[10..]);
    match bytes[0] {
        1 => Edit::Insert { key, value },
        2 => Edit::Update { key, value },
        _ => Edit::Delete { key },
    }
}

fn key_of(edit: &[u8]) -> u64 {
    u64::from_le_bytes(edit[2..10].try_into().unwrap())
}

/// "First faulty edit", of 1 to 16: 7, then 19, then 6.
fn fault(edits: &[Edit]) -> Option<Refusal> {
    let mut edits = edits.iter().enumerate();
    edits.find_map(|(edit, given)| match *given {
        Edit::Insert { value, .. } | Edit::Update { value, .. } if value.len() > LONGEST_VALUE => {
            Some(Refusal::LongValue { edit })
        }
        Edit::Insert { value: [], .. } | Edit::Update { value: [], .. } => {
            Some(Refusal::EmptyValue { edit })
        }
        Edit::Insert { key, .. } | Edit::Update { key, .. } | Edit::Delete { key } => {
            let in_range = (1..=LAST_KEY).contains(&key);
            (!in_range).then_some(Refusal::KeyRange { edit })
        }
    })
}

/// What a plain map holds after the edits, or the first edit whose key is there
/// or missing where it must not be.
fn made<'a>(mut map: Map<'a>, edits: &[Edit<'a>]) -> Result<Map<'a>, Refusal> {
    for (edit, made) in edits.iter().enumerate() {
        match *made {
            Edit::Insert { key, .. } if map.contains_key(&key) => {
                return Err(Refusal::KeyPresent { edit });
            }
            Edit::Update { key, .. } | Edit::Delete { key } if !map.contains_key(&key) => {
                return Err(Refusal::KeyMissing { edit });
            }
            Edit::Insert { key, value } | Edit::Update { key, value } => map.insert(key, value),
            Edit::Delete { key } => map.remove(&key),
        };
    }
    Ok(map)
}

/// A list of whole edits; some have a wrong key or an empty value, and beside that
/// one too long.
fn any_list(random: &mut Random, keys: &[u64]) -> List {
    let mut list = List::any(random, keys);
    if random.one_in(4) {
        let wanted = |fault: &usize| [8, 9, 19].contains(&FAULTS[*fault].1);
        let faults: Vec<usize> = (0..FAULTS.len()).filter(wanted).collect();
        let fault = random.pick(&faults);
        list.spoil(random, fault);
        list.edits.truncate(16);
    }
    list
}

/// The keys of the store and of the list, those beside the list's, and the first
/// and last that there can be.
fn keys_to_ask(store: &[u64], list: &List) -> BTreeSet<u64> {
    let mut keys = BTreeSet::from([1, LAST_KEY]);
    keys.extend(store);
    for edit in &list.edits {
        let key = key_of(edit);
        keys.extend([key.saturating_sub(1), key, key + 1]);
    }
    keys.retain(|key| (1..=LAST_KEY).contains(key));
    keys
}

/// The number of an answer; 0 if it is accepted.
fn number_of<T>(answer: &Result<T, Refusal>) -> u8 {
    answer
        .as_ref()
        .map_or_else(|refusal| refusal.number(), |_| 0)
}

/// How many lists were answered so by the look and by `apply`; how many values
/// were in the list, in the image, in the image and empty, missing.
#[derive(Default)]
struct Tally {
    lists: BTreeMap<(u8, u8), usize>,
    places: [usize; 4],
}

/// All keys of a store and a list: the preview is what the map holds after the
/// edits, and what the store then holds if they can be made.
fn look(random: &mut Random, tally: &mut Tally) {
    let built = any_built(random);
    let table: Map = built.table.iter().map(|(k, v)| (*k, &v[..])).collect();
    let keys: Vec<u64> = table.keys().copied().collect();
    let list = any_list(random, &keys);
    let edits: Vec<Edit> = list.edits.iter().map(|bytes| edit_of(bytes)).collect();
    let fault = fault(&edits);
    let wanted = fault.map_or_else(|| made(table, &edits), Err);

    let store = Store::open(&built.image).unwrap();
    let mut after = Store::open(&built.image).unwrap();
    let applied = after.apply(&edits);
    for key in keys_to_ask(&keys, &list) {
        let seen = store.preview(&edits, key);
        let held = wanted.as_ref().map(|map| map.get(&key).copied());
        assert_eq!(seen, held.map_err(|refusal| *refusal));
        match applied {
            Ok(_) => assert_eq!(seen, Ok(after.get(key))),
            Err(refusal) if is_shown(refusal) => assert_eq!(seen, Err(refusal)),
            Err(_) => {}
        }
        same_by_calls(store.image(), &edits, key, seen, tally);
    }
    for key in OUT_OF_RANGE {
        let refusal = fault.unwrap_or(Refusal::KeyRange { edit: 0 });
        assert_eq!(store.preview(&edits, key), Err(refusal));
    }
    let numbers = (number_of(&wanted), number_of(&applied));
    *tally.lists.entry(numbers).or_default() += 1;
}

/// Whether a look at the list says this refusal too: not those of pages and log.
fn is_shown(refusal: Refusal) -> bool {
    !(10..=13).contains(&refusal.number())
}

/// The calls on lent buffers say the same.
fn same_by_calls(
    image: &[u8],
    edits: &[Edit],
    key: u64,
    seen: Result<Option<&[u8]>, Refusal>,
    tally: &mut Tally,
) {
    let list = encode(edits);
    assert_eq!(calls::preview_value(image, &list, key), seen);
    match calls::preview(image, &list, key) {
        Ok(Preview::InList(part)) => {
            assert_eq!(seen, Ok(Some(&list[part])));
            tally.places[0] += 1;
        }
        Ok(Preview::InImage(part)) => {
            tally.places[if part.is_empty() { 2 } else { 1 }] += 1;
            assert_eq!(calls::lookup(image, key), Ok(Some(part)));
        }
        Ok(Preview::Missing) => tally.places[3] += 1,
        Err(refusal) => assert_eq!(seen, Err(refusal)),
    }
}

#[test]
fn preview_is_what_apply_gives() {
    println!("seed {SEED}");
    let mut random = Random::new(SEED);
    let mut tally = Tally::default();
    for _ in 0..LISTS {
        look(&mut random, &mut tally);
    }
    let Tally { lists, places } = tally;
    println!("answers of the look and of apply: {lists:?}");
    println!("in the list, in the image, empty there, missing: {places:?}");
    // Where apply lacks pages or log, the look answers all the same.
    for numbers in [(0, 0), (8, 8), (9, 9), (19, 19), (0, 11), (0, 12)] {
        let times = lists.get(&numbers).copied().unwrap_or(0);
        assert!(times > 3, "{numbers:?} came too seldom");
    }
    assert!(places.iter().all(|times| *times > 1_000));
}

fn insert(key: u64, value: &[u8]) -> Edit<'_> {
    Edit::Insert { key, value }
}

fn update(key: u64, value: &[u8]) -> Edit<'_> {
    Edit::Update { key, value }
}

/// A store with quotes 1 and 2, the second of which has an empty value.
fn two_quotes() -> Store {
    let mut store = Store::fresh(8).unwrap();
    let quotes = [insert(1, b"99.50"), insert(2, b"98")];
    store.apply(&quotes).unwrap();
    let mut image = store.image().to_vec();
    empty_out(&mut image, 2);
    Store::open(&image).unwrap()
}

/// The last edit of a key decides, and the value is that edit's own, not a copy.
#[test]
fn value_is_lent() {
    let store = two_quotes();
    let values = [&b"101"[..], b"102", b"1", b"103"].map(<[u8]>::to_vec);
    let edits = [
        update(1, &values[0]),
        insert(7, &values[1]),
        Edit::Delete { key: 7 },
        update(1, &values[3]),
        insert(8, &values[2]),
    ];
    let look = |key| store.preview(&edits, key).unwrap();
    assert!(std::ptr::eq(look(1).unwrap(), &values[3][..]));
    assert_eq!((look(7), look(8)), (None, Some(&b"1"[..])));
    let place = calls::lookup(store.image(), 2).unwrap().unwrap();
    assert!(std::ptr::eq(look(2).unwrap(), &store.image()[place]));
    // Equal bytes are those of the edit all the same.
    let same = b"99.50".to_vec();
    let seen = store.preview(&[update(1, &same)], 1).unwrap();
    assert!(std::ptr::eq(seen.unwrap(), &same[..]));
}

/// Both buffers are only read, so the list may be a part of the image.
#[test]
fn list_may_lie_in_the_image() {
    let mut store = two_quotes();
    let list = encode(&[update(1, b"98")]);
    store.apply(&[insert(3, &list)]).unwrap();
    let list = store.get(3).unwrap();
    let seen = calls::preview(store.image(), list, 1);
    assert_eq!(seen, Ok(Preview::InList(10..12)));
}

/// Every look at such a list is refused; this is said of a key out of range.
fn is_refused(edits: &[Edit], refusal: Refusal, out_of_range: Refusal) {
    let mut store = two_quotes();
    assert_eq!(store.apply(edits), Err(refusal));
    for key in [1, 3, 4, LAST_KEY] {
        assert_eq!(store.preview(edits, key), Err(refusal));
    }
    for key in OUT_OF_RANGE {
        assert_eq!(store.preview(edits, key), Err(out_of_range));
    }
}

/// The list's faults come before the key asked, which comes before the rules for
/// keys that are there or missing.
#[test]
fn refusals_come_in_their_order() {
    let (long, good) = ([0; 1000], insert(3, b"1"));
    let faults: [(&[Edit], Refusal); 6] = [
        (&[], Refusal::BadList { edit: 0 }),
        (&[good; 17], Refusal::BadList { edit: 16 }),
        (&[good, update(0, b"1")], Refusal::KeyRange { edit: 1 }),
        (&[good, update(2, b"")], Refusal::EmptyValue { edit: 1 }),
        (&[insert(4, &long[..201])], Refusal::LongValue { edit: 0 }),
        (&[good, insert(4, &long)], Refusal::LongValue { edit: 1 }),
    ];
    for (edits, refusal) in faults {
        is_refused(edits, refusal, refusal);
    }
    let delete = Edit::Delete { key: 1 };
    let wrong_keys: [(&[Edit], Refusal); 4] = [
        (&[insert(1, b"1")], Refusal::KeyPresent { edit: 0 }),
        (&[good, good], Refusal::KeyPresent { edit: 1 }),
        (&[good, update(4, b"1")], Refusal::KeyMissing { edit: 1 }),
        (&[delete, delete], Refusal::KeyMissing { edit: 1 }),
    ];
    for (edits, refusal) in wrong_keys {
        is_refused(edits, refusal, Refusal::KeyRange { edit: 0 });
    }
}

/// The refusals of page 0 and of the index come before all others, in this
/// order. (Those of leaves: tests/leaves.rs.)
#[test]
fn page_0_and_index_are_judged_first() {
    let mut image = two_quotes().image().to_vec();
    assert_eq!(calls::preview(&image[1..], &[], 0), Err(Refusal::ImageSize));
    // The index calls itself a leaf.
    image[PAGE + 4] = 1;
    assert_eq!(calls::preview(&image, &[], 0), Err(Refusal::Unsound));
    // A mark over one header waits; over none, it is wrong.
    image[..3].copy_from_slice(&[1, 1, 1]);
    assert_eq!(calls::preview(&image, &[], 0), Err(Refusal::MarkWaits));
    image[1] = 0;
    assert_eq!(calls::preview(&image, &[], 0), Err(Refusal::Unsound));
}
