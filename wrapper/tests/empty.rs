//! Document 02 (g): "No more empty quotes. [..] Stored ones work as before, and can
//! be updated to a longer value or deleted. [..] Refused: 19, with its edit's number,
//! for an insert or update of length 0, in the list check just after 7."

mod images;

use images::empty_out;
use quote_store::{calls, encode, Commit, Device, Edit, Preview, Refusal, Store, LAST_KEY, PAGE};

const EMPTY: &[u8] = b"";
const GOOD: Edit = update(105, b"99.75");
const DELETE: Edit = Edit::Delete { key: 101 };

const fn insert(key: u64, value: &[u8]) -> Edit<'_> {
    Edit::Insert { key, value }
}

const fn update(key: u64, value: &[u8]) -> Edit<'_> {
    Edit::Update { key, value }
}

const fn empty(edit: usize) -> Refusal {
    Refusal::EmptyValue { edit }
}

/// Quotes 101, 105 and 110, of which 101 has an empty value.
fn book() -> Vec<u8> {
    let mut store = Store::fresh(8).unwrap();
    let quotes = [101, 105, 110].map(|key| insert(key, b"99.50"));
    store.apply(&quotes).unwrap();
    let mut image = store.image().to_vec();
    empty_out(&mut image, 101);
    image
}

type Transaction = fn(&[u8], &mut [u8], &mut [u8], &[u8]) -> Result<Commit, Refusal>;

const TRANSACTIONS: [Transaction; 2] = [calls::transaction, calls::transaction_words];

/// Both transactions and every preview refuse the list so, the key asked being judged
/// after it. Work and tape stay.
fn is_refused(image: &[u8], list: &[u8], refusal: Refusal) {
    for transaction in TRANSACTIONS {
        let (mut work, mut tape) = (vec![77; image.len()], [77; 1000]);
        let said = transaction(image, &mut work, &mut tape, list);
        assert_eq!(said, Err(refusal), "{list:?}");
        assert!(work.iter().chain(&tape).all(|byte| *byte == 77));
    }
    for key in [0, 1, 101, 105, LAST_KEY + 1] {
        assert_eq!(calls::preview(image, list, key), Err(refusal), "{list:?}");
    }
}

/// Whatever its key is, out of range too; and the image's own value may be empty.
/// "A seventeenth" edit is 5 before it is 19.
#[test]
fn empty_value_is_refused_with_its_edit() {
    let image = book();
    for key in [1, 101, 105, LAST_KEY, 0, LAST_KEY + 1, u64::MAX] {
        for wrong in [insert(key, EMPTY), update(key, EMPTY)] {
            for edit in 0..16 {
                let edits = [&[GOOD; 16][..edit], &[wrong]].concat();
                is_refused(&image, &encode(&edits), empty(edit));
            }
            let edits = [&[GOOD; 16][..], &[wrong]].concat();
            is_refused(&image, &encode(&edits), Refusal::BadList { edit: 16 });
        }
    }
}

/// "First faulty edit", and within an edit 5, 7, 19, 5 and 6. An unknown kind with
/// length 0 is 5; a delete, which has length 0, is judged by its key.
#[test]
fn nineteen_comes_in_its_order() {
    let (image, long) = (book(), [7; 201]);
    let none = encode(&[insert(1, EMPTY)]);
    let too_long = encode(&[insert(1, &long)]);
    let no_key = encode(&[update(0, b"1")]);
    let with_kind = |kind| [&[kind][..], &none[1..]].concat();
    let bad = Refusal::BadList { edit: 0 };
    let range = Refusal::KeyRange { edit: 0 };
    let rows: [(&[&[u8]], Refusal); 12] = [
        (&[&with_kind(0)], bad),
        (&[&with_kind(4), &none], bad),
        (&[&none[..9]], bad),
        (&[&[2, 0]], bad),
        (&[&encode(&[insert(0, b"1")])[..10]], bad),
        (&[&encode(&[Edit::Delete { key: 0 }]), &none], range),
        (&[&too_long, &none], Refusal::LongValue { edit: 0 }),
        (&[&no_key, &none], range),
        (&[&none, &with_kind(4)], empty(0)),
        (&[&none, &too_long], empty(0)),
        (&[&none, &no_key], empty(0)),
        (&[&none, &none[..9]], empty(0)),
    ];
    for (edits, refusal) in rows {
        is_refused(&image, &edits.concat(), refusal);
    }
}

/// "Check's, then the list's."
#[test]
fn the_image_is_judged_first() {
    let (mut image, list) = (book(), encode(&[insert(0, EMPTY)]));
    image[..3].copy_from_slice(&[1, 1, 1]);
    is_refused(&image, &list, Refusal::MarkWaits);
    image[40] = 1;
    is_refused(&image, &list, Refusal::Unsound);
    is_refused(&image[1..], &list, Refusal::ImageSize);
    for transaction in TRANSACTIONS {
        let said = transaction(&book(), &mut [], &mut [], &list);
        assert_eq!(said, Err(Refusal::WorkSize));
    }
}

#[test]
fn stored_ones_are_found() {
    let image = book();
    let store = Store::open(&image).unwrap();
    let quotes = [(101, EMPTY), (105, b"99.50"), (110, b"99.50")];
    assert!(store.iter().eq(quotes));
    assert_eq!(calls::next_key(&image, 0), Ok(Some(101)));
    let place = calls::lookup(&image, 101).unwrap().unwrap();
    assert!(place.is_empty());
    let seen = calls::preview(&image, &encode(&[GOOD]), 101);
    assert_eq!(seen, Ok(Preview::InImage(place)));
}

type Value = Option<&'static [u8]>;

/// What the edits make of the empty quote, on either device; a preview shows it.
#[test]
fn stored_ones_are_updated_or_deleted() {
    let rows: [(&[Edit], Result<Value, Refusal>); 7] = [
        (&[update(101, b"9")], Ok(Some(b"9"))),
        (&[update(101, b"9"), update(101, EMPTY)], Err(empty(1))),
        (&[update(101, EMPTY)], Err(empty(0))),
        (&[DELETE], Ok(None)),
        (&[DELETE, insert(101, b"9")], Ok(Some(b"9"))),
        (&[insert(101, b"9")], Err(Refusal::KeyPresent { edit: 0 })),
        (&[GOOD, Edit::Delete { key: 110 }], Ok(Some(EMPTY))),
    ];
    for (edits, wanted) in rows {
        for kind in [Device::Lines, Device::Words] {
            let mut store = Store::open_on(kind, &book()).unwrap();
            assert_eq!(store.preview(edits, 101), wanted);
            let made = store.apply(edits).map(|_| store.get(101));
            assert_eq!(made, wanted);
        }
    }
}

/// A leaf that is copied, then split, takes the empty quote with it. As the first of
/// a new page it lies at the page's end: first the image's, then that of page 6.
#[test]
fn copies_and_splits_keep_stored_ones() {
    for kind in [Device::Lines, Device::Words] {
        let mut store = Store::open_on(kind, &book()).unwrap();
        let mut places = Vec::new();
        let mut make = |edit| {
            store.apply(&[edit]).unwrap();
            assert_eq!(store.get(101), Some(EMPTY));
            let place = calls::lookup(store.image(), 101).unwrap().unwrap();
            places.push(place.start);
        };
        (0..40).for_each(|_| make(GOOD));
        (201..=230).for_each(|key| make(insert(key, b"99.50")));
        places.dedup();
        assert_eq!(places[1..], [8 * PAGE, 7 * PAGE]);
    }
}

/// "To move quote by quote": an empty one is not inserted there anew.
#[test]
fn moving_leaves_empty_quotes_out() {
    let from = Store::open(&book()).unwrap();
    let mut to = Store::fresh(16).unwrap();
    let mut edits: Vec<Edit> = from.iter().map(|(key, value)| insert(key, value)).collect();
    assert_eq!(to.apply(&edits), Err(empty(0)));
    edits.remove(0);
    to.apply(&edits).unwrap();
    assert!(to.iter().eq(from.iter().skip(1)));
}
