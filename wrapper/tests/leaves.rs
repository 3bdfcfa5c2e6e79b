//! One bad leaf, and the quotes of the others. Document 02 (b): "For these calls
//! unsound means that the pages read break soundness by themselves, separator
//! bounds included."

use quote_store::{calls, encode, Edit, Preview, Refusal, Store, LAST_KEY, PAGE};

const VALUE: &[u8] = b"99.50";
const UNSOUND: Refusal = Refusal::Unsound;

/// Quotes 2, 4, .. 120, in four leaves of 15.
fn book() -> Vec<u8> {
    let mut store = Store::fresh(16).unwrap();
    for key in (2..=120).step_by(2) {
        store.apply(&[Edit::Insert { key, value: VALUE }]).unwrap();
    }
    assert_eq!(leaves(store.image()).len(), 4);
    store.image().to_vec()
}

fn two_bytes(bytes: &[u8]) -> usize {
    usize::from(u16::from_le_bytes([bytes[0], bytes[1]]))
}

/// Where in the image this record of a page is.
fn record(image: &[u8], page: usize, slot: usize) -> usize {
    page * PAGE + two_bytes(&image[page * PAGE + 8 + 2 * slot..])
}

/// Separator and page of each leaf.
fn leaves(image: &[u8]) -> Vec<(u64, usize)> {
    let root = usize::from(image[8]);
    let leaf = |slot| {
        let record = &image[record(image, root, slot)..];
        let separator = u64::from_le_bytes(record[..8].try_into().unwrap());
        (separator, two_bytes(&record[16..]))
    };
    (0..usize::from(image[root * PAGE])).map(leaf).collect()
}

/// "A key belongs to the last leaf whose separator is not above it, else to the
/// first."
fn belongs(image: &[u8], key: u64) -> usize {
    let last = leaves(image).iter().rposition(|leaf| leaf.0 <= key);
    last.unwrap_or(0)
}

/// Ways to damage a leaf, given which it is and its page.
const DAMAGE: [fn(&mut [u8], usize, usize); 3] = [
    // Another kind.
    |image, _, page| image[page * PAGE + 4] = 2,
    // Empty, and not the only one.
    |image, _, page| {
        image[page * PAGE] = 0;
        image[page * PAGE + 8..][..56].fill(0);
    },
    // A last key that is the next separator, or a first one below its own.
    |image, leaf, page| {
        let (slot, key) = if leaf == 0 { (14, 32) } else { (0, 1) };
        let at = record(image, page, slot);
        image[at..at + 8].copy_from_slice(&u64::to_le_bytes(key));
    },
];

/// The book with this leaf damaged in each of these ways.
fn damaged(book: &[u8], leaf: usize) -> [Vec<u8>; 3] {
    DAMAGE.map(|damage| {
        let mut image = book.to_vec();
        damage(&mut image, leaf, leaves(book)[leaf].1);
        image
    })
}

/// All keys, those between and about them, and numbers that are none.
fn numbers() -> impl Iterator<Item = u64> {
    (0..=122).chain([LAST_KEY, LAST_KEY + 1, u64::MAX])
}

/// "A lookup now reads page 0, the index and one leaf", and that leaf's 4 comes
/// before the key's 6. "Next key reads that and, only if that leaf holds no
/// larger key, the leaf after."
#[test]
fn bad_leaf_refuses_its_own_keys() {
    let book = book();
    for bad in 0..4 {
        for image in damaged(&book, bad) {
            assert_eq!(calls::check(&image), Err(UNSOUND));
            assert_eq!(Store::open(&image).err(), Some(UNSOUND));
            for number in numbers() {
                let here = belongs(&book, number);
                let found = calls::lookup(&book, number);
                let wanted = if here == bad { Err(UNSOUND) } else { found };
                assert_eq!(calls::lookup(&image, number), wanted, "{bad}, {number}");
                let next = calls::next_key(&book, number).unwrap();
                let read = [Some(here), next.map(|key| belongs(&book, key))];
                let refused = read.contains(&Some(bad));
                let wanted = if refused { Err(UNSOUND) } else { Ok(next) };
                assert_eq!(calls::next_key(&image, number), wanted, "{bad}, {number}");
            }
        }
    }
}

/// "Of the index [..] all its page numbers", also those of leaves that are not
/// read: then no key is answered, and no list is judged.
#[test]
fn bad_index_refuses_all_keys() {
    let book = book();
    let at = record(&book, usize::from(book[8]), 3) + 16;
    let first = leaves(&book)[0].1;
    for page in [0, usize::from(book[8]), first, 16] {
        let mut image = book.clone();
        image[at] = page as u8;
        for number in numbers() {
            assert_eq!(calls::lookup(&image, number), Err(UNSOUND));
            assert_eq!(calls::next_key(&image, number), Err(UNSOUND));
            assert_eq!(calls::preview(&image, &[], number), Err(UNSOUND));
        }
    }
}

/// "The pages read alone [..] give the answer by the same rules": the second
/// separator is 20 instead of 32. Keys from there on are looked up in the second
/// leaf, which is good, though the first holds them; that one is bad, as its keys
/// are not below the second separator.
#[test]
fn pages_read_alone_give_the_answer() {
    let mut image = book();
    let at = record(&image, usize::from(image[8]), 1);
    image[at] = 20;
    assert_eq!(calls::check(&image), Err(UNSOUND));
    for key in (2..20).step_by(2) {
        assert_eq!(calls::lookup(&image, key), Err(UNSOUND));
    }
    for key in (20..32).step_by(2) {
        assert_eq!(calls::lookup(&image, key), Ok(None));
        assert_eq!(calls::next_key(&image, key), Ok(Some(32)));
    }
    let seen = calls::preview(&image, &encode(&[update(24)]), 34);
    assert_eq!(seen, Err(Refusal::KeyMissing { edit: 0 }));
}

fn insert(key: u64) -> Edit<'static> {
    Edit::Insert { key, value: VALUE }
}

fn update(key: u64) -> Edit<'static> {
    Edit::Update { key, value: VALUE }
}

/// "There a leaf's 4 comes just before the 8 or 9 of the first edit that needs
/// that leaf, or last of all for the key asked." The second leaf, with 32 to 60,
/// is bad.
#[test]
fn bad_leaf_in_a_preview() {
    let book = book();
    let in_image = |key| Preview::InImage(calls::lookup(&book, key).unwrap().unwrap());
    let present = |edit| Err(Refusal::KeyPresent { edit });
    let range = |edit| Err(Refusal::KeyRange { edit });
    let rows: [(&[Edit], u64, Result<Preview, Refusal>); 14] = [
        (&[update(2)], 2, Ok(Preview::InList(10..15))),
        (&[update(2)], 62, Ok(in_image(62))),
        (&[insert(63), update(2)], 1, Ok(Preview::Missing)),
        (&[update(2)], 32, Err(UNSOUND)),
        (&[update(2)], 61, Err(UNSOUND)),
        (&[update(32)], 2, Err(UNSOUND)),
        (&[insert(61)], 61, Err(UNSOUND)),
        (&[update(2), insert(61)], 2, Err(UNSOUND)),
        (&[insert(61), insert(2)], 2, Err(UNSOUND)),
        (&[insert(2), insert(61)], 2, present(0)),
        (&[update(2), insert(2)], 32, present(1)),
        (&[insert(61), update(0)], 2, range(1)),
        (&[insert(61)], 0, range(0)),
        (&[insert(61)], LAST_KEY + 1, range(0)),
    ];
    for image in damaged(&book, 1) {
        for (edits, key, wanted) in &rows {
            let list = encode(edits);
            assert_eq!(calls::preview(&image, &list, *key), *wanted, "{edits:?}");
            let value = calls::preview_value(&image, &list, *key);
            assert_eq!(value.err(), wanted.clone().err());
        }
    }
}

/// A transaction and a recovery judge the whole image, whichever leaves they need.
#[test]
fn bad_leaf_refuses_what_writes() {
    let book = book();
    for image in damaged(&book, 1) {
        let (mut work, mut tape) = (image.clone(), [0; 1000]);
        let edits = encode(&[update(2)]);
        let refused = calls::transaction(&image, &mut work, &mut tape, &edits);
        assert_eq!(refused, Err(UNSOUND));
        let refused = calls::recover(&image, &mut work, &mut tape);
        assert_eq!(refused, Err(UNSOUND));
    }
}
