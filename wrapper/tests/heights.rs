//! Document 02 (j), "More than 28 leaves": a `Store` that grows past one index page, and
//! goes on under a top page.

use quote_store::{calls, CommitPlace, Device, Edit, Refusal, Store, LINE, PAGE};

/// The kinds of a root: an index page, or a top page.
const INDEX: u8 = 2;
const TOP: u8 = 3;

fn insert(key: u64) -> Edit<'static> {
    let value = b"price 01";
    Edit::Insert { key, value }
}

fn update(key: u64, value: &[u8]) -> Edit<'_> {
    Edit::Update { key, value }
}

/// The root page and its kind.
fn root(store: &Store) -> (usize, u8) {
    let page = store.image()[8] as usize;
    (page, store.image()[page * PAGE + 4])
}

/// The pages that a page above the leaves names.
fn names(image: &[u8], page: usize) -> Vec<usize> {
    let bytes = &image[page * PAGE..][..PAGE];
    let two = |at: usize| u16::from_le_bytes([bytes[at], bytes[at + 1]]) as usize;
    (0..two(0))
        .map(|slot| two(two(8 + 2 * slot) + 16))
        .collect()
}

/// A store of so many quotes, 1, 2, 3 and so on, of 64 pages. By rising keys, 28 leaves
/// hold 433, and the 434th needs a 29th.
fn grown(device: Device, quotes: u64) -> Store {
    let mut store = Store::fresh_on(device, 64).unwrap();
    for key in 1..=quotes {
        store.apply(&[insert(key)]).unwrap();
    }
    let _ = store.take_tape();
    store
}

fn keys(store: &Store) -> Vec<u64> {
    store.iter().map(|(key, _)| key).collect()
}

/// The 434th quote splits the index page in two under a new top page: the root word
/// commits. Whatever the power leaves of it, the quote is there or not, and the others
/// are.
#[test]
fn the_29th_leaf_makes_a_top() {
    for device in [Device::Lines, Device::Words] {
        let mut store = grown(device, 433);
        assert_eq!(root(&store).1, INDEX);
        assert_eq!(names(store.image(), root(&store).0).len(), 28);
        let before = store.image().to_vec();
        let commit = store.apply(&[insert(434)]).unwrap();
        assert_eq!(commit.place, CommitPlace::Root);
        assert_eq!(root(&store).1, TOP);
        let pages = names(store.image(), root(&store).0);
        let counts: Vec<usize> = (pages.iter())
            .map(|&page| names(store.image(), page).len())
            .collect();
        assert_eq!(counts, [15, 14]);
        let tape = store.take_tape();
        let (mut device_holds, mut c, mut there) = (before.clone(), 0, [0, 0]);
        for keep in [0, 1, 255] {
            let choices = vec![keep; before.len() / LINE];
            while calls::cut(&before, &mut device_holds, &tape, c, &choices).is_ok() {
                let found = Store::open_on(device, &device_holds).unwrap();
                let has = found.get(434).is_some();
                there[usize::from(has)] += 1;
                assert_eq!(keys(&found).len(), 433 + usize::from(has));
                c += 1;
            }
            c = 0;
        }
        assert!(there[0] > 0 && there[1] > 0);
    }
}

/// Every call on a store under a top page.
#[test]
fn as_any_other_store() {
    let mut store = grown(Device::Lines, 700);
    assert_eq!(root(&store).1, TOP);
    assert_eq!(keys(&store), (1..=700).collect::<Vec<u64>>());
    assert_eq!(store.next_key(350), Some(351));
    assert_eq!(store.next_key(700), None);
    assert_eq!(calls::check(store.image()), Ok(()));
    // A curve is shifted: looked at before it is sent, then all of it or nothing.
    let shift: Vec<Edit> = (0..15).map(|i| update(1 + 45 * i, b"price 02")).collect();
    assert_eq!(store.preview(&shift, 46), Ok(Some(&b"price 02"[..])));
    assert_eq!(store.preview(&shift, 47), Ok(Some(&b"price 01"[..])));
    assert_eq!(store.preview(&shift, 701), Ok(None));
    let commit = store.apply(&shift).unwrap();
    assert_eq!(commit.place, CommitPlace::Log);
    assert_eq!(store.get(46), Some(&b"price 02"[..]));
    // One quote more would be a 16th header.
    let more = [&shift[..], &[update(699, b"price 02")]].concat();
    assert_eq!(store.apply(&more), Err(Refusal::LogFull));
    // One quote commits by its leaf's header.
    let commit = store.apply(&[update(2, b"price 03")]).unwrap();
    assert!(matches!(commit.place, CommitPlace::Header { .. }));
    assert_eq!(commit.flushes, 2);
}

/// "A top page stays": the store is emptied, and filled again.
#[test]
fn emptied_and_filled_again() {
    let mut store = grown(Device::Lines, 500);
    for key in (1..=500).rev() {
        store.apply(&[Edit::Delete { key }]).unwrap();
    }
    assert_eq!(root(&store).1, TOP);
    assert_eq!(store.iter().count(), 0);
    assert_eq!(calls::check(store.image()), Ok(()));
    for key in 1..=500 {
        store.apply(&[insert(key)]).unwrap();
    }
    assert_eq!(keys(&store), (1..=500).collect::<Vec<u64>>());
}

/// A damaged index page blanks the quotes under it alone.
#[test]
fn a_damaged_index_page() {
    let store = grown(Device::Lines, 600);
    let pages = names(store.image(), root(&store).0);
    let mut image = store.image().to_vec();
    image[pages[1] * PAGE] += 1; // it counts a record too many
    assert_eq!(calls::check(&image), Err(Refusal::Unsound));
    let found = |key| calls::lookup(&image, key).is_ok();
    let split = (1..=600).find(|&key| !found(key)).unwrap();
    assert!(split > 100 && (1..split).all(found));
    assert!((split..=600).all(|key| !found(key) || key > split) && !found(split));
    assert_eq!(calls::next_key(&image, split - 2), Ok(Some(split - 1)));
    assert_eq!(calls::next_key(&image, split - 1), Err(Refusal::Unsound));
}

/// Two books of more than 28 leaves together make a store under a top page, and such a
/// store is a book again.
#[test]
fn merged_under_a_top() {
    let mut other = Store::fresh(64).unwrap();
    for key in 1001..=1300 {
        other.apply(&[insert(key)]).unwrap();
    }
    let first = grown(Device::Lines, 600);
    // 900 quotes are 33 leaves: with page 0, the top and two index pages 37 pages.
    let mut both = Store::merge(&first, &other, 37).unwrap();
    assert_eq!(root(&both), (1, TOP));
    assert_eq!(names(both.image(), 1), [2, 3]);
    assert!(both.iter().eq(first.iter().chain(&other)));
    let short = Store::merge(&first, &other, 36);
    assert_eq!(short.err(), Some(Refusal::PagesOut { edit: 0 }));
    // Without quotes to add it moves to another size.
    let large = Store::merge(&both, &Store::fresh(8).unwrap(), 64).unwrap();
    assert!(large.iter().eq(&both));
    both.apply(&[Edit::Delete { key: 1 }]).unwrap();
    assert_eq!(both.iter().count(), 899);
}
