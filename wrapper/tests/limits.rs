//! What the README ('Limits') and docs/USING.md ('When a store is full', 'To test
//! what a power failure leaves') say of limits, held to the store.

use cases::random::Random;
use quote_store::{calls, Edit, Refusal, Store, LINE};

const SEED: u64 = 20_241_116;

const DATA: [u8; 200] = [7; 200];

const PAGES_OUT: Refusal = Refusal::PagesOut { edit: 0 };

fn insert(key: u64, length: usize) -> Edit<'static> {
    let value = &DATA[..length];
    Edit::Insert { key, value }
}

fn update(key: u64, length: usize) -> Edit<'static> {
    let value = &DATA[..length];
    Edit::Update { key, value }
}

/// Inserts quotes with values of this length, one a transaction, until one is
/// refused.
fn fill(pages: usize, length: usize, mut keys: impl Iterator<Item = u64>) -> (Store, Refusal) {
    let mut store = Store::fresh(pages).unwrap();
    let refusal = keys.find_map(|key| store.apply(&[insert(key, length)]).err());
    (store, refusal.expect("a quote is refused"))
}

/// Keys with room for others between them.
fn rising() -> impl DoubleEndedIterator<Item = u64> {
    (1..=1000).map(|i| 1000 * i)
}

fn keys(store: &Store) -> Vec<u64> {
    store.iter().map(|(key, _)| key).collect()
}

/// A store as full as it gets: rising keys, then others between them wherever
/// one is accepted.
fn fullest(pages: usize, length: usize) -> Store {
    let (mut store, _) = fill(pages, length, rising());
    let first = keys(&store);
    for more in 1..=28 {
        for key in &first {
            let _ = store.apply(&[insert(key + more, length)]);
        }
    }
    let _ = store.take_tape();
    store
}

/// How many barriers are on a tape.
fn barriers(mut tape: &[u8]) -> usize {
    let mut times = 0;
    while let Some(kind) = tape.first() {
        times += usize::from(*kind == 4);
        tape = &tape[[0, 12, 68, 4, 4][*kind as usize]..];
    }
    times
}

/// One quote that its leaf has room for: six flushes are reached, by a record in five
/// lines, with two barriers. A delete that leaves the leaf a quote takes one and one; a
/// split takes more than six.
#[test]
fn flushes_and_barriers_of_one_quote() {
    let mut store = Store::fresh(8).unwrap();
    let mut cost = |edit| {
        let flushes = store.apply(&[edit]).unwrap().flushes;
        (flushes, barriers(&store.take_tape()))
    };
    assert_eq!(cost(insert(1, 32)), (2, 2));
    assert_eq!(cost(insert(2, 200)), (6, 2));
    assert_eq!(cost(Edit::Delete { key: 1 }), (1, 1));
    for key in 3..=5 {
        let (flushes, barriers) = cost(insert(key, 200));
        assert!(flushes <= 6 && barriers == 2);
    }
    assert!(cost(insert(6, 200)).0 > 6);
}

/// How many quotes fit: by rising keys, by falling keys, at most.
#[test]
fn quotes_that_fit() {
    let rows = [
        (8, 8, PAGES_OUT, [88, 84, 140]),
        (8, 16, PAGES_OUT, [88, 84, 140]),
        (8, 200, PAGES_OUT, [16, 12, 20]),
        (64, 8, PAGES_OUT, [868, 798, 1624]),
        (64, 16, PAGES_OUT, [868, 798, 1624]),
        (64, 200, PAGES_OUT, [172, 114, 232]),
    ];
    for (pages, length, refusal, fit) in rows {
        let (rises, up) = fill(pages, length, rising());
        let (falls, down) = fill(pages, length, rising().rev());
        assert_eq!((up, down), (refusal, refusal));
        let found = [rises, falls, fullest(pages, length)].map(|store| store.iter().count());
        assert_eq!(found, fit, "{pages} pages, values of {length} bytes");
    }
}

/// The same in random order, on average.
#[test]
fn quotes_that_fit_in_random_order() {
    println!("seed {SEED}");
    let mut random = Random::new(SEED);
    for (pages, length, about) in [(8, 16, 108), (8, 200, 15), (64, 16, 1134), (64, 200, 168)] {
        let tries = 100;
        let mut sum = 0;
        for _ in 0..tries {
            let any = std::iter::repeat_with(|| 1 + random.number() % 999_999_999_999);
            sum += fill(pages, length, any).0.iter().count();
        }
        let mean = sum as f64 / tries as f64;
        assert!((mean - about as f64).abs() < 0.05 * about as f64, "{mean}");
    }
}

/// "A full store refuses updates too", until a leaf is emptied.
#[test]
fn full_store_refuses_updates() {
    let (mut store, _) = fill(8, 8, rising());
    let quotes = keys(&store);
    let refusal = (0..10_000).find_map(|_| store.apply(&[update(1000, 8)]).err());
    assert_eq!(refusal, Some(PAGES_OUT));
    assert_eq!(keys(&store), quotes);
    // the second leaf has keys 16,000 to 30,000
    let deletes: Vec<Edit> = (16..=30).map(|i| Edit::Delete { key: 1000 * i }).collect();
    store.apply(&deletes).unwrap();
    store.apply(&[update(1000, 8)]).unwrap();
}

/// A store of so many leaves, each full to the last byte, and so many pages that are free:
/// two books merged.
fn merged_full(leaves: usize, free: usize) -> Store {
    let quotes = 5 * leaves as u64;
    let book = |from: u64| {
        let mut store = Store::fresh(64).unwrap();
        for key in (from..=quotes).step_by(2) {
            store.apply(&[insert(1000 * key, 176)]).unwrap();
        }
        store
    };
    let above = if leaves > 28 {
        2 + leaves.div_ceil(28)
    } else {
        2
    };
    Store::merge(&book(1), &book(2), leaves + above + free).unwrap()
}

/// How many of 100 shifts of k quotes, with values as long as the old ones, are
/// refused with 11 where every leaf is full to the last byte, so that each
/// update copies it, and so many pages are free: shifts of neighbours, or of one
/// quote a leaf.
fn refused_shifts(leaves: usize, free: usize, k: usize) -> usize {
    let mut store = merged_full(leaves, free);
    let keys = keys(&store);
    assert_eq!(keys.len(), 5 * leaves);
    let mut refused = 0;
    for turn in 0..100 {
        let step = [1, 5][turn % 2];
        let at = |i| keys[(7 * turn + step * i) % keys.len()];
        let edits: Vec<Edit> = (0..k).map(|i| update(at(i), 176)).collect();
        match store.apply(&edits) {
            Ok(_) => {}
            Err(Refusal::PagesOut { .. }) => refused += 1,
            Err(refusal) => panic!("{refusal}"),
        }
    }
    refused
}

/// "Two for updates of one quote a transaction, k + 2 for shifts of k quotes", where there
/// is no top page; and one page less is too few for one and for 16.
#[test]
fn pages_to_keep_free() {
    assert_eq!(refused_shifts(28, 2, 1), 0);
    for k in 2..=16 {
        assert_eq!(refused_shifts(28, k + 2, k), 0, "{k}");
    }
    assert!(refused_shifts(28, 1, 1) > 0);
    assert!(refused_shifts(28, 17, 16) > 0);
}

/// Under a top page of two index pages a shift may copy these and the top too: three for
/// one quote, k + 3 for k.
#[test]
fn pages_to_keep_free_under_a_top() {
    for k in 1..=16 {
        let least = (0..).find(|&free| refused_shifts(40, free, k) == 0);
        println!("{k} quotes: {least:?} pages free suffice");
        let enough = if k == 1 { 3 } else { k + 3 };
        assert!(least.unwrap() <= enough, "{k}: {least:?}");
    }
}

/// The first key of a leaf: 15 quotes a leaf, where they came by rising keys.
fn first_in_leaf(i: u64) -> u64 {
    1000 * (1 + 15 * i)
}

/// A delete in each of the first leaves.
fn deletes(leaves: u64) -> Vec<Edit<'static>> {
    let delete = |i| Edit::Delete {
        key: first_in_leaf(i),
    };
    (0..leaves).map(delete).collect()
}

/// 16 quotes in 16 leaves are refused with 12, 15 are not; so are deletes.
#[test]
fn fifteen_headers() {
    let (mut store, _) = fill(64, 8, rising());
    let updates: Vec<Edit> = (0..16).map(|i| update(first_in_leaf(i), 8)).collect();
    let deletes = deletes(16);
    for edits in [updates, deletes] {
        assert_eq!(store.apply(&edits), Err(Refusal::LogFull));
        store.apply(&edits[1..]).unwrap();
    }
}

/// "In two passes: where c quotes fit a leaf, the first pass takes c / 2 + 1 of
/// each c": the fullest store moves so, and by rising keys does not.
#[test]
fn moving_fills_leaves() {
    for (length, c) in [(16, 28), (24, 24), (50, 13), (100, 8), (200, 4)] {
        let from = fullest(32, length);
        let keys = keys(&from);
        assert_eq!(keys.len(), 28 * c);
        let (first, rest): (Vec<_>, Vec<_>) = (0..keys.len()).partition(|i| i % c < c / 2 + 1);
        let mut to = Store::fresh(40).unwrap();
        for some in first.chunks(15).chain(rest.chunks(15)) {
            let edits: Vec<Edit> = some.iter().map(|i| insert(keys[*i], length)).collect();
            to.apply(&edits).unwrap();
        }
        assert!(to.iter().eq(from.iter()));
        assert_eq!(fill(32, length, keys.into_iter()).1, PAGES_OUT);
    }
}

/// Makes the edits; whether all cuts of their tape are given.
fn has_all_cuts(store: &mut Store, edits: &[Edit]) -> bool {
    let before = store.image().to_vec();
    store.apply(edits).unwrap();
    calls::count_cuts(&before, &store.take_tape()).is_ok()
}

/// "One insert or update of a value of up to 32 bytes that its leaf has room for",
/// wherever its record comes to lie; one of up to 40 bytes only where that is one line;
/// "one delete"; none that goes through the log.
#[test]
fn transactions_with_all_cuts() {
    for length in 1..=56 {
        let mut store = Store::fresh(8).unwrap();
        let mut times = [0, 0];
        for key in 1..=8 {
            for edit in [insert(key, length), update(key, length)] {
                times[usize::from(has_all_cuts(&mut store, &[edit]))] += 1;
            }
        }
        match length {
            1..=32 => assert_eq!(times, [0, 16]),
            33..=40 => assert!(times[0] > 0 && times[1] > 0),
            _ => assert_eq!(times, [16, 0]),
        }
        assert!(has_all_cuts(&mut store, &[Edit::Delete { key: 1 }]));
    }
    for leaves in 1..=3 {
        let (mut store, _) = fill(64, 8, rising());
        let _ = store.take_tape();
        assert_eq!(has_all_cuts(&mut store, &deletes(leaves)), leaves == 1);
    }
}

/// "A recovery of up to three headers"; four, too, if the root stays.
#[test]
fn recoveries_with_all_cuts() {
    for leaves in 2..=6 {
        let (mut store, _) = fill(64, 8, rising());
        let _ = store.take_tape();
        let before = store.image().to_vec();
        store.apply(&deletes(leaves)).unwrap();
        let tape = store.take_tape();
        // The log, its flushes and their barrier; the mark, its flush and its barrier.
        let (c, mut device) = (2 * leaves as usize + 4, before.clone());
        let choices = vec![0; before.len() / LINE];
        calls::cut(&before, &mut device, &tape, c, &choices).unwrap();
        let redo = Store::open(&device).unwrap().take_tape();
        assert!(!redo.is_empty());
        assert_eq!(calls::count_cuts(&device, &redo).is_ok(), leaves <= 4);
    }
}
