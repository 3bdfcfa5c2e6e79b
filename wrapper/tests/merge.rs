//! Document 02 (i), "Two books into one": `Store::merge` and `calls::merge` against a
//! plain map; what is refused, in its order; and the merged store as any other, with
//! the power cut after every command.

mod images;

use cases::merges::{any_pair, pages_for, pair};
use cases::random::Random;
use images::empty_out;
use quote_store::{calls, Device, Edit, Refusal, Store, LINE, PAGE};
use std::collections::BTreeMap;

const SEED: u64 = 20_241_202;
const PAIRS: usize = 2_000;

const PAGES_OUT: Refusal = Refusal::PagesOut { edit: 0 };

fn insert(key: u64, value: &[u8]) -> Edit<'_> {
    Edit::Insert { key, value }
}

/// A store of so many pages with these keys, one a transaction, and a value of so many
/// bytes.
fn book(pages: usize, keys: impl IntoIterator<Item = u64>, length: usize) -> Store {
    let mut store = Store::fresh(pages).unwrap();
    for key in keys {
        store.apply(&[insert(key, &[7; 200][..length])]).unwrap();
    }
    let _ = store.take_tape();
    store
}

fn keys(store: &Store) -> Vec<u64> {
    store.iter().map(|(key, _)| key).collect()
}

/// The pages of the quotes, in order and each once.
fn pages(store: &Store) -> Vec<usize> {
    let place = |key| calls::lookup(store.image(), key).unwrap().unwrap();
    let page = |key| (place(key).start - 1) / PAGE;
    let mut pages: Vec<usize> = keys(store).into_iter().map(page).collect();
    pages.dedup();
    pages
}

/// What a merge says of two stores, by how many leaves their quotes fill, and what the
/// result then holds.
#[test]
fn merged_is_what_a_map_holds() {
    println!("seed {SEED}");
    let mut random = Random::new(SEED);
    let mut times: BTreeMap<u8, usize> = BTreeMap::new();
    for _ in 0..PAIRS {
        let pair = any_pair(&mut random);
        let open = |image: &Vec<u8>| Store::open(image).unwrap();
        let [first, second] = pair.images().each_ref().map(open);
        let mut map: BTreeMap<u64, &[u8]> = first.iter().collect();
        let in_both = second.iter().any(|(key, _)| map.contains_key(&key));
        map.extend(&second);
        let needed = pages_for(pair.leaves);
        for pages in [needed - 1, needed, 64, random.between(0, 70)] {
            let wanted = match pages {
                0..=7 | 65.. => Some(Refusal::ImageSize),
                _ if in_both => Some(Refusal::KeyInBoth),
                _ if pages < needed => Some(PAGES_OUT),
                _ => None,
            };
            let merged = Store::merge(&first, &second, pages);
            assert_eq!(merged.as_ref().err(), wanted.as_ref());
            let number = wanted.map_or(0, Refusal::number);
            *times.entry(number).or_default() += 1;
            if let Ok(mut merged) = merged {
                assert!(merged
                    .iter()
                    .eq(map.iter().map(|(key, value)| (*key, *value))));
                assert_eq!(merged.image().len(), pages * PAGE);
                assert!(merged.take_tape().is_empty());
            }
        }
    }
    println!("how often each answer came (0 is accepted): {times:?}");
    assert_eq!(times.keys().copied().collect::<Vec<u8>>(), [0, 1, 11, 20]);
    assert!(times.values().all(|times| *times > 100));
}

/// Leaves stand from page 2 on, each as full as can be, whatever the books' were.
#[test]
fn leaves_are_full() {
    let (odd, even) = ((1..=99).step_by(2), (2..=100).step_by(2));
    let [first, second] = [book(16, odd, 8), book(16, even, 8)];
    let merged = Store::merge(&first, &second, 8).unwrap();
    assert_eq!(keys(&merged), (1..=100).collect::<Vec<u64>>());
    // 28, 28, 28 and 16.
    assert_eq!(pages(&merged), [2, 3, 4, 5]);
    let place = |key| calls::lookup(merged.image(), key).unwrap().unwrap();
    // Records of 24 bytes from the page's end down, the value 16 bytes into each.
    assert_eq!(place(1), 2 * PAGE + 1016..2 * PAGE + 1024);
    assert_eq!(place(28), 2 * PAGE + 368..2 * PAGE + 376);
    assert_eq!(place(29), 3 * PAGE + 1016..3 * PAGE + 1024);
    assert_eq!(place(100), 5 * PAGE + 656..5 * PAGE + 664);
}

#[test]
fn nothing_merged_is_fresh() {
    for pages in [8, 30, 64] {
        let (first, second) = (Store::fresh(64).unwrap(), Store::fresh(8).unwrap());
        let merged = Store::merge(&first, &second, pages).unwrap();
        assert!(merged.image() == Store::fresh(pages).unwrap().image());
        // Also of a book that had quotes, which are still in its pages.
        let mut emptied = book(8, 1..=20, 8);
        for key in 1..=20 {
            emptied.apply(&[Edit::Delete { key }]).unwrap();
        }
        let merged = Store::merge(&emptied, &emptied, pages).unwrap();
        assert!(merged.image() == Store::fresh(pages).unwrap().image());
    }
}

/// "Stored ones work as before": an empty value from before document 02 (g).
#[test]
fn empty_values_are_taken() {
    let mut image = book(8, [101, 105], 6).image().to_vec();
    empty_out(&mut image, 105);
    let first = Store::open(&image).unwrap();
    let mut merged = Store::merge(&first, &book(8, [103], 6), 8).unwrap();
    assert_eq!(keys(&merged), [101, 103, 105]);
    assert_eq!(merged.get(105), Some(&b""[..]));
    let update = |value| Edit::Update { key: 105, value };
    let refused = merged.apply(&[update(b"")]);
    assert_eq!(refused, Err(Refusal::EmptyValue { edit: 0 }));
    merged.apply(&[update(b"9")]).unwrap();
}

/// Merges into a buffer between guards: the answer, and whether the buffer stayed. The
/// guards and the books always do.
fn merge_guarded(first: &[u8], second: &[u8], length: usize) -> (Result<(), Refusal>, bool) {
    let mut all = vec![0xa5; 100 + length + 100];
    let out = &mut all[100..100 + length];
    out.fill(77);
    let said = calls::merge(first, second, out);
    let stayed = out.iter().all(|byte| *byte == 77);
    let (before, after) = (&all[..100], &all[100 + length..]);
    assert!(before.iter().chain(after).all(|byte| *byte == 0xa5));
    (said, stayed)
}

fn is_refused(first: &[u8], second: &[u8], length: usize, refusal: Refusal) {
    let (said, stayed) = merge_guarded(first, second, length);
    assert_eq!(said, Err(refusal));
    assert!(stayed, "{refusal}: the buffer changed");
}

/// "1 for the third buffer, check's for the first image, check's for the second, 20 if a
/// key is in both, 10, then 11": each before all that come after it.
#[test]
fn refusals_come_in_their_order() {
    let good = book(8, 1..=5, 8).image().to_vec();
    let with = |at: usize, bytes: &[u8]| {
        let mut image = good.clone();
        image[at..at + bytes.len()].copy_from_slice(bytes);
        image
    };
    let page_zero = with(40, &[1]);
    let waiting = with(0, &[1, 1, 1]);
    let leaf = with(2 * PAGE, &[9]);
    let short = good[1..].to_vec();
    let bad = [
        (&short, Refusal::ImageSize),
        (&page_zero, Refusal::Unsound),
        (&waiting, Refusal::MarkWaits),
        (&leaf, Refusal::Unsound),
    ];
    for (first, refusal) in bad {
        is_refused(first, &good, 8 * PAGE, refusal);
        is_refused(&good, first, 8 * PAGE, refusal);
        for (second, _) in bad {
            is_refused(first, second, 8 * PAGE, refusal);
            for length in [0, 1, PAGE, 7 * PAGE, 8 * PAGE - 1, 8 * PAGE + 1, 65 * PAGE] {
                is_refused(first, second, length, Refusal::ImageSize);
            }
        }
    }
    is_refused(&good, &good, 8 * PAGE, Refusal::KeyInBoth);
    let (said, stayed) = merge_guarded(&good, book(16, [9], 8).image(), 30 * PAGE);
    assert!(said.is_ok() && !stayed);
}

/// Books of leaves of four, so that 7 leaves need 9 pages, 28 need 30, and 29, under a top
/// page, need 33.
#[test]
fn room_for_the_leaves() {
    let [first, second] = [book(16, 1..=14, 200), book(16, 101..=114, 200)];
    let [first, second] = [first.image(), second.image()];
    is_refused(first, second, 8 * PAGE, PAGES_OUT);
    assert_eq!(merge_guarded(first, second, 9 * PAGE), (Ok(()), false));

    let [first, second] = [book(64, 1..=57, 200), book(64, 101..=156, 200)];
    let one_less = book(64, 2..=57, 200);
    assert!(Store::merge(&one_less, &second, 30).is_ok());
    assert_eq!(Store::merge(&one_less, &second, 29).err(), Some(PAGES_OUT));
    assert!(Store::merge(&first, &second, 33).is_ok());
    for pages in [8, 30, 32] {
        is_refused(first.image(), second.image(), pages * PAGE, PAGES_OUT);
        // 20 comes before it.
        let both = book(64, 50..=106, 200);
        is_refused(
            first.image(),
            both.image(),
            pages * PAGE,
            Refusal::KeyInBoth,
        );
    }
}

/// The README: 1,652 quotes or 236 of 200 bytes on 64 pages (59 leaves), and on 8 168 and
/// 24 (6 leaves).
#[test]
fn as_many_quotes_as_there_can_be() {
    let rows = [(64, 16, 1652), (64, 200, 236), (8, 16, 168), (8, 200, 24)];
    for (pages, length, most) in rows {
        let halves = [(1..=most / 2), (most / 2 + 1..=most)];
        let [first, second] = halves.map(|keys| book(64, keys, length));
        let merged = Store::merge(&first, &second, pages).unwrap();
        assert_eq!(keys(&merged), (1..=most).collect::<Vec<u64>>());
        let one = book(8, [most + 1], length);
        assert_eq!(Store::merge(&merged, &one, pages).err(), Some(PAGES_OUT));
    }
}

/// A store that is full moves to a larger one by a merge with an empty one, and to the
/// smallest that holds it.
#[test]
fn moves_to_another_size() {
    let full = book(8, 1..=88, 16);
    let empty = Store::fresh(8).unwrap();
    // 88 quotes are 4 leaves.
    let mut large = Store::merge(&full, &empty, 16).unwrap();
    assert!(large.iter().eq(&full) && pages(&large).len() == 4);
    large.apply(&[insert(1000, b"99.50")]).unwrap();
    let small = Store::merge(&empty, &large, 8).unwrap();
    assert!(small.iter().eq(&large));
}

/// An insert into a full leaf splits it, so a store without free pages takes none;
/// updates of short values find room below the records.
#[test]
fn pages_to_spare() {
    let [first, second] = [book(16, 1..=84, 8), book(16, 201..=284, 8)];
    // Six leaves of 28.
    let mut tight = Store::merge(&first, &second, 8).unwrap();
    let update = Edit::Update {
        key: 50,
        value: &[8; 8],
    };
    tight.apply(&[update]).unwrap();
    assert_eq!(tight.apply(&[insert(500, b"99.50")]), Err(PAGES_OUT));
    let mut spare = Store::merge(&first, &second, 10).unwrap();
    spare.apply(&[insert(500, b"99.50")]).unwrap();
}

/// A merged store is for a device of the first book's kind.
#[test]
fn device_is_the_first_books() {
    let lines = book(8, [1], 8);
    let words = Store::open_on(Device::Words, book(8, [2], 8).image()).unwrap();
    for (first, second, stores) in [(&lines, &words, true), (&words, &lines, false)] {
        let mut merged = Store::merge(first, second, 8).unwrap();
        merged.apply(&[insert(3, b"99.50")]).unwrap();
        assert_eq!(has_line_store(&merged.take_tape()), stores);
    }
}

fn has_line_store(mut tape: &[u8]) -> bool {
    while let Some(kind) = tape.first() {
        if *kind == 2 {
            return true;
        }
        tape = &tape[[0, 12, 68, 4, 4][*kind as usize]..];
    }
    false
}

/// The store before the tape or after it, wherever the power fails in it.
fn cut_everywhere(kind: Device, before: &[u8], tape: &[u8], after: &Store, random: &mut Random) {
    let old = Store::open(before).unwrap();
    let (mut device, mut c, mut times) = (before.to_vec(), 0, [0, 0]);
    let mut choices = random.bytes(before.len() / LINE);
    while calls::cut(before, &mut device, tape, c, &choices).is_ok() {
        let found = Store::open_on(kind, &device).unwrap();
        let is_new = found.iter().eq(after);
        assert!(is_new || found.iter().eq(&old), "half a transaction");
        times[usize::from(is_new)] += 1;
        random.fill(&mut choices);
        c += 1;
    }
    assert!(times[0] > 0 && times[1] > 0);
}

/// Transactions on a merged store: cut after every command, each of them is whole or
/// not there.
#[test]
fn merged_store_goes_on() {
    println!("seed {SEED}");
    let mut random = Random::new(SEED);
    for kind in [Device::Lines, Device::Words] {
        for leaves in [1, 3, 6] {
            let mut pairs = std::iter::repeat_with(|| pair(&mut random, leaves));
            let apart = pairs.find(|pair| pair.in_both.is_none()).unwrap();
            let open = |image: &Vec<u8>| Store::open_on(kind, image).unwrap();
            let [first, second] = apart.images().each_ref().map(open);
            let merged = Store::merge(&first, &second, leaves + 12).unwrap();
            go_on(kind, merged, &mut random);
        }
    }
}

/// Each transaction updates three quotes, inserts one and deletes one.
fn go_on(kind: Device, mut store: Store, random: &mut Random) {
    for _ in 0..6 {
        let quotes = keys(&store);
        let before = store.image().to_vec();
        let new = (1..).find(|key| !quotes.contains(key)).unwrap();
        let mut edits = vec![insert(new, b"101.25")];
        for _ in 0..3 {
            let (key, value) = (random.pick(&quotes), &b"99.75"[..]);
            edits.push(Edit::Update { key, value });
        }
        let key = random.pick(&quotes);
        edits.push(Edit::Delete { key });
        store.apply(&edits).unwrap();
        let tape = store.take_tape();
        cut_everywhere(kind, &before, &tape, &store, random);
    }
}
