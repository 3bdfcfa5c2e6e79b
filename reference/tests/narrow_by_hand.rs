//! Document 02 (b), worked out by hand on a store of two leaves, one of them
//! bad: lookup, next key and preview, by the reference and the proved library.

mod both;

use both::Both;
use reference::edits::{Edit, Kind};
use reference::image::format;
use reference::page::LAST_KEY;
use reference::preview::Preview;
use reference::transaction::transaction;
use reference::Refusal;

/// Pages of the two leaves.
const LEFT: usize = 7;
const RIGHT: usize = 6;

/// A fresh store of 8 pages after inserts of 1 to 29, each with 8 bytes. As
/// worked on paper, the last splits the leaf: 1 to 15 are on page 7, from the
/// end down, 16 to 29 on page 6, and the separators are 0 and 16.
fn two_leaves() -> Vec<u8> {
    let mut image = vec![0; 8 * 1024];
    format(&mut image).unwrap();
    for key in 1..=29 {
        let mut work = image.clone();
        let list = insert(key);
        transaction(&image, &mut work, &mut [0; 4096], &list).unwrap();
        image = work;
    }
    image
}

/// The store with another kind of page in place of this leaf.
fn with_bad(page: usize) -> Vec<u8> {
    let mut image = two_leaves();
    assert_eq!(image[page * 1024 + 4], 1, "the page is a leaf");
    image[page * 1024 + 4] = 2;
    image
}

fn edit(kind: Kind, key: u64, value: &[u8]) -> Vec<u8> {
    let value = value.to_vec();
    Edit { kind, key, value }.encode()
}

fn insert(key: u64) -> Vec<u8> {
    edit(Kind::Insert, key, b"8 bytes.")
}

fn update(key: u64) -> Vec<u8> {
    edit(Kind::Update, key, b"new")
}

fn delete(key: u64) -> Vec<u8> {
    edit(Kind::Delete, key, b"")
}

fn empty(key: u64) -> Vec<u8> {
    edit(Kind::Update, key, b"")
}

fn refused<T>(number: u8, edit: usize) -> Result<T, Refusal> {
    Err(Refusal { number, edit })
}

#[test]
fn lookups() {
    let right_bad = with_bad(RIGHT);
    let mut both = Both::new(&right_bad);
    assert_eq!(both.lookup(1), Ok(Some((7 * 1024 + 1016, 8))));
    assert_eq!(both.lookup(15), Ok(Some((7 * 1024 + 680, 8))));
    assert_eq!(both.value(15), b"8 bytes.");
    assert_eq!(both.lookup(0), refused(6, 0));
    for key in [16, 29, 30, LAST_KEY, LAST_KEY + 1, u64::MAX] {
        assert_eq!(both.lookup(key), refused(4, 0), "{key}");
        assert_eq!(both.value(key), b"", "{key}");
    }
    let left_bad = with_bad(LEFT);
    let mut both = Both::new(&left_bad);
    for key in [0, 1, 15] {
        assert_eq!(both.lookup(key), refused(4, 0), "{key}");
    }
    assert_eq!(both.lookup(16), Ok(Some((6 * 1024 + 1016, 8))));
    assert_eq!(both.lookup(30), Ok(None));
    assert_eq!(both.lookup(LAST_KEY + 1), refused(6, 0));
}

#[test]
fn next_keys() {
    let right_bad = with_bad(RIGHT);
    let mut both = Both::new(&right_bad);
    assert_eq!(both.next_key(0), Ok(Some(1)));
    assert_eq!(both.next_key(14), Ok(Some(15)));
    // The leaf after is needed.
    assert_eq!(both.next_key(15), refused(4, 0));
    assert_eq!(both.next_key(16), refused(4, 0));
    assert_eq!(both.next_key(u64::MAX), refused(4, 0));
    let left_bad = with_bad(LEFT);
    let mut both = Both::new(&left_bad);
    assert_eq!(both.next_key(0), refused(4, 0));
    // The leaf after would do.
    assert_eq!(both.next_key(15), refused(4, 0));
    assert_eq!(both.next_key(16), Ok(Some(17)));
    assert_eq!(both.next_key(29), Ok(None));
    assert_eq!(both.next_key(u64::MAX), Ok(None));
}

/// An edit list, the key asked, and the answer.
type Row = (Vec<Vec<u8>>, u64, Result<Preview, Refusal>);

/// With the leaf of 16 and above bad.
fn rows() -> Vec<Row> {
    let in_list = |offset, length| Ok(Preview::InList { offset, length });
    let in_image = |offset, length| Ok(Preview::InImage { offset, length });
    vec![
        // No edit needs the bad leaf, and the key asked does not either.
        (vec![update(1)], 1, in_list(10, 3)),
        (vec![update(1)], 2, in_image(7 * 1024 + 992, 8)),
        (vec![delete(1)], 1, Ok(Preview::Missing)),
        (vec![delete(15), insert(15)], 15, in_list(20, 8)),
        // 4 last of all, for the key asked.
        (vec![update(1)], 16, refused(4, 0)),
        (vec![update(1)], 30, refused(4, 0)),
        // Every edit needs its leaf, also an insert, and also where 8 or 9
        // would follow. The 4 names no edit.
        (vec![update(16)], 1, refused(4, 0)),
        (vec![insert(30)], 1, refused(4, 0)),
        (vec![update(1), insert(30)], 30, refused(4, 0)),
        (vec![update(1), insert(16)], 1, refused(4, 0)),
        (vec![update(1), delete(99)], 1, refused(4, 0)),
        // A position in the order: before a later edit's 8 or 9, after an
        // earlier one's.
        (vec![update(1), update(16), insert(1)], 1, refused(4, 0)),
        (vec![update(16), delete(1), delete(1)], 1, refused(4, 0)),
        (vec![update(1), insert(1), update(16)], 1, refused(8, 1)),
        (vec![delete(1), delete(1), update(16)], 1, refused(9, 1)),
        (vec![delete(1), update(1)], 16, refused(9, 1)),
        // The list's, and 6 for the key asked, come before any leaf's 4.
        (vec![update(16), insert(0)], 1, refused(6, 1)),
        (vec![update(16), vec![1]], 1, refused(5, 1)),
        (vec![update(16), empty(1)], 1, refused(19, 1)),
        (vec![update(16)], 0, refused(6, 0)),
        (vec![update(16)], LAST_KEY + 1, refused(6, 0)),
    ]
}

#[test]
fn previews() {
    let image = with_bad(RIGHT);
    let mut both = Both::new(&image);
    for (i, (edits, key, wanted)) in rows().into_iter().enumerate() {
        let answer = both.preview(&edits.concat(), key, 4);
        assert_eq!(answer, wanted, "row {i}");
    }
}

/// The index alone, and page 0 alone, refuse every call; a transaction and
/// check still judge the whole image.
#[test]
fn what_every_call_reads() {
    let mut image = two_leaves();
    assert_eq!(image[8], 1, "the root");
    image[1024 + 4] = 1;
    let mut both = Both::new(&image);
    assert_eq!(both.lookup(1), refused(4, 0));
    assert_eq!(both.next_key(1), refused(4, 0));
    assert_eq!(both.preview(&update(1), 1, 4), refused(4, 0));
    // A mark that waits comes before what the index shows.
    image[..8].copy_from_slice(&[1, 1, 1, 0, 0, 0, 0, 0]);
    let mut both = Both::new(&image);
    assert_eq!(both.lookup(0), refused(3, 0));
    assert_eq!(both.next_key(0), refused(3, 0));
    assert_eq!(both.preview(&[], 0, 4), refused(3, 0));
    let image = with_bad(RIGHT);
    assert_eq!(Both::new(&image).check(), refused(4, 0));
    let (mut work, mut tape) = (image.clone(), vec![0; 4096]);
    let sent = transaction(&image, &mut work, &mut tape, &update(1));
    assert_eq!(sent, refused(4, 0));
    let (mut list, mut lent) = (update(1), image.clone());
    let given = proved::transaction(&mut lent, &mut work, &mut tape, &mut list, &mut []);
    assert_eq!(given, 4);
}
