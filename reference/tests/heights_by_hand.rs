//! Document 02 (j), "More than 28 leaves", worked out by hand: stores put down record by
//! record, and what one edit makes of their pages. Each call is made by the reference
//! and by the proved library.

mod both;
mod writes;

use both::Both;
use cases::random::Random;
use reference::device::Device;
use reference::edits::Kind;
use reference::image::table;
use reference::preview::Preview;
use reference::tape::CommitPlace;
use reference::Refusal;
use writes::by_hand::edit;
use writes::{compare_transaction, Call};

const LEAF: u8 = 1;
const INDEX: u8 = 2;
const TOP: u8 = 3;

/// A page as it is put down or wanted: its number and kind, its records, and where its
/// content starts. The records lie from the end down in their order.
#[derive(Clone)]
struct Page {
    number: usize,
    kind: u8,
    /// Key and value of each; of a page above the leaves separator and page.
    records: Vec<(u64, Vec<u8>)>,
    /// How far below the last record the content starts.
    gap: usize,
}

/// A leaf with these keys, each with a value of eight 7s.
fn leaf(number: usize, keys: impl IntoIterator<Item = u64>) -> Page {
    let record = |key| (key, vec![7; 8]);
    Page {
        number,
        kind: LEAF,
        records: keys.into_iter().map(record).collect(),
        gap: 0,
    }
}

/// A page above the leaves, with these separators and pages.
fn above(number: usize, kind: u8, names: impl IntoIterator<Item = (u64, usize)>) -> Page {
    let record = |(separator, page): (u64, usize)| (separator, vec![page as u8, 0]);
    Page {
        number,
        kind,
        records: names.into_iter().map(record).collect(),
        gap: 0,
    }
}

impl Page {
    /// The content starts at 64, so that no record more fits.
    fn without_room(self) -> Page {
        let used: usize = 24 * self.records.len();
        let gap = 960 - used;
        Page { gap, ..self }
    }
}

/// An image of so many pages with this root and these pages, and noise elsewhere.
fn image_of(pages: usize, root: usize, listed: &[Page]) -> Vec<u8> {
    let mut image = Random::new(7).bytes(1024 * pages);
    image[..64].fill(0);
    image[8] = root as u8;
    image[16] = pages as u8;
    image[18] = 1;
    for page in listed {
        put_down(&mut image[1024 * page.number..][..1024], page);
    }
    assert_eq!(Both::new(&image).check(), Ok(()));
    image
}

/// Every record here takes 24 bytes.
fn put_down(bytes: &mut [u8], page: &Page) {
    bytes[..64].fill(0);
    let (count, start) = (
        page.records.len(),
        1024 - 24 * page.records.len() - page.gap,
    );
    bytes[0] = count as u8;
    bytes[2..4].copy_from_slice(&(start as u16).to_le_bytes());
    bytes[4] = page.kind;
    bytes[6] = page.number as u8;
    for (slot, (key, value)) in page.records.iter().enumerate() {
        let offset = 1000 - 24 * slot;
        bytes[8 + 2 * slot..][..2].copy_from_slice(&(offset as u16).to_le_bytes());
        let record = &mut bytes[offset..offset + 24];
        record.fill(0);
        record[..8].copy_from_slice(&key.to_le_bytes());
        record[8] = value.len() as u8;
        record[16..16 + value.len()].copy_from_slice(value);
    }
}

/// What a page lists: kind, content start, and each record's key, offset and, of a page
/// above the leaves, the page that it names.
type Listed = (u8, usize, Vec<(u64, usize, usize)>);

fn listed(image: &[u8], page: usize) -> Listed {
    let bytes = &image[1024 * page..][..1024];
    let two = |at: usize| u16::from_le_bytes([bytes[at], bytes[at + 1]]) as usize;
    assert_eq!(two(6), page, "own number");
    let record = |slot| {
        let offset = two(8 + 2 * slot);
        let key = u64::from_le_bytes(bytes[offset..][..8].try_into().unwrap());
        let named = if bytes[4] == LEAF {
            0
        } else {
            two(offset + 16)
        };
        (key, offset, named)
    };
    (bytes[4], two(2), (0..two(0)).map(record).collect())
}

/// Separators and pages alone.
fn names(image: &[u8], page: usize) -> Vec<(u64, usize)> {
    let (kind, _, records) = listed(image, page);
    assert_ne!(kind, LEAF);
    records
        .iter()
        .map(|&(key, _, named)| (key, named))
        .collect()
}

fn keys(image: &[u8], page: usize) -> Vec<u64> {
    let (kind, _, records) = listed(image, page);
    assert_eq!(kind, LEAF);
    records.iter().map(|&(key, ..)| key).collect()
}

fn root(image: &[u8]) -> usize {
    image[8] as usize
}

/// One edit by both, on either device: work and the line-store device's commit place; or
/// the refusal.
fn send(image: &[u8], edits: Vec<u8>) -> Result<(Vec<u8>, CommitPlace), (u8, u64)> {
    let call = Call::new(&mut Random::new(1), image, edits);
    let (number, after) = compare_transaction(Device::Lines, 0, &call);
    let (by_words, words) = compare_transaction(Device::Words, 1, &call);
    assert_eq!(number, by_words);
    if number != 0 {
        return Err((number, after.answer[0]));
    }
    assert!(words.work[1024..] == after.work[1024..]);
    assert_eq!(Both::new(&after.work).check(), Ok(()));
    let place = match after.answer[1..3] {
        [1, page] => CommitPlace::Header {
            page: page as usize,
        },
        [2, _] => CommitPlace::Root,
        _ => CommitPlace::Log,
    };
    Ok((after.work, place))
}

fn insert(key: u64) -> Vec<u8> {
    edit(Kind::Insert, key, 8)
}

fn delete(key: u64) -> Vec<u8> {
    edit(Kind::Delete, key, 0)
}

/// The pages of the new image that differ from the old one's, past page 0.
fn changed(before: &[u8], after: &[u8]) -> Vec<usize> {
    let differs = |&page: &usize| before[1024 * page..][..1024] != after[1024 * page..][..1024];
    (1..before.len() / 1024).filter(differs).collect()
}

/// 28 leaves of two keys, 100 and 101 in the first, 200 and 201 in the second and so on,
/// on pages 2 to 29, named by the index on page 1. The one of 300 is full: 300 to 327.
fn twenty_eight(pages: usize, room: bool) -> Vec<u8> {
    let mut listed: Vec<Page> = (1..=28)
        .map(|i| {
            leaf(
                1 + i as usize,
                100 * i..100 * i + if i == 3 { 28 } else { 2 },
            )
        })
        .collect();
    let names = (1..=28).map(|i| (if i == 1 { 0 } else { 100 * i }, 1 + i as usize));
    let index = above(1, INDEX, names);
    listed.push(if room { index } else { index.without_room() });
    image_of(pages, 1, &listed)
}

/// "A root index that would hold a 29th record is split by the leaf rule into two new
/// index pages under a new kind 3 root." The left leaf's record fits in place, so that no
/// copy is forced: leaves on 39 and 38, index pages on 37 and 36, the top on 35.
#[test]
fn a_root_index_splits() {
    let image = twenty_eight(40, true);
    let (work, place) = send(&image, insert(350)).unwrap();
    assert_eq!(place, CommitPlace::Root);
    assert_eq!(changed(&image, &work), [35, 36, 37, 38, 39]);
    assert_eq!(root(&work), 35);
    assert_eq!(keys(&work, 39), (300..315).collect::<Vec<u64>>());
    let right: Vec<u64> = (315..328).chain([350]).collect();
    assert_eq!(keys(&work, 38), right);
    // 29 records of 24 bytes: 15 left, 14 right.
    let mut all: Vec<(u64, usize)> = (1..=28).map(|i| (100 * i, 1 + i as usize)).collect();
    all[0].0 = 0;
    all.splice(2..3, [(300, 39), (315, 38)]);
    assert_eq!(names(&work, 37), all[..15]);
    assert_eq!(names(&work, 36), all[15..]);
    assert_eq!(listed(&work, 37).1, 1024 - 15 * 24);
    // "The new top's first separator is 0; the right one is the right index page's first
    // separator."
    let top = (TOP, 976, vec![(0, 1000, 37), (1500, 976, 36)]);
    assert_eq!(listed(&work, 35), top);
    // "A new page is filled in key order from the end down; its bytes from 64 to start
    // stay."
    assert!(work[35 * 1024 + 64..][..912] == image[35 * 1024 + 64..][..912]);
    assert_eq!(table(&work).unwrap().len(), 28 * 2 + 27);
}

/// Without room for the left leaf's record the index page is copied, to page 37, which is
/// full and splits: "the copy's page counts as taken, before those of the split". The copy
/// is not reached at the end, so page 37 keeps its bytes.
#[test]
fn a_root_index_is_copied_and_splits() {
    let image = twenty_eight(40, false);
    let (work, place) = send(&image, insert(350)).unwrap();
    assert_eq!(place, CommitPlace::Root);
    assert_eq!(changed(&image, &work), [34, 35, 36, 38, 39]);
    assert_eq!(root(&work), 34);
    assert_eq!(names(&work, 34), [(0, 36), (1500, 35)]);
    assert_eq!(
        names(&work, 36)[..4],
        [(0, 2), (200, 3), (300, 39), (315, 38)]
    );
    assert_eq!(names(&work, 36).len(), 15);
    assert_eq!(names(&work, 35).len(), 14);
}

/// 11 by one page: five are needed, or six with the copy. 30 pages hold the store.
#[test]
fn one_page_short_of_a_split() {
    for (free, room, wanted) in [
        (4, true, Err((11, 0))),
        (5, true, Ok(30)),
        (5, false, Err((11, 0))),
        (6, false, Ok(30)),
    ] {
        let answer = send(&twenty_eight(30 + free, room), insert(350));
        assert_eq!(answer.map(|(work, _)| root(&work)), wanted);
    }
}

/// A leaf that is only copied needs no split: its index page has no 29th record.
#[test]
fn a_copy_under_a_full_index() {
    let mut image = twenty_eight(40, true);
    image[2 * 1024 + 2..][..2].copy_from_slice(&[64, 0]);
    let (work, place) = send(&image, edit(Kind::Update, 100, 8)).unwrap();
    assert_eq!(place, CommitPlace::Header { page: 1 });
    assert_eq!(changed(&image, &work), [1, 39]);
    assert_eq!(names(&work, 1)[..2], [(0, 39), (200, 3)]);
}

/// A top on page 1 over index pages on 2 and 3, each with two leaves of two keys. The
/// separators are below the leaves' keys, but for the first of each index page: the one of
/// 0 is 50, whose leaf has 10 and 60, and that of the second page 350, whose leaf has 310
/// and 360, while the page's own in the top is 300.
fn two_pages() -> Vec<Page> {
    vec![
        above(1, TOP, [(20, 2), (300, 3)]),
        above(2, INDEX, [(50, 4), (200, 5)]),
        above(3, INDEX, [(350, 6), (400, 7)]),
        leaf(4, [10, 60]),
        leaf(5, [210, 220]),
        leaf(6, [310, 360]),
        leaf(7, [410, 420]),
    ]
}

/// The same with a leaf that takes no record more.
fn two_pages_without_room(pages: usize, full: usize) -> Vec<u8> {
    let mut listed = two_pages();
    listed[full - 1] = listed[full - 1].clone().without_room();
    image_of(pages, 1, &listed)
}

/// "The first leaf of any index page may hold keys below its own separator but not below
/// that page's, the first index page excepted."
#[test]
fn keys_below_their_own_separator() {
    let image = image_of(12, 1, &two_pages());
    let mut both = Both::new(&image);
    for key in [10, 60, 210, 220, 310, 360, 410, 420] {
        assert!(both.lookup(key).unwrap().is_some(), "{key}");
    }
    assert_eq!(both.lookup(310), Ok(Some((6 * 1024 + 1016, 8))));
    for key in [1, 9, 299, 300, 309, 349, 350] {
        assert_eq!(both.lookup(key), Ok(None), "{key}");
    }
    for (number, next) in [
        (0, 10),
        (220, 310),
        (299, 310),
        (300, 310),
        (360, 410),
        (380, 410),
    ] {
        assert_eq!(both.next_key(number), Ok(Some(next)), "{number}");
    }
    assert_eq!(both.next_key(420), Ok(None));
    // 299 in the leaf of 310 is below the page's separator, and 300 in the leaf before it
    // is not below it.
    for (page, slot, key) in [(6, 0, 299u64), (5, 1, 300), (5, 1, 301)] {
        let mut image = image.clone();
        image[page * 1024 + 1000 - 24 * slot..][..8].copy_from_slice(&key.to_le_bytes());
        assert_eq!(Both::new(&image).check(), refused(4));
    }
    let mut good = image.clone();
    good[6 * 1024 + 1000..][..8].copy_from_slice(&300u64.to_le_bytes());
    assert_eq!(Both::new(&good).check(), Ok(()));
}

/// An index page's separators keep the bounds of a leaf's keys: those of the second page
/// are not below 300, those of the first below 300, and may be below its own, 20.
#[test]
fn separators_within_bounds() {
    for (page, slot, separator, sound) in [
        (3, 0, 300u64, true),
        (3, 0, 299, false),
        (3, 0, 399, true),
        (2, 0, 0, true),
        (2, 0, 19, true),
        (2, 1, 299, false), // the leaf's keys are below it then
        (2, 1, 201, true),
        (2, 1, 300, false),
    ] {
        let mut image = image_of(12, 1, &two_pages());
        image[page * 1024 + 1000 - 24 * slot..][..8].copy_from_slice(&separator.to_le_bytes());
        let wanted = if sound { Ok(()) } else { refused(4) };
        assert_eq!(
            Both::new(&image).check(),
            wanted,
            "{page} {slot} {separator}"
        );
    }
}

fn refused<T>(number: u8) -> Result<T, Refusal> {
    Err(Refusal { number, edit: 0 })
}

/// "When such a leaf is copied or split, its left record takes that page's separator, or 0
/// in the first." Of others it keeps its own.
#[test]
fn separators_of_copied_leaves() {
    for (full, key, index, slot, separator) in [
        (4, 10, 2, 0, 0),
        (5, 210, 2, 1, 200),
        (6, 310, 3, 0, 300),
        (7, 410, 3, 1, 400),
    ] {
        let image = two_pages_without_room(12, full);
        let (work, place) = send(&image, edit(Kind::Update, key, 8)).unwrap();
        assert_eq!(place, CommitPlace::Header { page: index });
        assert_eq!(changed(&image, &work), [index, 11]);
        assert_eq!(names(&work, index)[slot], (separator, 11));
        assert_eq!(names(&work, 1), [(20, 2), (300, 3)]);
    }
}

/// The leaf of 310 with 28 keys, 310 to 337: a 29th splits it. The left record takes 300,
/// the page's separator in the top; the right one its smallest key.
#[test]
fn the_first_leaf_of_a_later_page_splits() {
    let mut listed = two_pages();
    listed[5] = leaf(6, 310..338);
    let image = image_of(12, 1, &listed);
    let (work, place) = send(&image, insert(301)).unwrap();
    assert_eq!(place, CommitPlace::Header { page: 3 });
    assert_eq!(names(&work, 3), [(300, 11), (324, 10), (400, 7)]);
    assert_eq!(keys(&work, 11)[..2], [301, 310]);
    // In the first index page it takes 0.
    let mut listed = two_pages();
    listed[3] = leaf(4, 10..38);
    let image = image_of(12, 1, &listed);
    let (work, _) = send(&image, insert(5)).unwrap();
    assert_eq!(names(&work, 2), [(0, 11), (24, 10), (200, 5)]);
    assert_eq!(names(&work, 1), [(20, 2), (300, 3)]);
}

/// "Lower index pages .. copy likewise": the copied index page's record in the top keeps
/// its separator, or takes 0 if first. A full top is copied, which changes the root.
#[test]
fn lower_index_pages_are_copied() {
    for (full, key, index, top) in [
        (5, 210, 2, [(0, 10), (300, 3)]),
        (7, 410, 3, [(20, 2), (300, 10)]),
    ] {
        let mut listed = two_pages();
        listed[full - 1] = listed[full - 1].clone().without_room();
        listed[index - 1] = listed[index - 1].clone().without_room();
        let image = image_of(12, 1, &listed);
        let (work, place) = send(&image, edit(Kind::Update, key, 8)).unwrap();
        assert_eq!(place, CommitPlace::Header { page: 1 });
        assert_eq!(changed(&image, &work), [1, 10, 11]);
        assert_eq!(names(&work, 1), top);
        // The top has no room either: leaf, index page, top.
        listed[0] = listed[0].clone().without_room();
        let image = image_of(12, 1, &listed);
        let (work, place) = send(&image, edit(Kind::Update, key, 8)).unwrap();
        assert_eq!(place, CommitPlace::Root);
        assert_eq!(changed(&image, &work), [9, 10, 11]);
        assert_eq!((root(&work), names(&work, 9)), (9, top.to_vec()));
        // Three pages or 11.
        let short = image_of(10, 1, &listed);
        assert_eq!(send(&short, edit(Kind::Update, key, 8)), Err((11, 0)));
        let enough = image_of(11, 1, &listed);
        assert!(send(&enough, edit(Kind::Update, key, 8)).is_ok());
    }
}

/// A second index page with 28 leaves, on pages 4 to 31, of two keys each from 1,000 on,
/// the one of 1,300 full; the first index page has the leaf of 10 on page 32. The top is
/// on page 1.
fn full_second_page(pages: usize, room: [bool; 2]) -> Vec<u8> {
    let mut listed: Vec<Page> = (0..28)
        .map(|i| (4 + i as usize, 1000 + 100 * i))
        .map(|(page, key)| leaf(page, key..key + if key == 1300 { 28 } else { 2 }))
        .collect();
    let mut top = above(1, TOP, [(0, 2), (900, 3)]);
    let mut second = above(3, INDEX, (0..28).map(|i| (1000 + 100 * i, 4 + i as usize)));
    if !room[0] {
        top = top.without_room();
    }
    if !room[1] {
        second = second.without_room();
    }
    listed.extend([top, above(2, INDEX, [(0, 32)]), second, leaf(32, [10, 20])]);
    image_of(pages, 1, &listed)
}

/// "Lower index pages split .. likewise. .. The top takes its new records after the index
/// page has all of its own." Leaves 63 and 62, index pages 61 and 60; with the forced copy,
/// on 61, 60 and 59; then the top's copy.
#[test]
fn a_lower_index_page_splits() {
    let leaves = [(1300, 63), (1315, 62)];
    for (room, root_page, index_pages, pages_changed) in [
        ([true, true], 1, [61, 60], &[1, 60, 61, 62, 63][..]),
        ([true, false], 1, [60, 59], &[1, 59, 60, 62, 63]),
        ([false, true], 59, [61, 60], &[59, 60, 61, 62, 63]),
        ([false, false], 58, [60, 59], &[58, 59, 60, 62, 63]),
    ] {
        let image = full_second_page(64, room);
        let (work, place) = send(&image, insert(1350)).unwrap();
        let wanted = match root_page {
            1 => CommitPlace::Header { page: 1 },
            _ => CommitPlace::Root,
        };
        assert_eq!(place, wanted, "{room:?}");
        assert_eq!(changed(&image, &work), pages_changed, "{room:?}");
        assert_eq!(root(&work), root_page);
        // The left one keeps the separator of the page, 900; the right one takes its
        // first: the 16th of 29 records.
        let [left, right] = index_pages;
        assert_eq!(
            names(&work, root_page),
            [(0, 2), (900, left), (2400, right)]
        );
        assert_eq!(names(&work, left).len(), 15);
        assert_eq!(names(&work, left)[3..5], leaves);
        assert_eq!(names(&work, left)[0], (1000, 4));
        assert_eq!(names(&work, right).len(), 14);
        assert_eq!(names(&work, right)[0], (2400, 18));
    }
}

/// The same one page short and with as many as are needed: 33 pages hold the store.
#[test]
fn one_page_short_of_a_lower_split() {
    for (room, needed) in [
        ([true, true], 4),
        ([true, false], 5),
        ([false, true], 5),
        ([false, false], 6),
    ] {
        let short = full_second_page(32 + needed, room);
        assert_eq!(send(&short, insert(1350)), Err((11, 0)), "{room:?}");
        let enough = full_second_page(33 + needed, room);
        assert!(send(&enough, insert(1350)).is_ok(), "{room:?}");
    }
}

/// "The top takes its left record as an update and its right one as an insert, one after
/// the other, each by the whole rule": with room for one record alone, the left one is
/// written in place and the right one makes the copy.
#[test]
fn the_top_has_room_for_one_record() {
    let mut image = full_second_page(64, [true, true]);
    image[1024 + 2..][..2].copy_from_slice(&[88, 0]);
    let (work, place) = send(&image, insert(1350)).unwrap();
    assert_eq!((place, root(&work)), (CommitPlace::Root, 59));
    let wanted = vec![(0, 1000, 2), (900, 976, 61), (2400, 952, 60)];
    assert_eq!(listed(&work, 59), (TOP, 952, wanted));
    // The old top is not reached at the end, and holds what it held.
    assert!(work[1024..2048] == image[1024..2048]);
}

/// "An index page left empty loses its record unless it is the only one." The second page
/// has one leaf of one key, and the first one too.
#[test]
fn index_pages_are_lost() {
    let listed = [
        above(1, TOP, [(20, 2), (300, 3), (500, 8)]),
        above(2, INDEX, [(50, 4)]),
        above(3, INDEX, [(350, 6)]),
        above(8, INDEX, [(600, 7)]),
        leaf(4, [10]),
        leaf(6, [310]),
        leaf(7, [510]),
    ];
    let image = image_of(12, 1, &listed);
    let (work, place) = send(&image, delete(310)).unwrap();
    assert_eq!(place, CommitPlace::Header { page: 1 });
    assert_eq!(names(&work, 1), [(20, 2), (500, 8)]);
    // Nothing else changed: the lost pages hold what they held.
    assert_eq!(changed(&image, &work), [1]);
    // 310 now belongs to the first index page, whose only leaf is in slot 0.
    let (again, _) = send(&work, insert(310)).unwrap();
    assert_eq!(keys(&again, 4), [10, 310]);
}

/// The first index page lost: the next one is the first, and its first leaf takes keys
/// below all separators.
#[test]
fn the_first_index_page_is_lost() {
    let listed = [
        above(1, TOP, [(20, 2), (300, 3)]),
        above(2, INDEX, [(50, 4)]),
        above(3, INDEX, [(350, 6), (400, 7)]),
        leaf(4, [10]),
        leaf(6, [310, 360]),
        leaf(7, [410]),
    ];
    let image = image_of(12, 1, &listed);
    let (work, place) = send(&image, delete(10)).unwrap();
    assert_eq!(place, CommitPlace::Header { page: 1 });
    assert_eq!(names(&work, 1), [(300, 3)]);
    let (again, place) = send(&work, insert(10)).unwrap();
    assert_eq!(place, CommitPlace::Header { page: 6 });
    assert_eq!(keys(&again, 6), [10, 310, 360]);
    let mut both = Both::new(&again);
    assert_eq!(both.lookup(10), Ok(Some((6 * 1024 + 968, 8))));
    assert_eq!(both.next_key(0), Ok(Some(10)));
    // Copied, that leaf's record takes 0; the top keeps 300 until its record is written.
    let mut full = again.clone();
    full[6 * 1024 + 2..][..2].copy_from_slice(&[64, 0]);
    let (copied, _) = send(&full, edit(Kind::Update, 10, 8)).unwrap();
    assert_eq!(names(&copied, 3), [(0, 11), (400, 7)]);
    assert_eq!(names(&copied, 1), [(300, 3)]);
}

/// "A top page stays", also over one index page and one leaf, which may be empty.
#[test]
fn a_top_stays() {
    let listed = [
        above(1, TOP, [(20, 2), (300, 3)]),
        above(2, INDEX, [(50, 4), (60, 5)]),
        above(3, INDEX, [(350, 6)]),
        leaf(4, [10]),
        leaf(5, [70]),
        leaf(6, [310]),
    ];
    let mut image = image_of(12, 1, &listed);
    for (key, top, place) in [
        (310, vec![(20, 2)], 1),
        (10, vec![(20, 2)], 2),
        // The only leaf of all is left empty and keeps its record.
        (70, vec![(20, 2)], 5),
    ] {
        let (work, by) = send(&image, delete(key)).unwrap();
        assert_eq!(by, CommitPlace::Header { page: place }, "{key}");
        assert_eq!(names(&work, 1), top);
        image = work;
    }
    assert_eq!(names(&image, 2), [(60, 5)]);
    assert_eq!(table(&image), Some(Vec::new()));
    let mut both = Both::new(&image);
    assert_eq!(both.lookup(70), Ok(None));
    assert_eq!(both.next_key(0), Ok(None));
    let (work, place) = send(&image, insert(1)).unwrap();
    assert_eq!(place, CommitPlace::Header { page: 5 });
    assert_eq!(keys(&work, 5), [1]);
    // All in one transaction, and back.
    let image = image_of(12, 1, &listed);
    let all: Vec<u8> = [10, 70, 310].into_iter().flat_map(delete).collect();
    let (work, _) = send(&image, all).unwrap();
    assert_eq!(names(&work, 1).len(), 1);
    assert_eq!(table(&work), Some(Vec::new()));
}

/// "No leaf is empty unless it is the only one", of the whole store: an empty leaf that is
/// the only one of its index page is bad beside another index page, and an index page
/// without records always.
#[test]
fn empty_pages() {
    let image = image_of(12, 1, &two_pages());
    let empty = |pages: &[usize]| {
        let mut image = image.clone();
        for page in pages {
            image[1024 * page] = 0;
            image[1024 * page + 8..][..56].fill(0);
        }
        Both::new(&image).check()
    };
    for page in 1..8 {
        assert_eq!(empty(&[page]), refused(4), "{page}");
    }
    let alone = [
        above(1, TOP, [(9, 2)]),
        above(2, INDEX, [(8, 3)]),
        leaf(3, []),
    ];
    image_of(8, 1, &alone);
    let beside = [
        above(1, TOP, [(9, 2), (20, 4)]),
        above(2, INDEX, [(8, 3)]),
        leaf(3, []),
        above(4, INDEX, [(30, 5)]),
        leaf(5, [40]),
    ];
    let mut image = vec![0; 8192];
    image[8] = 1;
    image[16] = 8;
    image[18] = 1;
    for page in &beside {
        put_down(&mut image[1024 * page.number..][..1024], page);
    }
    let mut both = Both::new(&image);
    assert_eq!(both.check(), refused(4));
    assert_eq!(both.lookup(10), refused(4));
    assert_eq!(both.lookup(40), Ok(Some((5 * 1024 + 1016, 8))));
}

/// A bad index page blanks only its own keys in narrow reads.
#[test]
fn a_bad_index_page_blanks_its_own_keys() {
    let image = image_of(12, 1, &two_pages());
    for (bad, own, others) in [
        (2, [10, 60, 210, 220], [310, 360, 410, 420]),
        (3, [310, 360, 410, 420], [10, 60, 210, 220]),
    ] {
        let mut image = image.clone();
        image[1024 * bad + 5] = 1;
        let mut both = Both::new(&image);
        assert_eq!(both.check(), refused(4));
        for key in own {
            assert_eq!(both.lookup(key), refused(4));
            assert_eq!(both.value(key), b"");
            assert_eq!(both.next_key(key), refused(4));
        }
        for key in others {
            assert!(both.lookup(key).unwrap().is_some());
        }
        // Out of range, the leaf and its index page are read first.
        let (low, high) = if bad == 2 { (4, 6) } else { (6, 4) };
        assert_eq!(both.lookup(0), refused(low));
        assert_eq!(both.lookup(u64::MAX), refused(high));
        assert_eq!(send(&image, insert(1)), Err((4, 0)));
    }
    // The next key of 220 is in the next index page, and that of 210 is not.
    let mut bad = image.clone();
    bad[1024 * 3 + 5] = 1;
    let mut both = Both::new(&bad);
    assert_eq!(both.next_key(210), Ok(Some(220)));
    assert_eq!(both.next_key(220), refused(4));
    // A bad top blanks all.
    let mut bad = image.clone();
    bad[1024 + 5] = 1;
    let mut both = Both::new(&bad);
    for key in [10, 210, 310, 410, 0] {
        assert_eq!(both.lookup(key), refused(4));
        assert_eq!(both.next_key(key), refused(4));
        assert_eq!(both.preview(&insert(1), key, 4), refused(4));
    }
}

/// What an index page names differs from the root, from all that the top names, and within
/// one call from what the index pages read before name.
#[test]
fn names_of_index_pages() {
    let image = image_of(12, 1, &two_pages());
    // The second record of the first index page is at 976.
    for (page, sound) in [
        (1, false),
        (2, false),
        (3, false),
        (0, false),
        (12, false),
        (4, false),
    ] {
        let mut image = image.clone();
        image[2 * 1024 + 976 + 16] = page;
        let mut both = Both::new(&image);
        assert_eq!(both.check().is_ok(), sound, "{page}");
        assert_eq!(both.lookup(10), refused(4), "{page}");
        assert!(both.lookup(310).unwrap().is_some(), "{page}");
    }
}

/// Both index pages name the leaf of 310. Each alone is good; in one call the second that
/// is read is bad. Check refuses.
#[test]
fn a_leaf_named_by_two_index_pages() {
    let mut image = image_of(12, 1, &two_pages());
    image[2 * 1024 + 976 + 16] = 6;
    let mut both = Both::new(&image);
    assert_eq!(both.check(), refused(4));
    // The first page's other leaf, and the second page's leaves, by themselves.
    assert_eq!(both.lookup(10), Ok(Some((4 * 1024 + 1016, 8))));
    assert!(both.lookup(310).unwrap().is_some());
    assert!(both.lookup(410).unwrap().is_some());
    // As the first page's leaf it has keys past that page's bound.
    assert_eq!(both.lookup(210), refused(4));
    // The next key from the first page's leaves stays there, or reads the second page.
    assert_eq!(both.next_key(10), Ok(Some(60)));
    assert_eq!(both.next_key(60), refused(4));
    let in_list = Ok(Preview::InList {
        offset: 10,
        length: 8,
    });
    let update = |key| edit(Kind::Update, key, 8);
    assert_eq!(both.preview(&update(10), 10, 4), in_list);
    assert_eq!(both.preview(&update(310), 310, 4), in_list);
    // The first page is read, then the second: 4, just before the 8 or 9 of that edit.
    let two = [update(10), update(310)].concat();
    assert_eq!(both.preview(&two, 10, 4), refused(4));
    let turned = [update(310), update(10)].concat();
    assert_eq!(both.preview(&turned, 310, 4), refused(4));
    assert_eq!(both.preview(&update(10), 310, 4), refused(4));
    assert_eq!(both.preview(&update(310), 10, 4), refused(4));
    // An earlier edit's 8 comes before it, and the 9 of the same edit after it.
    let before = [insert(10), update(310)].concat();
    assert_eq!(both.preview(&before, 10, 4), refused(8));
    let after = [update(10), update(311)].concat();
    assert_eq!(both.preview(&after, 10, 4), refused(4));
}

/// The next key goes on to the first leaf of the next index page, which is read then.
#[test]
fn next_key_across_index_pages() {
    let mut image = image_of(12, 1, &two_pages());
    let mut both = Both::new(&image);
    assert_eq!(both.next_key(220), Ok(Some(310)));
    // Two index pages name the same leaf, which the first does not need: 4 when the second
    // is read.
    image[3 * 1024 + 976 + 16] = 5;
    let mut both = Both::new(&image);
    assert_eq!(both.next_key(210), Ok(Some(220)));
    assert_eq!(both.next_key(220), refused(4));
    assert_eq!(both.lookup(310), Ok(Some((6 * 1024 + 1016, 8))));
    assert_eq!(both.next_key(300), Ok(Some(310)));
}

/// "In the look an index page's 4 comes where its leaf's would"; the root's 4 stays with
/// check's, before the list's.
#[test]
fn the_look_under_a_top() {
    let mut image = image_of(12, 1, &two_pages());
    image[3 * 1024 + 5] = 1;
    let mut both = Both::new(&image);
    let update = |key| edit(Kind::Update, key, 8);
    let (offset, length) = (10, 8);
    assert_eq!(
        both.preview(&update(10), 10, 4),
        Ok(Preview::InList { offset, length })
    );
    assert_eq!(both.preview(&update(10), 310, 4), refused(4));
    assert_eq!(both.preview(&update(310), 10, 4), refused(4));
    // The list's 5 and 6 for the key asked come before it.
    assert_eq!(both.preview(&[9], 310, 4), refused(5));
    assert_eq!(both.preview(&update(310), 0, 4), refused(6));
    let at_one = |number| Err(Refusal { number, edit: 1 });
    let lists = [[update(10), insert(10)], [update(10), delete(11)]];
    for (list, wanted) in lists.iter().zip([8, 9]) {
        let list = [&list.concat()[..], &update(310)].concat();
        assert_eq!(both.preview(&list, 310, 4), at_one(wanted));
    }
    image[1024 + 5] = 1;
    let mut both = Both::new(&image);
    assert_eq!(both.preview(&[9], 10, 4), refused(4));
    assert_eq!(both.preview(&update(10), 0, 4), refused(4));
}

/// "The root page's kind byte decides the height": a top that says it is an index page has
/// index pages where leaves should be, and the other way round.
#[test]
fn the_kind_of_the_root() {
    let image = image_of(12, 1, &two_pages());
    for kind in [0, 1, 2, 4, 255] {
        let mut image = image.clone();
        image[1024 + 4] = kind;
        assert_eq!(Both::new(&image).check(), refused(4), "{kind}");
        assert_eq!(Both::new(&image).lookup(10), refused(4), "{kind}");
    }
    let flat = [
        above(1, INDEX, [(0, 2), (5, 3)]),
        leaf(2, [1]),
        leaf(3, [6]),
    ];
    let mut image = image_of(8, 1, &flat);
    image[1024 + 4] = TOP;
    assert_eq!(Both::new(&image).check(), refused(4));
    assert_eq!(Both::new(&image).lookup(1), refused(4));
    // A root word that names a lower index page is a store of its leaves alone.
    let mut image = image_of(12, 1, &two_pages());
    image[8] = 2;
    assert_eq!(Both::new(&image).check(), Ok(()));
    assert_eq!(Both::new(&image).lookup(410), Ok(None));
    assert_eq!(
        Both::new(&image).lookup(210),
        Ok(Some((5 * 1024 + 1016, 8)))
    );
    // An index page under a top may be no top.
    let mut image = image_of(12, 1, &two_pages());
    image[2 * 1024 + 4] = TOP;
    assert_eq!(Both::new(&image).check(), refused(4));
}

/// A split in one edit and edits of other pages in the same transaction go through the log:
/// the headers of pages reached before and after, and the root word.
#[test]
fn a_split_and_an_update_elsewhere() {
    let image = twenty_eight(40, true);
    let both = [insert(350), edit(Kind::Update, 100, 8)].concat();
    let (work, place) = send(&image, both).unwrap();
    assert_eq!(place, CommitPlace::Log);
    assert_eq!(root(&work), 35);
    assert_eq!(changed(&image, &work), [2, 35, 36, 37, 38, 39]);
}

/// What an edit split, a later one of the same transaction meets: "Each edit sees those
/// before it." The old index page keeps its bytes, and a page given up in the transaction
/// is not taken again.
#[test]
fn two_splits_in_one_transaction() {
    let mut image = twenty_eight(40, true);
    // A second full leaf, 2,800 to 2,827, in the right index page.
    put_down(&mut image[29 * 1024..30 * 1024], &leaf(29, 2800..2828));
    let (work, place) = send(&image, [insert(350), insert(2850)].concat()).unwrap();
    assert_eq!(place, CommitPlace::Root);
    assert_eq!(names(&work, 36).len(), 15);
    assert_eq!(names(&work, 36)[13..], [(2800, 34), (2815, 33)]);
    assert_eq!(changed(&image, &work), [33, 34, 35, 36, 37, 38, 39]);
    assert!(work[1024..2048] == image[1024..2048]);
}
