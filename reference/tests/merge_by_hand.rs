//! Document 02 (i), "Two books into one", and what (j) says of the result under a top,
//! worked out on paper from their sentences, on the reference and on the proved library.

mod both;

use both::merges::merge_both;
use cases::images::from_leaves;
use cases::random::Random;
use cases::stores::fresh;
use reference::image::{check, table};

/// A quote by its key and the length of its value, whose bytes are all 7.
type Quote = (u64, usize);

/// So many quotes from this key on, with values of this length.
fn quotes(keys: std::ops::Range<u64>, length: usize) -> Vec<Quote> {
    keys.map(|key| (key, length)).collect()
}

/// A book of so many pages with these quotes, `each` in a leaf, somewhere; under a top
/// where it has more than 28 leaves. What no rule speaks of is noise.
fn book(pages: usize, quotes: &[Quote], each: usize) -> Vec<u8> {
    let with_value = |&(key, length): &Quote| (key, vec![7; length]);
    let leaf = |part: &[Quote]| part.iter().map(with_value).collect();
    let mut leaves: Vec<Vec<(u64, Vec<u8>)>> = quotes.chunks(each).map(leaf).collect();
    if leaves.is_empty() {
        leaves.push(Vec::new());
    }
    let (left, right) = (leaves.len().min(28), leaves.len().saturating_sub(28));
    let counts = if right > 0 {
        vec![left, right]
    } else {
        Vec::new()
    };
    let image = from_leaves(&mut Random::new(5), pages, false, &counts, leaves).image;
    assert_eq!(check(&image), Ok(()));
    image
}

/// A page of the result: its kind, and the key, value and offset of each record.
type Page = (u8, Vec<(u64, Vec<u8>, usize)>);

/// An image of so many pages with these from page 1 on, each record and each header
/// put down byte by byte, and zeros elsewhere.
fn image_of(pages: usize, listed: &[Page]) -> Vec<u8> {
    let mut image = vec![0; 1024 * pages];
    image[8] = 1; // the root
    image[16] = pages as u8;
    image[18] = 1; // the format
    for (number, (kind, records)) in (1..).zip(listed) {
        let page = &mut image[1024 * number..][..1024];
        let start = records.last().map_or(1024, |record| record.2);
        page[0] = records.len() as u8;
        page[2..4].copy_from_slice(&(start as u16).to_le_bytes());
        page[4] = *kind;
        page[6] = number as u8;
        for (slot, (key, value, offset)) in records.iter().enumerate() {
            page[8 + 2 * slot..][..2].copy_from_slice(&(*offset as u16).to_le_bytes());
            page[*offset..][..8].copy_from_slice(&key.to_le_bytes());
            page[offset + 8] = value.len() as u8;
            page[offset + 16..][..value.len()].copy_from_slice(value);
        }
    }
    image
}

/// A leaf with values of 7s.
fn leaf(records: impl IntoIterator<Item = (u64, usize, usize)>) -> Page {
    let record = |(key, length, offset)| (key, vec![7; length], offset);
    (1, records.into_iter().map(record).collect())
}

/// The index: separators, pages and offsets.
fn index(records: impl IntoIterator<Item = (u64, u8, usize)>) -> Page {
    let record = |(separator, page, offset)| (separator, vec![page, 0], offset);
    (2, records.into_iter().map(record).collect())
}

/// Merges either way round, into a buffer of so many pages that held 0xaa: the
/// answer, and the image if it is accepted.
fn merge(first: &[u8], second: &[u8], pages: usize) -> Result<Vec<u8>, u8> {
    let before = vec![0xaa; 1024 * pages];
    let answer = merge_both("the row", [first, second], &before);
    assert!(answer == merge_both("the row turned", [second, first], &before));
    match answer {
        (0, image) => Ok(image),
        (number, _) => Err(number),
    }
}

/// The result is this image, byte for byte.
fn gives(merged: Result<Vec<u8>, u8>, wanted: &[u8]) {
    let image = merged.expect("it is accepted");
    assert!(image == wanted, "another image");
    assert_eq!(check(&image), Ok(()));
}

/// "With no records the result is a fresh store", of the third buffer's pages; also if
/// the two had records once.
#[test]
fn nothing_and_nothing() {
    let emptied = book(20, &[], 1);
    for pages in [8, 9, 33, 64] {
        gives(merge(&fresh(8), &fresh(64), pages), &fresh(pages));
        gives(merge(&fresh(12), &emptied, pages), &fresh(pages));
    }
}

/// One record of 24 bytes at 1,000, where a fresh store's leaf has none.
#[test]
fn one_and_nothing() {
    let first = book(8, &[(7, 8)], 1);
    let wanted = image_of(9, &[index([(0, 2, 1000)]), leaf([(7, 8, 1000)])]);
    gives(merge(&first, &fresh(8), 9), &wanted);
}

/// 28 records of 24 bytes take 672 bytes, from 1,024 down to 352. The 29th is the
/// next leaf's first: "the others are smallest keys".
#[test]
fn twenty_eight_and_one() {
    let first = book(8, &quotes(1..29, 8), 14);
    let second = book(12, &[(100, 8)], 1);
    let full = (1..29).zip((0..28).map(|i| 1000 - 24 * i));
    let full: Vec<(u64, usize, usize)> = full.map(|(key, offset)| (key, 8, offset)).collect();
    assert_eq!(full[27], (28, 8, 352));
    let pages = [
        index([(0, 2, 1000), (100, 3, 976)]),
        leaf(full),
        leaf([(100, 8, 1000)]),
    ];
    let merged = merge(&first, &second, 10);
    gives(merged.clone(), &image_of(10, &pages));
    // The index's header, written out: two records, start 976, kind 2, page 1.
    let image = merged.unwrap();
    let header = [2, 0, 208, 3, 2, 0, 1, 0, 232, 3, 208, 3, 0, 0];
    assert_eq!(image[1024..1038], header);
    // The first leaf's: 28 records, start 352, kind 1, page 2, slots from 1,000 on.
    assert_eq!(image[2048..2058], [28, 0, 96, 1, 1, 0, 2, 0, 232, 3]);
    assert_eq!(image[2048 + 62..][..2], [96, 1]);
    assert_eq!(image[3072..3084], [1, 0, 232, 3, 1, 0, 3, 0, 232, 3, 0, 0]);
}

/// The key of the one is below the 28: it is the first leaf's first, and the largest
/// of the 28 goes to the second leaf.
#[test]
fn the_smallest_comes_first() {
    let first = book(8, &quotes(101..129, 8), 14);
    let second = book(8, &[(100, 8)], 1);
    let full = (100..128).zip((0..28).map(|i| 1000 - 24 * i));
    let pages = [
        index([(0, 2, 1000), (128, 3, 976)]),
        leaf(full.map(|(key, offset)| (key, 8, offset))),
        leaf([(128, 8, 1000)]),
    ];
    gives(merge(&first, &second, 8), &image_of(8, &pages));
}

/// Four records of 216 bytes take 864; one with a value of 80 bytes takes the other
/// 96, with 81 it takes 104 and goes to the next leaf.
#[test]
fn nine_hundred_and_sixty_bytes() {
    let four = [(10, 200), (20, 200), (30, 200), (40, 200)];
    let first = book(8, &four, 2);
    let offsets = [
        (10, 200, 808),
        (20, 200, 592),
        (30, 200, 376),
        (40, 200, 160),
    ];
    let fits = book(8, &[(50, 80)], 1);
    let five = offsets.into_iter().chain([(50, 80, 64)]);
    let wanted = image_of(8, &[index([(0, 2, 1000)]), leaf(five)]);
    gives(merge(&first, &fits, 8), &wanted);

    let longer = book(8, &[(50, 81)], 1);
    let pages = [
        index([(0, 2, 1000), (50, 3, 976)]),
        leaf(offsets),
        leaf([(50, 81, 920)]),
    ];
    gives(merge(&first, &longer, 8), &image_of(8, &pages));

    // Between the others it moves what comes after it: 216 + 216 + 104 + 216 = 752, and
    // a fourth of 216 does not fit.
    let between = book(8, &[(25, 81)], 1);
    let pages = [
        index([(0, 2, 1000), (40, 3, 976)]),
        leaf([
            (10, 200, 808),
            (20, 200, 592),
            (25, 81, 488),
            (30, 200, 272),
        ]),
        leaf([(40, 200, 808)]),
    ];
    gives(merge(&first, &between, 8), &image_of(8, &pages));
}

/// A leaf takes no record that comes later and would still fit: leaves are in key
/// order. Four of 216 and one of 216; then one of 16, an empty value from before (g).
#[test]
fn no_leaf_is_filled_later() {
    let long: Vec<Quote> = [10, 20, 30, 40, 50].map(|key| (key, 200)).to_vec();
    let pages = [
        index([(0, 2, 1000), (50, 3, 976)]),
        leaf([
            (10, 200, 808),
            (20, 200, 592),
            (30, 200, 376),
            (40, 200, 160),
        ]),
        leaf([(50, 200, 808), (60, 0, 792)]),
    ];
    let merged = merge(&book(8, &long, 3), &book(8, &[(60, 0)], 1), 8);
    gives(merged, &image_of(8, &pages));
}

/// So many leaves of 28, dealt in turn to two books.
fn leaves_of_28(leaves: u64) -> [Vec<Quote>; 2] {
    let all = quotes(1..28 * leaves + 1, 8);
    let (odd, even) = all.into_iter().partition(|quote| quote.0 % 2 == 1);
    [odd, even]
}

/// The two books of these quotes.
fn two_books(dealt: &[Vec<Quote>; 2]) -> [Vec<u8>; 2] {
    dealt.each_ref().map(|quotes| book(64, quotes, 28))
}

/// 28 leaves of 28 need 30 pages; 11 if page 1 and the leaves are more than the pages
/// past page 0.
#[test]
fn twenty_eight_leaves() {
    let [first, second] = two_books(&leaves_of_28(28));
    for (pages, wanted) in [
        (64, None),
        (31, None),
        (30, None),
        (29, Some(11)),
        (8, Some(11)),
    ] {
        let merged = merge(&first, &second, pages);
        assert_eq!(merged.as_ref().err(), wanted.as_ref(), "{pages} pages");
        if let Ok(image) = merged {
            assert_eq!(keys_of(&image), (1..785).collect::<Vec<u64>>());
            // 28 records of 24 bytes in the index too; its last names page 29.
            assert_eq!(image[1024..1034], [28, 0, 96, 1, 2, 0, 1, 0, 232, 3]);
            assert_eq!(image[1024 + 352..][..8], 757u64.to_le_bytes());
            assert_eq!(image[1024 + 352 + 16], 29);
            assert!(image[30 * 1024..].iter().all(|&byte| byte == 0));
        }
    }
}

fn keys_of(image: &[u8]) -> Vec<u64> {
    let table = table(image).expect("it is sound");
    table.iter().map(|entry| entry.0).collect()
}

/// Document 02 (j): "the merge builds a top only if 28 leaves aren't enough, as page 1,
/// then index pages filled to 28 each, then leaves". One quote more than fill 28 leaves:
/// the top on page 1, index pages on 2 and 3, the leaves from 4 to 32; 33 pages in all.
#[test]
fn a_top_for_the_29th_leaf() {
    let mut dealt = leaves_of_28(28);
    dealt[0].push((785, 8));
    let [first, second] = two_books(&dealt);
    let full = |from: u64| (from..from + 28).zip((0..28).map(|i| 1000 - 24 * i));
    let leaves = (0..28).map(|i| leaf(full(1 + 28 * i).map(|(key, at)| (key, 8, at))));
    // The first separator of the first index page is 0, each other one its leaf's
    // smallest key: 29, 57 and so on up to 757.
    let separators = (0..28).map(|i| (if i == 0 { 0 } else { 28 * i + 1 }, 4 + i as u8));
    let names = separators.zip((0..28).map(|i| 1000 - 24 * i));
    let mut pages = vec![
        (3, index([(0, 2, 1000), (785, 3, 976)]).1),
        index(names.map(|((separator, page), at)| (separator, page, at))),
        index([(785, 32, 1000)]),
    ];
    pages.extend(leaves);
    pages.push(leaf([(785, 8, 1000)]));
    for size in [33, 34, 64] {
        gives(merge(&first, &second, size), &image_of(size, &pages));
    }
    for size in [8, 30, 31, 32] {
        assert_eq!(merge(&first, &second, size), Err(11), "{size} pages");
    }
}

/// 56 leaves fill two index pages, the 57th begins a third, and the last index page takes
/// the rest. The top has 0 and each other page's first separator.
#[test]
fn two_index_pages_and_three() {
    for (leaves, indexes) in [(56, 2), (57, 3), (59, 3)] {
        let [first, second] = two_books(&leaves_of_28(leaves));
        let needed = 2 + indexes + leaves as usize;
        let image = merge(&first, &second, needed).expect("there is room");
        assert_eq!(check(&image), Ok(()));
        assert_eq!(keys_of(&image), (1..28 * leaves + 1).collect::<Vec<u64>>());
        let counts = (1..2 + indexes).map(|page| (image[1024 * page + 4], image[1024 * page]));
        let wanted: &[(u8, u8)] = match leaves {
            56 => &[(3, 2), (2, 28), (2, 28)],
            57 => &[(3, 3), (2, 28), (2, 28), (2, 1)],
            _ => &[(3, 3), (2, 28), (2, 28), (2, 3)],
        };
        assert_eq!(counts.collect::<Vec<_>>(), wanted);
        // 28 leaves of 28 quotes: 785, 1,569.
        let separator = |page: usize, at: usize| image[1024 * page + at..][..8].to_vec();
        for (i, at) in [1000, 976, 952][..indexes].iter().enumerate() {
            let wanted = (784 * i as u64 + (i > 0) as u64).to_le_bytes();
            assert_eq!(separator(1, *at), wanted);
            assert_eq!(image[1024 + at + 16] as usize, 2 + i);
            assert_eq!(separator(2 + i, 1000), wanted);
        }
        assert_eq!(merge(&first, &second, needed - 1), Err(11));
    }
    // 60 leaves need 65 pages.
    let [first, second] = two_books(&leaves_of_28(60));
    assert_eq!(merge(&first, &second, 64), Err(11));
}

/// The pages that a result of so many leaves needs: page 0, page 1, the index pages
/// under a top, the leaves.
fn needed(leaves: usize) -> usize {
    match leaves {
        ..=28 => leaves + 2,
        ..=56 => leaves + 4,
        _ => leaves + 5,
    }
}

/// 11 with one page fewer, and accepted with as many as are needed.
#[test]
fn one_page_short() {
    for leaves in 7..60 {
        let [first, second] = two_books(&leaves_of_28(leaves as u64));
        assert_eq!(merge(&first, &second, needed(leaves) - 1), Err(11));
        let image = merge(&first, &second, needed(leaves)).expect("they suffice");
        assert_eq!(check(&image), Ok(()));
    }
    // The smallest image has room for six.
    let [first, second] = two_books(&leaves_of_28(6));
    assert!(merge(&first, &second, 8).is_ok());
}

/// "20 if a key is in both, 10, then 11": one quote in both, the first, one between
/// or the last, where the pages would be too few, or enough. 10 never comes.
#[test]
fn a_key_in_both() {
    for leaves in [1, 7, 28, 29, 60] {
        let dealt = leaves_of_28(leaves);
        for key in [1, 2, 14, 28 * leaves - 1, 28 * leaves] {
            let mut twice = dealt.clone();
            let lacks = &mut twice[1 - (key % 2 == 0) as usize];
            lacks.push((key, 1));
            lacks.sort();
            let [first, second] = two_books(&twice);
            for pages in [8, 29, 64] {
                assert_eq!(merge(&first, &second, pages), Err(20));
            }
        }
    }
    // A book and itself: every key, unless it has none.
    let same = book(8, &quotes(1..6, 8), 5);
    assert_eq!(merge(&same, &same, 8), Err(20));
    gives(merge(&fresh(8), &fresh(8), 8), &fresh(8));
}

/// A book with a waiting mark, with page 0 wrong, with both, with a bad leaf, with a
/// byte too few.
fn bad_books() -> [(&'static str, Vec<u8>, u8); 5] {
    let good = book(8, &quotes(1..6, 8), 5);
    let harmed = |harm: fn(&mut Vec<u8>)| {
        let mut image = good.clone();
        harm(&mut image);
        image
    };
    let leaf = |image: &mut Vec<u8>| {
        // The only leaf, which the index names, calls itself an index.
        let root = image[8] as usize;
        let slot = u16::from_le_bytes([image[1024 * root + 8], image[1024 * root + 9]]);
        let leaf = image[1024 * root + slot as usize + 16] as usize;
        image[1024 * leaf + 4] = 2;
    };
    [
        (
            "a mark",
            harmed(|image| image[..3].copy_from_slice(&[1, 1, 1])),
            3,
        ),
        ("page 0", harmed(|image| image[40] = 1), 4),
        (
            "page 0 and a mark",
            harmed(|image| {
                image[..3].copy_from_slice(&[1, 1, 1]);
                image[40] = 1;
            }),
            4,
        ),
        ("a leaf", harmed(leaf), 4),
        ("a length", harmed(|image| image.truncate(8191)), 1),
    ]
}

/// "Refused: 1 for the third buffer, check's for the first image, check's for the
/// second, 20": whatever comes after.
#[test]
fn refusals_in_their_order() {
    let good = book(8, &quotes(1..6, 8), 5);
    let third = vec![0xaa; 8192];
    let say =
        |first: &[u8], second: &[u8], third: &[u8]| merge_both("the row", [first, second], third).0;
    assert_eq!(say(&good, &good, &third), 20);
    for (what, bad, number) in bad_books() {
        assert_eq!(say(&bad, &good, &third), number, "{what}, first");
        assert_eq!(say(&good, &bad, &third), number, "{what}, second");
        assert_eq!(say(&bad, &bad, &third), number, "{what}, both");
        for (other_what, other, _) in bad_books() {
            let row = format!("{what}, then {other_what}");
            assert_eq!(say(&bad, &other, &third), number, "{row}");
            for length in [0, 1, 1024, 7168, 8191, 8193, 65_535, 65_537, 66_560] {
                assert_eq!(say(&bad, &other, &vec![0xaa; length]), 1, "{row}, {length}");
            }
        }
    }
}

/// The three lengths may differ, and N is the third buffer's. What the buffer held is
/// gone, a whole store and its waiting mark too.
#[test]
fn old_bytes_are_gone() {
    let (first, second) = (book(64, &[(1, 8)], 1), book(30, &[(2, 8)], 1));
    let wanted = |pages| {
        image_of(
            pages,
            &[index([(0, 2, 1000)]), leaf([(1, 8, 1000), (2, 8, 976)])],
        )
    };
    let mut full = book(16, &quotes(1..300, 8), 28);
    full[..3].copy_from_slice(&[1, 1, 1]);
    for before in [full, vec![255; 8192], vec![0; 65_536], wanted(9)] {
        let (number, image) = merge_both("the row", [&first, &second], &before);
        assert_eq!(number, 0);
        assert!(image == wanted(before.len() / 1024), "another image");
    }
}

/// Separators, pages and offsets are as said, whatever the books' were: the same quotes
/// in other leaves of other images give the same bytes.
#[test]
fn only_the_tables_matter() {
    let (low, high) = (quotes(1..90, 24), quotes(500..530, 8));
    let merged = merge(&book(16, &low, 24), &book(8, &high, 28), 20).expect("there is room");
    for (each, pages) in [(2, 64), (3, 64), (7, 33), (20, 12)] {
        let again = merge(&book(pages, &low, each), &book(64, &high, each), 20);
        gives(again, &merged);
    }
}
