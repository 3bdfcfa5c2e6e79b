//! Document 02 (d), "Modules without line stores", on tapes worked out by hand.
//! Each call is made by the reference and by the proved library.

mod writes;

use cases::images::even;
use cases::logs::waiting;
use cases::random::Random;
use cases::stores::fresh;
use reference::device::Device;
use reference::edits::Kind;
use writes::by_hand::{edit, flushes, outline, send, words, Outline, BARRIER};
use writes::{compare_recovery, Call};

/// Bytes of a word store, of a line's eight words with its flush, and of what
/// stores a mark: the word, its flush, a barrier.
const WORD: u64 = 12;
const LINE: u64 = 8 * WORD + 4;
const MARK: u64 = WORD + 4 + 4;

/// Document 01's first worked row, "words 381-383; flush 47; line 32; flush 32",
/// with the header of page 2 through the log: line 1 and its flush, the mark,
/// then the header. All eight words of either are stored, though six are zero
/// before and after. Document 02 (h): a barrier behind each of the five flushes.
#[test]
fn one_header_goes_through_the_log() {
    let image = fresh(8);
    let (five, tape, work) = send(Device::Words, &image, edit(Kind::Insert, 101, 8));
    let records = [words(381, 383), flushes(47, 47)].concat();
    let log = [words(8, 15), flushes(1, 1)].concat();
    let header = [words(256, 263), flushes(32, 32)].concat();
    let mark = [words(0, 0), flushes(0, 0)].concat();
    let hand = [&records, &log, &mark, &header, &mark].map(|part| part.to_vec());
    assert_eq!(outline(&tape, &image), hand.concat());
    let bytes = 3 * WORD + 4 + 4 + (LINE + 4) + MARK + (LINE + 4) + MARK;
    assert_eq!((bytes, five), (292, [0, 3, 0, bytes, 5]));
    // "The mark carries the root after the transaction, also if unchanged."
    let at = (3 * 12 + 4 + 4) + (100 + 4) + 4;
    assert_eq!(tape[at..at + 8], [1, 1, 1, 0, 0, 0, 0, 0]);
    assert!(work[64..128] == work[2048..2112] && work[..8] == [0; 8]);
}

/// A delete has no stage A.
#[test]
fn one_delete() {
    let (_, _, image) = send(Device::Words, &fresh(8), edit(Kind::Insert, 101, 8));
    let (five, _, _) = send(Device::Words, &image, edit(Kind::Delete, 101, 0));
    assert_eq!(five, [0, 3, 0, 2 * (LINE + 4) + 2 * MARK, 4]);
}

/// "A change of the root word alone still commits by that word": leaf and index
/// have no room, so that both are copied. There is no line on the tape, and it
/// is that of the line-store device.
#[test]
fn the_root_word_alone() {
    let (_, _, mut image) = send(Device::Words, &fresh(8), edit(Kind::Insert, 101, 8));
    for page in [1, 2] {
        image[page * 1024 + 2..][..2].copy_from_slice(&[64, 0]);
    }
    let edits = edit(Kind::Update, 101, 8);
    let (five, tape, work) = send(Device::Words, &image, edits.clone());
    assert_eq!(five[1], 2);
    assert!(outline(&tape, &image).ends_with(&[(1, 1), (3, 0), BARRIER]));
    assert_eq!(send(Device::Lines, &image, edits), (five, tape, work));
}

/// Updates of so many leaves, one each, with records of 24 bytes: three words
/// each. Both devices have the same flushes and barriers, and a line is 28 bytes
/// longer.
#[test]
fn every_number_of_headers() {
    let built = even(&mut Random::new(1), 64, 16, 32);
    for k in 1..=15 {
        let keys = built.leaves[..k].iter().map(|leaf| leaf.places[0].key);
        let edits: Vec<u8> = keys.flat_map(|key| edit(Kind::Update, key, 8)).collect();
        let (words, _, _) = send(Device::Words, &built.image, edits.clone());
        let (lines, _, _) = send(Device::Lines, &built.image, edits);
        let k = k as u64;
        assert_eq!(words[1], 3);
        if k > 1 {
            assert_eq!((lines[1], words[4]), (3, lines[4]));
            assert_eq!(words[3], lines[3] + 2 * k * (96 - 68));
        }
    }
}

/// The recovery of so many headers, in log order: 100 bytes each and a barrier,
/// then 20, or 32 where the root changes.
#[test]
fn every_recovery() {
    let built = even(&mut Random::new(1), 64, 16, 32);
    for k in 1..=15 {
        let image = waiting(&mut Random::new(k), &built, k as usize);
        let call = Call {
            answer: vec![7; 2],
            ..Call::new(&mut Random::new(1), &image, Vec::new())
        };
        let (number, after) = compare_recovery(Device::Words, 0, &call);
        let moved = image[8..16] != built.image[8..16];
        let bytes = k * LINE + 4 + MARK + if moved { WORD } else { 0 };
        assert_eq!((number, &after.answer[..]), (0, &[bytes, k + 1][..]));
        let pages: Vec<usize> = (1..=k as usize)
            .map(|line| image[64 * line + 6] as usize)
            .collect();
        let header = |&page: &usize| words(128 * page, 128 * page + 7);
        let stores: Outline = pages.iter().flat_map(header).collect();
        let flush = |&page: &usize| (3, 16 * page);
        let flushed: Outline = pages.iter().map(flush).chain([BARRIER]).collect();
        let root = words(1, usize::from(moved));
        let end = vec![(1, 0), (3, 0), BARRIER];
        let tape = &after.tape[..bytes as usize];
        assert_eq!(outline(tape, &image), [stores, flushed, root, end].concat());
    }
}
