//! Document 02 (e), "All cuts of a small tape", on tapes worked out by hand, by
//! the rule of (h). Each call is made by the reference and by the proved library.

mod both;

use both::cuts::Tape;
use both::number;
use reference::cuts::nth_cut;

/// An image of 8 pages that is no store: "no soundness is asked".
const IMAGE: [u8; 8192] = [0xee; 8192];
const LINES: usize = 128;

/// Commands on a line: its first word stored, its last, the whole of it, flushed.
fn word(line: usize) -> Vec<u8> {
    command(1, 8 * line, 8)
}

fn last_word(line: usize) -> Vec<u8> {
    command(1, 8 * line + 7, 8)
}

fn whole(line: usize) -> Vec<u8> {
    command(2, line, 64)
}

fn flush(line: usize) -> Vec<u8> {
    command(3, line, 0)
}

fn barrier() -> Vec<u8> {
    command(4, 0, 0)
}

fn command(kind: u8, place: usize, size: usize) -> Vec<u8> {
    let [low, high] = (place as u16).to_le_bytes();
    [vec![kind, 0, low, high], vec![7; size]].concat()
}

/// A cut as its count, and line and choice where the choice is not 0.
type Row = (usize, Vec<(usize, u8)>);

fn short(count: usize, choices: &[u8]) -> Row {
    let lines = choices.iter().copied().enumerate();
    (count, lines.filter(|&(_, choice)| choice != 0).collect())
}

/// Cut number r.
fn cut(commands: &[Vec<u8>], r: usize) -> Row {
    let bytes = commands.concat();
    let mut choices = vec![0xdd; LINES];
    let (count, given) = Tape::new(&IMAGE, &bytes).nth(r, &choices, 1);
    assert_eq!(nth_cut(&IMAGE, &bytes, r, &mut choices), count);
    assert_eq!(choices, given);
    short(count.unwrap(), &given)
}

fn count(commands: &[Vec<u8>]) -> usize {
    Tape::new(&IMAGE, &commands.concat()).count(1).unwrap()
}

/// All cuts are these.
fn all(commands: &[Vec<u8>], rows: &[Row]) {
    assert_eq!(count(commands), rows.len());
    for (r, row) in rows.iter().enumerate() {
        assert_eq!(cut(commands, r), *row, "cut {r}");
    }
}

/// The refusals of both calls for these bytes, with so many choices.
fn refused(image: &[u8], bytes: &[u8], r: usize, choices: usize) -> (u8, u8) {
    let mut tape = Tape::new(image, bytes);
    let count = tape.count(1);
    let (answer, _) = tape.nth(r, &vec![0xdd; choices], 1);
    (number(&count), number(&answer))
}

#[test]
fn no_command() {
    all(&[], &[(0, vec![])]);
}

#[test]
fn one_store() {
    for store in [word(5), last_word(5), whole(5)] {
        let rows = [(0, vec![]), (1, vec![]), (1, vec![(5, 1)])];
        all(&[store], &rows);
    }
}

/// Flushes and barriers count as commands.
#[test]
fn one_flush_or_barrier() {
    all(&[flush(5)], &[(0, vec![]), (1, vec![])]);
    all(&[barrier()], &[(0, vec![]), (1, vec![])]);
}

/// Flushed, the store is still pending; past the barrier it is not: 1 + 2 + 2 + 1.
#[test]
fn store_flush_and_barrier() {
    let rows = [
        (0, vec![]),
        (1, vec![]),
        (1, vec![(5, 1)]),
        (2, vec![]),
        (2, vec![(5, 1)]),
        (3, vec![]),
    ];
    let tape = [word(5), flush(5), barrier()];
    all(&tape[..2], &rows[..5]);
    all(&tape, &rows);
}

/// A barrier waits for the flushes before it, not for later ones: 1 + 2 + 2 + 2,
/// and 1 past a second barrier.
#[test]
fn barrier_before_the_flush() {
    let rows = [
        (0, vec![]),
        (1, vec![]),
        (1, vec![(5, 1)]),
        (2, vec![]),
        (2, vec![(5, 1)]),
        (3, vec![]),
        (3, vec![(5, 1)]),
        (4, vec![]),
    ];
    all(&[word(5), barrier(), flush(5), barrier()], &rows);
}

/// What is stored between the flush and the barrier is not covered by them, and
/// is counted from there: 1 + 2 + 2 + 3 + 2.
#[test]
fn store_between_flush_and_barrier() {
    let rows = [
        (0, vec![]),
        (1, vec![]),
        (1, vec![(5, 1)]),
        (2, vec![]),
        (2, vec![(5, 1)]),
        (3, vec![]),
        (3, vec![(5, 1)]),
        (3, vec![(5, 2)]),
        (4, vec![]),
        (4, vec![(5, 1)]),
    ];
    all(&[word(5), flush(5), whole(5), barrier()], &rows);
}

/// The flush of another line leaves it pending: 1 + 2 + 2 + 2.
#[test]
fn store_and_flush_of_another_line() {
    let each = |c| [(c, vec![]), (c, vec![(5, 1)])];
    let counts = [each(1), each(2), each(3)].concat();
    let rows = [vec![(0, vec![])], counts].concat();
    all(&[word(5), flush(4), barrier()], &rows);
}

/// One barrier is enough for the flushes of two lines: 1 + 2 + 4 + 4 + 4 + 1.
#[test]
fn two_lines_and_one_barrier() {
    let tape = [word(5), word(6), flush(6), flush(5), barrier()];
    assert_eq!(count(&tape), 16);
    assert_eq!(cut(&tape, 14), (4, vec![(5, 1), (6, 1)]));
    assert_eq!(cut(&tape, 15), (5, vec![]));
}

/// Line 2 is the more significant one, though it is stored to after line 5.
#[test]
fn two_lines() {
    let rows = [
        (0, vec![]),
        (1, vec![]),
        (1, vec![(5, 1)]),
        (2, vec![]),
        (2, vec![(5, 1)]),
        (2, vec![(2, 1)]),
        (2, vec![(2, 1), (5, 1)]),
    ];
    all(&[word(5), whole(2)], &rows);
}

/// The first line and the last one.
#[test]
fn both_ends() {
    let rows = [
        (0, vec![]),
        (1, vec![]),
        (1, vec![(0, 1)]),
        (2, vec![]),
        (2, vec![(127, 1)]),
        (2, vec![(0, 1)]),
        (2, vec![(0, 1), (127, 1)]),
    ];
    all(&[word(0), last_word(127)], &rows);
}

/// Stores to two words of a line are two of its stores: 1 + 2 + 3.
#[test]
fn one_line_twice() {
    let rows = [
        (0, vec![]),
        (1, vec![]),
        (1, vec![(5, 1)]),
        (2, vec![]),
        (2, vec![(5, 1)]),
        (2, vec![(5, 2)]),
    ];
    all(&[word(5), last_word(5)], &rows);
}

/// One flush and one barrier are enough for both: 1 + 2 + 3 + 3 + 1.
#[test]
fn one_line_twice_flush_and_barrier() {
    let rows = [
        (0, vec![]),
        (1, vec![]),
        (1, vec![(5, 1)]),
        (2, vec![]),
        (2, vec![(5, 1)]),
        (2, vec![(5, 2)]),
        (3, vec![]),
        (3, vec![(5, 1)]),
        (3, vec![(5, 2)]),
        (4, vec![]),
    ];
    all(&[word(5), word(5), flush(5), barrier()], &rows);
}

/// What is stored after a barrier is counted from there: 1 + 2 + 2 + 1 + 2 + 4.
#[test]
fn store_after_a_barrier() {
    let rows = [
        (0, vec![]),
        (1, vec![]),
        (1, vec![(5, 1)]),
        (2, vec![]),
        (2, vec![(5, 1)]),
        (3, vec![]),
        (4, vec![]),
        (4, vec![(5, 1)]),
        (5, vec![]),
        (5, vec![(6, 1)]),
        (5, vec![(5, 1)]),
        (5, vec![(5, 1), (6, 1)]),
    ];
    all(&[word(5), flush(5), barrier(), whole(5), word(6)], &rows);
}

/// 1 + 2 + 4 and so on to 4,096: the most cuts that a tape can have.
#[test]
fn twelve_lines() {
    let stores: Vec<Vec<u8>> = (0..12).map(|i| word(10 * i)).collect();
    assert_eq!(count(&stores), 8191);
    // Those before are of 11 commands and fewer.
    assert_eq!(cut(&stores, 4094).0, 11);
    assert_eq!(cut(&stores, 4095), (12, vec![]));
    assert_eq!(cut(&stores, 4096), (12, vec![(110, 1)]));
    assert_eq!(cut(&stores, 4095 + 2048), (12, vec![(0, 1)]));
    let all: Vec<(usize, u8)> = (0..12).map(|i| (10 * i, 1)).collect();
    assert_eq!(cut(&stores, 8190), (12, all));
}

/// 1 + 2 and so on to 13.
#[test]
fn one_line_twelve_times() {
    let stores = vec![word(127); 12];
    assert_eq!(count(&stores), 91);
    assert_eq!(cut(&stores, 89), (12, vec![(127, 11)]));
    assert_eq!(cut(&stores, 90), (12, vec![(127, 12)]));
}

/// "Refused: 1, then 14, then 17 if the tape has over 12 commands, then 16 for
/// the choices buffer, then 18 if r is not below the number; the counting call
/// has only the first three."
#[test]
fn refusals_in_order() {
    let past = usize::MAX;
    let one = word(5);
    let twelve = [vec![flush(5); 11], vec![barrier()]].concat().concat();
    let thirteen = [&twelve[..], &barrier()].concat();
    let bad = [&thirteen[..], &[5, 0, 0, 0]].concat();
    assert_eq!(refused(&[0xee; 8191], &bad, past, 0), (1, 1));
    assert_eq!(refused(&[0xee; 7 * 1024], &bad, past, 0), (1, 1));
    assert_eq!(refused(&[0xee; 65 * 1024], &one, 0, 65 * 16), (1, 1));
    assert_eq!(refused(&IMAGE, &bad, past, 0), (14, 14));
    assert_eq!(refused(&IMAGE, &word(LINES), past, 0), (14, 14));
    assert_eq!(refused(&IMAGE, &one[..11], 0, LINES), (14, 14));
    assert_eq!(refused(&IMAGE, &[4, 0, 1, 0], 0, LINES), (14, 14));
    assert_eq!(refused(&IMAGE, &[4, 1, 0, 0], 0, LINES), (14, 14));
    assert_eq!(refused(&IMAGE, &thirteen, past, 0), (17, 17));
    assert_eq!(refused(&IMAGE, &thirteen, 0, LINES), (17, 17));
    assert_eq!(refused(&IMAGE, &one, past, LINES - 1), (0, 16));
    assert_eq!(refused(&IMAGE, &one, 0, LINES + 1), (0, 16));
    assert_eq!(refused(&IMAGE, &one, past, LINES), (0, 18));
    assert_eq!(refused(&IMAGE, &one, 3, LINES), (0, 18));
    assert_eq!(refused(&IMAGE, &one, 2, LINES), (0, 0));
    // 12 commands are not too many.
    assert_eq!(refused(&IMAGE, &twelve, 13, LINES), (0, 18));
    assert_eq!(refused(&IMAGE, &twelve, 12, LINES), (0, 0));
}

/// The largest image, whose last line is number 1,023.
#[test]
fn largest_image() {
    let image = [0xee; 64 * 1024];
    assert_eq!(refused(&image, &whole(1023), 2, 1024), (0, 0));
    assert_eq!(refused(&image, &whole(1024), 2, 1024), (14, 14));
}
