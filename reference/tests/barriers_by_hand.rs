//! Document 02 (h), "Flush starts, barrier finishes": run and cut on tapes worked
//! out by hand. Each call is made by the reference and by the proved library. (The
//! lists of cuts: cuts_by_hand. The tapes of the calls: worked, words_by_hand, cost.)

use reference::device;

/// An image of 8 pages that is no store: the device asks for none.
const IMAGE: [u8; 8192] = [0xee; 8192];
const LINES: usize = 128;

/// The two lines that are stored to, and what their first byte is before.
const ONE: usize = 5;
const TWO: usize = 6;
const OLD: u8 = 0xee;

const BARRIER: [u8; 4] = [4, 0, 0, 0];

/// A word store of this byte, eight times, at a line's start.
fn store(line: usize, byte: u8) -> Vec<u8> {
    [vec![1, 0, 8 * line as u8, 0], vec![byte; 8]].concat()
}

fn flush(line: usize) -> Vec<u8> {
    vec![3, 0, line as u8, 0]
}

fn barrier() -> Vec<u8> {
    BARRIER.to_vec()
}

fn number(answer: Result<(), reference::Refusal>) -> u8 {
    answer.map_or_else(|refusal| refusal.number, |()| 0)
}

/// The cut of a tape after c commands, by both: the answer and work.
fn cut(tape: &[u8], c: usize, choice: u8) -> (u8, Vec<u8>) {
    let (mut work, mut choices) = (vec![0x77; IMAGE.len()], vec![choice; LINES]);
    let answer = device::cut(&IMAGE, &mut work, tape, c, &choices);
    let (mut image, mut other, mut lent) = (IMAGE, vec![0x77; IMAGE.len()], tape.to_vec());
    let given = proved::cut(&mut image, &mut other, &mut lent, c, &mut choices);
    assert_eq!(given, number(answer), "cut of {tape:?}");
    assert!(other == work && image == IMAGE, "cut of {tape:?}");
    (given, work)
}

/// The same of a run.
fn run(tape: &[u8]) -> (u8, Vec<u8>) {
    let mut work = vec![0x77; IMAGE.len()];
    let answer = device::run(&IMAGE, &mut work, tape);
    let (mut image, mut other, mut lent) = (IMAGE, vec![0x77; IMAGE.len()], tape.to_vec());
    let given = proved::run(&mut image, &mut other, &mut lent);
    assert_eq!(given, number(answer), "run of {tape:?}");
    assert!(other == work && image == IMAGE, "run of {tape:?}");
    (given, work)
}

/// What the two lines hold after all of these commands if each line keeps so many
/// pending stores: none, one and all. A run leaves what the cut that keeps all does.
fn kept(commands: &[Vec<u8>]) -> [[u8; 2]; 3] {
    let tape = commands.concat();
    let left = |choice| {
        let (answer, work) = cut(&tape, commands.len(), choice);
        assert_eq!(answer, 0);
        work
    };
    assert_eq!(run(&tape), (0, left(255)));
    [0, 1, 255].map(|choice| {
        let work = left(choice);
        [work[64 * ONE], work[64 * TWO]]
    })
}

/// "A flush .. only starts the write-back; a barrier waits for it."
#[test]
fn store_flush_and_barrier() {
    let tape = [store(ONE, 1), flush(ONE), barrier()];
    assert_eq!(kept(&tape[..1]), [[OLD, OLD], [1, OLD], [1, OLD]]);
    assert_eq!(kept(&tape[..2]), [[OLD, OLD], [1, OLD], [1, OLD]]);
    assert_eq!(kept(&tape), [[1, OLD], [1, OLD], [1, OLD]]);
}

/// "A barrier has come after that flush": one before it does not count.
#[test]
fn barrier_before_the_flush() {
    let tape = [store(ONE, 1), barrier(), flush(ONE), barrier()];
    assert_eq!(kept(&tape[..3]), [[OLD, OLD], [1, OLD], [1, OLD]]);
    assert_eq!(kept(&tape), [[1, OLD]; 3]);
}

/// "Its line has been flushed after it": not before, and not another line.
#[test]
fn flush_before_the_store() {
    let early = [flush(ONE), store(ONE, 1), barrier()];
    let other = [store(ONE, 1), flush(TWO), barrier()];
    for tape in [early, other] {
        assert_eq!(kept(&tape), [[OLD, OLD], [1, OLD], [1, OLD]]);
    }
}

/// A store between the flush and the barrier is not covered by them, nor by a
/// second barrier; a choice counts from it on.
#[test]
fn store_between_flush_and_barrier() {
    let tape = [
        store(ONE, 1),
        flush(ONE),
        store(ONE, 2),
        barrier(),
        barrier(),
    ];
    assert_eq!(kept(&tape[..3]), [[OLD, OLD], [1, OLD], [2, OLD]]);
    assert_eq!(kept(&tape[..4]), [[1, OLD], [2, OLD], [2, OLD]]);
    assert_eq!(kept(&tape), [[1, OLD], [2, OLD], [2, OLD]]);
}

/// A second flush before the barrier covers both stores.
#[test]
fn two_flushes_of_a_line() {
    let tape = [
        store(ONE, 1),
        flush(ONE),
        store(ONE, 2),
        flush(ONE),
        barrier(),
    ];
    assert_eq!(kept(&tape[..4]), [[OLD, OLD], [1, OLD], [2, OLD]]);
    assert_eq!(kept(&tape), [[2, OLD]; 3]);
}

/// What is durable stays so, whatever is flushed later.
#[test]
fn store_after_a_barrier() {
    let tape = [
        store(ONE, 1),
        flush(ONE),
        barrier(),
        store(ONE, 2),
        flush(ONE),
    ];
    assert_eq!(kept(&tape), [[1, OLD], [2, OLD], [2, OLD]]);
}

/// One barrier is for all lines flushed before it, also if stores of others come
/// between, and for no other line.
#[test]
fn one_barrier_for_all_flushes() {
    let both = [
        store(ONE, 1),
        flush(ONE),
        store(TWO, 2),
        flush(TWO),
        barrier(),
    ];
    assert_eq!(kept(&both[..4]), [[OLD, OLD], [1, 2], [1, 2]]);
    assert_eq!(kept(&both), [[1, 2]; 3]);
    let one = [store(ONE, 1), store(TWO, 2), flush(ONE), barrier()];
    assert_eq!(kept(&one), [[1, OLD], [1, 2], [1, 2]]);
}

/// Barriers without flushes before them, and repeated ones, are well formed, and
/// store nothing.
#[test]
fn barriers_alone() {
    assert_eq!(kept(&[barrier()]), [[OLD, OLD]; 3]);
    assert_eq!(kept(&vec![barrier(); 300]), [[OLD, OLD]; 3]);
    let (answer, work) = run(&BARRIER.repeat(2));
    assert!(answer == 0 && work == IMAGE);
    // They count as commands.
    assert_eq!(cut(&BARRIER, 1, 0).0, 0);
    assert_eq!(cut(&BARRIER, 2, 0).0, 15);
}

/// "14 now also for kind 4 with a place other than 0"; a second byte other than 0
/// is malformed as in every command, and so is a head cut short. "Nothing
/// following": bytes behind it are the next command.
#[test]
fn malformed_barriers() {
    let places =
        [[1, 0], [127, 0], [128, 0], [0, 1], [255, 255]].map(|[low, high]| [4, 0, low, high]);
    let second = [[4, 1, 0, 0], [4, 255, 0, 0], [4, 4, 0, 0]];
    for bad in [&places[..], &second].concat() {
        let behind = [&store(ONE, 1)[..], &bad].concat();
        let before = [&bad[..], &store(ONE, 1)].concat();
        for tape in [&bad[..], &behind, &before] {
            assert_eq!(run(tape), (14, vec![0x77; IMAGE.len()]));
            assert_eq!(cut(tape, 0, 0).0, 14);
        }
    }
    for length in 1..4 {
        assert_eq!(run(&BARRIER[..length]).0, 14);
    }
    assert_eq!(run(&[&BARRIER[..], &[7; 8]].concat()).0, 14);
}
