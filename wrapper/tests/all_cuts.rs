//! Every cut of a small tape: numbers and order worked by hand, the refusals in
//! their order, and all cuts of small transactions and of a recovery, recovered.

use cases::random::Random;
use quote_store::{calls, Cut, Device, Edit, Refusal, Store, LINE, MOST_CUT_COMMANDS, PAGE};

const SEED: u64 = 20_241_118;

/// No store: of an image only the length matters.
const IMAGE: [u8; 8 * PAGE] = [7; 8 * PAGE];
const LINES: usize = 8 * PAGE / LINE;

const VALUE: &[u8] = b"price 01";

fn word_store(line: usize, word: usize) -> Vec<u8> {
    let [low, high] = ((8 * line + word) as u16).to_le_bytes();
    [&[1, 0, low, high][..], &[9; 8]].concat()
}

fn line_store(line: u8) -> Vec<u8> {
    [&[2, 0, line, 0][..], &[9; LINE]].concat()
}

fn flush(line: u8) -> Vec<u8> {
    vec![3, 0, line, 0]
}

const BARRIER: [u8; 4] = [4, 0, 0, 0];

/// A word store to each of so many lines.
fn spread(lines: usize) -> Vec<u8> {
    (0..lines).flat_map(|line| word_store(line, 0)).collect()
}

/// A row's sum has the cuts after no command, after one, and so on.
#[test]
fn numbers_worked_by_hand() {
    let (store, other) = (word_store(0, 0), word_store(1, 0));
    let (same_line, flush_0, flush_1) = (word_store(0, 1), flush(0), flush(1));
    let rows: [(&[&[u8]], usize); 15] = [
        (&[], 1),
        (&[&flush_0], 1 + 1),
        (&[&BARRIER], 1 + 1),
        (&[&store], 1 + 2),
        (&[&line_store(127)], 1 + 2),
        (&[&store, &other], 1 + 2 + 4),
        (&[&store, &same_line], 1 + 2 + 3),
        (&[&store, &same_line, &line_store(1)], 1 + 2 + 3 + 6),
        // Flushed it is still pending; past the barrier it is not.
        (&[&store, &flush_0], 1 + 2 + 2),
        (&[&store, &flush_0, &BARRIER], 1 + 2 + 2 + 1),
        (&[&store, &flush_1, &BARRIER], 1 + 2 + 2 + 2),
        (&[&store, &BARRIER, &flush_0], 1 + 2 + 2 + 2),
        (&[&store, &flush_0, &same_line, &BARRIER], 1 + 2 + 2 + 3 + 2),
        (&[&store, &flush_0, &BARRIER, &store], 1 + 2 + 2 + 1 + 2),
        (&[&store, &other, &flush_0, &BARRIER], 1 + 2 + 4 + 4 + 2),
    ];
    for (commands, number) in rows {
        assert_eq!(calls::count_cuts(&IMAGE, &commands.concat()), Ok(number));
    }
    for (tape, number) in [
        (flush(0).repeat(12), 13),
        (BARRIER.repeat(12), 13),
        (store.repeat(12), 13 * 14 / 2),
        (spread(12), 8_191),
    ] {
        assert_eq!(calls::count_cuts(&IMAGE, &tape), Ok(number));
        let longer = [tape, flush(0)].concat();
        assert_eq!(calls::count_cuts(&IMAGE, &longer), Err(Refusal::LongTape));
    }
}

/// The cuts of a tape as their counts, and the choices of two lines; those of the
/// others are 0.
fn choices_of_two(tape: &[u8], lines: [usize; 2]) -> Vec<(usize, [u8; 2])> {
    let two = |mut cut: Cut| {
        assert_eq!(cut.choices.len(), LINES);
        let two = lines.map(|line| std::mem::take(&mut cut.choices[line]));
        assert!(cut.choices.iter().all(|choice| *choice == 0));
        (cut.commands, two)
    };
    calls::cuts(&IMAGE, tape).unwrap().map(two).collect()
}

/// The lower line decides first, whichever is stored to first.
#[test]
fn order_worked_by_hand() {
    let falling = [word_store(127, 0), line_store(0)].concat();
    let wanted = [
        (0, [0, 0]),
        (1, [0, 0]),
        (1, [0, 1]),
        (2, [0, 0]),
        (2, [0, 1]),
        (2, [1, 0]),
        (2, [1, 1]),
    ];
    assert_eq!(choices_of_two(&falling, [0, 127]), wanted);

    let twice = [word_store(64, 0), word_store(64, 0)].concat();
    let finished = [flush(64), BARRIER.to_vec()].concat();
    let tape = [twice, word_store(63, 7), finished, word_store(64, 1)].concat();
    let each: [&[[u8; 2]]; 7] = [
        &[[0, 0]],
        &[[0, 0], [0, 1]],
        &[[0, 0], [0, 1], [0, 2]],
        &[[0, 0], [0, 1], [0, 2], [1, 0], [1, 1], [1, 2]],
        &[[0, 0], [0, 1], [0, 2], [1, 0], [1, 1], [1, 2]],
        &[[0, 0], [1, 0]],
        &[[0, 0], [0, 1], [1, 0], [1, 1]],
    ];
    let after = |(c, two): (usize, &&[[u8; 2]])| two.iter().map(|two| (c, *two)).collect();
    let wanted: Vec<Vec<(usize, [u8; 2])>> = each.iter().enumerate().map(after).collect();
    assert_eq!(choices_of_two(&tape, [63, 64]), wanted.concat());
}

/// A command of a random tape, with its line.
#[derive(Clone, Copy, PartialEq)]
enum Command {
    Store(usize),
    Flush(usize),
    Barrier,
}

fn any_commands(random: &mut Random) -> Vec<Command> {
    let lines = random.between(1, 6);
    let count = random.between(0, MOST_CUT_COMMANDS);
    let any = |_| {
        let line = 25 * random.below(lines);
        match random.below(8) {
            0 => Command::Barrier,
            1 | 2 => Command::Flush(line),
            _ => Command::Store(line),
        }
    };
    (0..count).map(any).collect()
}

fn tape_of(commands: &[Command]) -> Vec<u8> {
    let bytes = |command: &Command| match *command {
        Command::Store(line) => word_store(line, 3),
        Command::Flush(line) => flush(line as u8),
        Command::Barrier => BARRIER.to_vec(),
    };
    commands.iter().flat_map(bytes).collect()
}

/// Document 02 (h): whether a store to the line is durable once these commands after
/// it are done, "once its line has been flushed after it and a barrier has come after
/// that flush".
fn is_durable(line: usize, later: &[Command]) -> bool {
    let mut later = later.iter();
    later.any(|command| *command == Command::Flush(line))
        && later.any(|command| *command == Command::Barrier)
}

/// How many stores of each line are pending after these commands.
fn pending(commands: &[Command]) -> Vec<u8> {
    let mut pending = vec![0; LINES];
    for (i, command) in commands.iter().enumerate() {
        if let Command::Store(line) = *command {
            pending[line] += u8::from(!is_durable(line, &commands[i + 1..]));
        }
    }
    pending
}

/// The choices of all lines after these commands: each up to what is pending.
fn ways(commands: &[Command]) -> usize {
    let choices = |most: u8| usize::from(most) + 1;
    pending(commands).into_iter().map(choices).product()
}

/// The cuts rise, so none comes twice. None chooses more than is pending, and there
/// are as many as there are such choices, so every one comes. And `cut` takes each.
#[test]
fn every_cut_and_none_twice() {
    println!("seed {SEED}");
    let mut random = Random::new(SEED);
    let mut work = IMAGE;
    for _ in 0..2_000 {
        let commands = any_commands(&mut random);
        let tape = tape_of(&commands);
        let all: Vec<Cut> = calls::cuts(&IMAGE, &tape).unwrap().collect();
        assert!(all.is_sorted_by(|cut, next| cut < next));
        let number: usize = (0..=commands.len()).map(|c| ways(&commands[..c])).sum();
        assert_eq!(all.len(), number);
        for cut in all {
            let (c, choices) = (cut.commands, cut.choices);
            let most = pending(&commands[..c]);
            assert!((0..LINES).all(|line| choices[line] <= most[line]));
            assert_eq!(calls::cut(&IMAGE, &mut work, &tape, c, &choices), Ok(()));
        }
    }
}

/// Each ground comes before those after it, and a refused call leaves the choices.
#[test]
fn refusals_in_their_order() {
    let (outside, long) = (flush(128), BARRIER.repeat(13));
    let long_outside = [&long[..], &outside].concat();
    let last = [&flush(0).repeat(11)[..], &[3, 0, 0]].concat();
    let (place, second) = (vec![4, 0, 0, 1], vec![4, 1, 0, 0]);
    let rows = [
        (&IMAGE[1..], &outside, 127, Refusal::ImageSize),
        (&IMAGE[..7 * PAGE], &long_outside, 127, Refusal::ImageSize),
        (&IMAGE[..], &long_outside, 127, Refusal::BadTape),
        (&IMAGE[..], &outside, 128, Refusal::BadTape),
        (&IMAGE[..], &last, 127, Refusal::BadTape),
        (&IMAGE[..], &place, 127, Refusal::BadTape),
        (&IMAGE[..], &second, 127, Refusal::BadTape),
        (&IMAGE[..], &long, 127, Refusal::LongTape),
        (&IMAGE[..], &long, 128, Refusal::LongTape),
    ];
    for (image, tape, room, refusal) in rows {
        let mut choices = vec![9; room];
        let given = calls::nth_cut(image, tape, usize::MAX, &mut choices);
        assert_eq!((given, choices), (Err(refusal), vec![9; room]));
        assert_eq!(calls::count_cuts(image, tape), Err(refusal));
        assert_eq!(calls::cuts(image, tape).err(), Some(refusal));
    }
    let tape = spread(12);
    for (room, r, refusal) in [
        (127, 8_191, Refusal::BadChoices),
        (129, 0, Refusal::BadChoices),
        (0, 0, Refusal::BadChoices),
        (128, 8_191, Refusal::NoSuchCut),
        (128, usize::MAX, Refusal::NoSuchCut),
    ] {
        let mut choices = vec![9; room];
        let given = calls::nth_cut(&IMAGE, &tape, r, &mut choices);
        assert_eq!((given, choices), (Err(refusal), vec![9; room]));
    }
}

/// After c stores to lines of their own the choices count in binary, the lowest line
/// first: with a 1 before them they are r + 1.
#[test]
fn the_most_cuts() {
    let image = vec![0; 64 * PAGE];
    let tape: Vec<u8> = (1012..1024).flat_map(|line| word_store(line, 7)).collect();
    let all: Vec<Cut> = calls::cuts(&image, &tape).unwrap().collect();
    assert_eq!(all.len(), 8_191);
    for (r, cut) in all.iter().enumerate() {
        let c = (r + 1).ilog2() as usize;
        let wanted = (0..c).rev().map(|digit| ((r + 1) >> digit & 1) as u8);
        assert_eq!(cut.commands, c);
        assert!(cut.choices[1012..1012 + c].iter().copied().eq(wanted));
        let others = cut.choices[..1012].iter().chain(&cut.choices[1012 + c..]);
        assert!(others.into_iter().all(|choice| *choice == 0));
    }
}

#[test]
fn cuts_from_either_end() {
    let tape = spread(3);
    let cuts = calls::cuts(&IMAGE, &tape).unwrap();
    let all: Vec<Cut> = cuts.clone().collect();
    assert_eq!((cuts.len(), all.len()), (15, 15));
    let mut back: Vec<Cut> = cuts.clone().rev().collect();
    back.reverse();
    assert_eq!(back, all);
    for r in 0..15 {
        assert_eq!(cuts.clone().nth(r).as_ref(), Some(&all[r]));
    }
    let mut some = cuts;
    assert_eq!(some.nth_back(3).as_ref(), Some(&all[11]));
    assert_eq!(some.nth(7).as_ref(), Some(&all[7]));
    assert_eq!(some.len(), 3);
    assert!(some.by_ref().eq(all[8..11].iter().cloned()));
    assert_eq!((some.len(), some.next(), some.next_back()), (0, None, None));
}

/// Every cut of a tape, recovered: it holds the quotes of one store or of the
/// other. How often each, and how often a commit had to be finished.
fn recovered(kind: Device, before: &[u8], tape: &[u8], [old, new]: [&Store; 2]) -> [usize; 3] {
    let mut device = before.to_vec();
    let mut times = [0; 3];
    for cut in calls::cuts(before, tape).expect("the tape is small") {
        calls::cut(before, &mut device, tape, cut.commands, &cut.choices).unwrap();
        let found = Store::open_on(kind, &device).expect("no cut is refused");
        let is_new = found.iter().eq(new.iter());
        assert!(is_new || found.iter().eq(old.iter()));
        times[usize::from(is_new)] += 1;
        times[2] += usize::from(found.waiting() > 0);
    }
    times
}

/// A store with quotes 10, 20, .. 290, which lie in two leaves.
fn two_leaves(kind: Device) -> Store {
    let mut store = Store::fresh_on(kind, 8).unwrap();
    for i in 1..=29 {
        let edit = Edit::Insert {
            key: 10 * i,
            value: VALUE,
        };
        store.apply(&[edit]).unwrap();
    }
    let _ = store.take_tape();
    store
}

/// A record of three words in one line, a flush and a barrier, then its header: a
/// store, a flush and a barrier. A delete has these three alone.
#[test]
fn small_transactions_hold_the_old_quotes_or_the_new() {
    let insert = Edit::Insert {
        key: 15,
        value: VALUE,
    };
    let update = Edit::Update {
        key: 10,
        value: b"price 02",
    };
    let delete = Edit::Delete { key: 10 };
    // Old: 1 + 2 + 3 + 4 and again 4 up to the record's flush, 1 past the barrier; one
    // of two past the header's store, and past its flush.
    let rows = [
        (insert, [17, 3, 0]),
        (update, [17, 3, 0]),
        (delete, [3, 3, 0]),
    ];
    for (edit, times) in rows {
        let mut store = two_leaves(Device::Lines);
        let old = Store::open(store.image()).unwrap();
        store.apply(&[edit]).unwrap();
        let tape = store.take_tape();
        let found = recovered(Device::Lines, old.image(), &tape, [&old, &store]);
        assert_eq!(found, times, "{edit:?}");
    }
}

/// A log has more commands, also one of a header alone without line stores. The
/// recovery of two headers has 8: both stored and flushed, a barrier, the mark cleared
/// and flushed, a barrier.
#[test]
fn cut_recoveries_are_recovered() {
    let mut store = two_leaves(Device::Lines);
    let before = store.image().to_vec();
    let mut words = Store::open_on(Device::Words, &before).unwrap();
    words.apply(&[Edit::Delete { key: 10 }]).unwrap();
    store
        .apply(&[10, 290].map(|key| Edit::Delete { key }))
        .unwrap();
    let tape = store.take_tape();
    for long in [&tape, &words.take_tape()] {
        assert_eq!(calls::count_cuts(&before, long), Err(Refusal::LongTape));
    }

    let mut device = before.clone();
    let waits = (0..).find(|&c| {
        calls::cut(&before, &mut device, &tape, c, &[255; LINES]).unwrap();
        calls::check(&device) == Err(Refusal::MarkWaits)
    });
    assert!(waits.is_some());
    let redo = Store::open(&device).unwrap().take_tape();
    let times = recovered(Device::Lines, &device, &redo, [&store, &store]);
    // 1 + 2 + 4 up to the headers' stores, 4 after each flush, 1 past the barrier; the
    // mark, its flush, its barrier. The mark stands until its clearing is kept.
    let headers = 1 + 2 + 4 + 4 + 4 + 1;
    assert_eq!(times, [0, headers + 2 + 2 + 1, headers + 1 + 1]);
}
