//! Transaction and recovery by the reference and by the proved library, on
//! either device: the answer and every buffer are the same. Those without line
//! stores are also held to the others, as document 02 (d) says, and all tapes to
//! what (h) says of barriers. A tape of the size that is said to suffice is never
//! too short.

// Each test uses some of these.
#![allow(dead_code)]

pub mod by_hand;

use cases::random::Random;
use reference::device::{decode, Command, Device, Pending};
use reference::numbers::{of_recovery, of_transaction, work_holds_image};
use reference::recovery::{recover, recover_words};
use reference::tape::count_flushes;
use reference::transaction::{transaction, transaction_words};

/// What an answer array holds before a call.
pub const BEFORE: u64 = 0x5555_aaaa_1234_8765;

/// The buffers of one call; recovery uses no edits.
#[derive(Clone, PartialEq)]
pub struct Call {
    pub image: Vec<u8>,
    pub work: Vec<u8>,
    pub tape: Vec<u8>,
    pub edits: Vec<u8>,
    pub answer: Vec<u64>,
}

impl Call {
    /// A call with buffers as they should be, of any content.
    pub fn new(random: &mut Random, image: &[u8], edits: Vec<u8>) -> Call {
        Call {
            image: image.to_vec(),
            work: vec![random.byte(); image.len()],
            tape: vec![random.byte(); tape_size(image)],
            edits,
            answer: vec![BEFORE; 5],
        }
    }
}

/// QUOTE_TAPE_SIZE of the C header: a tape of so many bytes is never too short for
/// a transaction on either device. 1,600 a page: for each of its 16 lines eight
/// word stores of 12 and a flush of 4. Page 0's share holds the commit, and five
/// barriers of 4.
pub fn tape_size(image: &[u8]) -> usize {
    image.len() / 1024 * 1600
}

/// The same for a recovery: 15 headers of 68 bytes, by words 96, each with a flush
/// of 4; root word and mark of 12; a flush; two barriers of 4.
pub fn recovery_tape_size(device: Device) -> usize {
    match device {
        Device::Lines => 1116,
        Device::Words => 1536,
    }
}

/// The reference's way to make a call on a device, and the proved library's; 0
/// is accepted.
type Ways = [fn(Device, &mut Call) -> u8; 2];

const TRANSACTION: Ways = [
    |device, call| {
        let make = match device {
            Device::Lines => transaction,
            Device::Words => transaction_words,
        };
        let answer = make(&call.image, &mut call.work, &mut call.tape, &call.edits);
        let (number, five) = of_transaction(&answer);
        write(&mut call.answer, five);
        number
    },
    |device, call| {
        let make = match device {
            Device::Lines => proved::transaction,
            Device::Words => proved::transaction_words,
        };
        let (image, work, tape) = (&mut call.image, &mut call.work, &mut call.tape);
        make(image, work, tape, &mut call.edits, &mut call.answer)
    },
];

const RECOVERY: Ways = [
    |device, call| {
        let make = match device {
            Device::Lines => recover,
            Device::Words => recover_words,
        };
        let answer = make(&call.image, &mut call.work, &mut call.tape);
        let (number, two) = of_recovery(&answer);
        if let Some(two) = two {
            write(&mut call.answer, two);
        }
        number
    },
    |device, call| {
        let make = match device {
            Device::Lines => proved::recover,
            Device::Words => proved::recover_words,
        };
        let (image, work, tape) = (&mut call.image, &mut call.work, &mut call.tape);
        make(image, work, tape, &mut call.answer)
    },
];

/// Numbers are written only where there is room for all of them.
fn write<const N: usize>(answer: &mut [u64], numbers: [u64; N]) {
    if let Some(room) = answer.first_chunk_mut() {
        *room = numbers;
    }
}

/// A transaction by both: the answer and what it left. A failure names the call
/// by its number.
pub fn compare_transaction(device: Device, which: usize, call: &Call) -> (u8, Call) {
    let name = format!("call {which}, transaction");
    let (number, after) = compare(&name, TRANSACTION, device, call);
    let used = match after.answer[..] {
        [_, _, _, bytes, _, ..] => bytes,
        _ => 0,
    };
    suffices(tape_size(&call.image), call, number, used);
    if device == Device::Words {
        beside_lines(TRANSACTION, call, number, &after);
    }
    if let (0, &[_, kind, _, bytes, flushes]) = (number, &after.answer[..]) {
        assert!(device == Device::Lines || kind != 1, "commit by a header");
        tape_is_good(device, &after, bytes, flushes);
    }
    (number, after)
}

/// The same of a recovery.
pub fn compare_recovery(device: Device, which: usize, call: &Call) -> (u8, Call) {
    let name = format!("call {which}, recovery");
    let (number, after) = compare(&name, RECOVERY, device, call);
    let used = match after.answer[..] {
        [bytes, _, ..] => bytes,
        _ => 0,
    };
    suffices(recovery_tape_size(device), call, number, used);
    if device == Device::Words {
        beside_lines(RECOVERY, call, number, &after);
    }
    if let (0, &[bytes, flushes]) = (number, &after.answer[..]) {
        tape_is_good(device, &after, bytes, flushes);
    }
    (number, after)
}

fn compare(name: &str, ways: Ways, device: Device, call: &Call) -> (u8, Call) {
    let [reference, proved] = ways;
    let mut left = call.clone();
    let mut right = call.clone();
    let wanted = reference(device, &mut left);
    let given = proved(device, &mut right);
    assert_eq!(given, wanted, "answer of {name}");
    assert_eq!(right.answer, left.answer, "numbers of {name}");
    // Not assert_eq: that would print whole images.
    assert!(right.image == call.image, "image of {name}");
    assert!(right.edits == call.edits, "edits of {name}");
    assert!(right.work == left.work, "work of {name}");
    assert!(right.tape == left.tape, "tape of {name}");
    if wanted != 0 {
        // "The tape stays. Other buffers stay unless said."
        let work = match work_holds_image(wanted) {
            true => &call.image,
            false => &call.work,
        };
        assert!(left.work == *work && left.tape == call.tape);
    }
    (wanted, left)
}

/// Where a tape of this size is lent, "13 tape too short" never comes; and an
/// accepted call uses no more of a longer one.
fn suffices(size: usize, call: &Call, number: u8, used: u64) {
    let lent = call.tape.len();
    assert!(number != 13 || lent < size, "13 with {lent} bytes");
    assert!(number != 0 || used <= size as u64, "{used} bytes used");
}

/// Document 02 (d): "After an accepted call, work matches the line-store
/// device's but for log lines", lines 1 to 15 of page 0. "Refused: as in the
/// present calls", where 13 measures the call's own tape.
fn beside_lines(ways: Ways, call: &Call, number: u8, after: &Call) {
    let mut lines = call.clone();
    let said = ways[1](Device::Lines, &mut lines);
    if (said, number) == (0, 13) {
        return;
    }
    assert_eq!(number, said, "refused unlike the line-store call");
    if number != 0 {
        return assert_eq!(after.answer, lines.answer);
    }
    let log = 64..1024;
    let but_log = |work: &Vec<u8>| [work[..log.start].to_vec(), work[log.end..].to_vec()];
    assert!(but_log(&after.work) == but_log(&lines.work), "work");
}

/// "The number of flushes in the answer is the number of flush commands on the
/// tape", barriers stand where they should, and all stores are durable at the end;
/// without line stores, "use no kind 2 command".
fn tape_is_good(device: Device, after: &Call, bytes: u64, flushes: u64) {
    let commands = decode(&after.tape[..bytes as usize], after.image.len()).unwrap();
    let line_store = |command: &Command| matches!(command, Command::LineStore { .. });
    let any = commands.iter().any(line_store);
    assert!(device == Device::Lines || !any, "a line store");
    assert_eq!(count_flushes(&commands) as u64, flushes, "flushes");
    assert!(barriers_follow_flushes(&commands), "barriers");
    assert!(Pending::after(&commands).stores.is_empty(), "durable");
}

/// Document 02 (h): "Each unbroken group of flushes on every tape is followed by
/// one barrier", and no barrier stands elsewhere.
fn barriers_follow_flushes(commands: &[Command]) -> bool {
    let is_flush = |command: &Command| matches!(command, Command::Flush { .. });
    let good = |(i, command): (usize, &Command)| match commands.get(i + 1) {
        Some(Command::Barrier) => is_flush(command),
        Some(next) => is_flush(next) || !is_flush(command),
        None => !is_flush(command),
    };
    commands.first() != Some(&Command::Barrier) && commands.iter().enumerate().all(good)
}
