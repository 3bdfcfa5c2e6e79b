//! Document 01, 'Worked on paper': every row about the store, on the reference
//! and on the proved library. Each test starts with its row.

use cases::images::even;
use cases::logs::waiting;
use cases::random::Random;
use reference::device::{decode, run, Command};
use reference::edits::{Edit, Kind};
use reference::image::{check, format, lookup, sound_leaves, table};
use reference::page::Header;
use reference::recovery::{recover, Recovered};
use reference::tape::CommitPlace;
use reference::transaction::{transaction, Accepted};
use reference::Refusal;

fn fresh() -> Vec<u8> {
    let mut image = vec![0xee; 8 * 1024];
    format(&mut image).unwrap();
    image
}

fn edit(kind: Kind, key: u64, value: &[u8]) -> Edit {
    let value = value.to_vec();
    Edit { kind, key, value }
}

fn insert(key: u64, length: usize) -> Edit {
    edit(Kind::Insert, key, &vec![7; length])
}

fn list(edits: &[Edit]) -> Vec<u8> {
    edits.iter().flat_map(Edit::encode).collect()
}

/// Work and tape as they are lent.
fn buffers(image: &[u8]) -> (Vec<u8>, Vec<u8>) {
    (vec![0xcc; image.len()], vec![0xdd; 16_384])
}

/// The same transaction by the proved library gives the same.
fn also_proved(image: &[u8], list: &[u8], answer: &Result<Accepted, Refusal>, left: [&[u8]; 2]) {
    let (mut work, mut tape) = buffers(image);
    let mut five = [7; 5];
    let (lent, list) = (&mut image.to_vec(), &mut list.to_vec());
    let number = proved::transaction(lent, &mut work, &mut tape, list, &mut five);
    assert_eq!((number, five), reference::numbers::of_transaction(answer));
    assert!(*lent == image && left == [&work[..], &tape[..]]);
}

/// The same recovery by the proved library gives the same.
fn also_proved_recovery(image: &[u8], answer: &Result<Recovered, Refusal>, left: [&[u8]; 2]) {
    let (mut work, mut tape) = buffers(image);
    let mut two = [7; 2];
    let lent = &mut image.to_vec();
    let number = proved::recover(lent, &mut work, &mut tape, &mut two);
    let (wanted, numbers) = reference::numbers::of_recovery(answer);
    assert_eq!((number, two), (wanted, numbers.unwrap_or([7; 2])));
    assert!(*lent == image && left == [&work[..], &tape[..]]);
}

/// One transaction: its answer and tape. Accepted, the image becomes work,
/// which is what its tape makes of the image.
fn send(image: &mut Vec<u8>, edits: &[Edit]) -> Result<(Accepted, Vec<Command>), Refusal> {
    let (mut work, mut tape) = buffers(image);
    let answer = transaction(image, &mut work, &mut tape, &list(edits));
    also_proved(image, &list(edits), &answer, [&work, &tape]);
    let answer = answer?;
    assert!(tape[answer.bytes..].iter().all(|&byte| byte == 0xdd));
    tape.truncate(answer.bytes);
    let mut run_work = vec![0; image.len()];
    run(image, &mut run_work, &tape).unwrap();
    assert!(
        run_work == work,
        "work is the image after the tape's stores"
    );
    let commands = decode(&tape, image.len())?;
    *image = work;
    Ok((answer, commands))
}

fn send_recovery(image: &[u8]) -> Result<Recovered, Refusal> {
    let (mut work, mut tape) = buffers(image);
    let answer = recover(image, &mut work, &mut tape);
    also_proved_recovery(image, &answer, [&work, &tape]);
    answer
}

fn refused<T>(answer: Result<T, Refusal>) -> (u8, usize) {
    let refusal = answer.err().expect("a refusal");
    (refusal.number, refusal.edit)
}

fn header(image: &[u8], page: usize) -> Header {
    Header::read(&image[page * 1024..][..1024]).unwrap()
}

/// A command as (kind, place); a barrier's place is 0.
fn outline(commands: &[Command]) -> Vec<(u8, usize)> {
    let short = |command: &Command| match command {
        Command::WordStore { word, .. } => (1, *word),
        Command::LineStore { line, .. } => (2, *line),
        Command::Flush { line } => (3, *line),
        Command::Barrier => (4, 0),
    };
    commands.iter().map(short).collect()
}

/// "Fresh, 8 pages; insert 101 with 8 value bytes, none zero: offset 1,000;
/// words 381-383; flush 47; line 32; flush 32; 112 bytes, 2 flushes." Document 02
/// (h), a barrier behind each flush: "The first two worked tapes become 120 and
/// 108 bytes."
#[test]
fn first_insert() {
    let mut image = fresh();
    let (answer, commands) = send(&mut image, &[insert(101, 8)]).unwrap();
    assert_eq!(header(&image, 2).slots, [1000]);
    assert_eq!(lookup(&image, 101), Ok(Some((2 * 1024 + 1016, 8))));
    let record = [(1, 381), (1, 382), (1, 383), (3, 47), (4, 0)];
    let header = [(2, 32), (3, 32), (4, 0)];
    assert_eq!(outline(&commands), [&record[..], &header].concat());
    let place = CommitPlace::Header { page: 2 };
    let (bytes, flushes) = (120, 2);
    assert_eq!(
        answer,
        Accepted {
            place,
            bytes,
            flushes
        }
    );
}

/// "The same, value all zero bytes: 100 bytes." With the two barriers 108.
#[test]
fn first_insert_of_zeros() {
    let zeros = edit(Kind::Insert, 101, &[0; 8]);
    let (answer, _) = send(&mut fresh(), &[zeros]).unwrap();
    assert_eq!(answer.bytes, 108);
}

/// "Empty list: 5. Seventeen edits: 5, edit 16."
#[test]
fn lists_too_short_and_too_long() {
    assert_eq!(refused(send(&mut fresh(), &[])), (5, 0));
    let seventeen: Vec<Edit> = (1..=17).map(|key| insert(key, 1)).collect();
    assert_eq!(refused(send(&mut fresh(), &seventeen)), (5, 16));
    assert!(send(&mut fresh(), &seventeen[..16]).is_ok());
}

/// "Value 200 accepted (216 bytes); 201: 7."
#[test]
fn longest_value() {
    let mut image = fresh();
    send(&mut image, &[insert(1, 200)]).unwrap();
    assert_eq!(header(&image, 2).start, 1024 - 216);
    assert_eq!(refused(send(&mut fresh(), &[insert(1, 201)])), (7, 0));
}

/// "Key 0: 6; 999,999,999,999 accepted; one more: 6."
#[test]
fn limits_of_keys() {
    assert_eq!(refused(send(&mut fresh(), &[insert(0, 8)])), (6, 0));
    assert!(send(&mut fresh(), &[insert(999_999_999_999, 8)]).is_ok());
    assert_eq!(
        refused(send(&mut fresh(), &[insert(1_000_000_000_000, 8)])),
        (6, 0)
    );
}

/// "Fresh, 8 pages, then 28 records of 24 bytes with no copy, and one more of
/// 24: 15 left on page 7, 14 right on page 6; index start 952; page 2 free."
#[test]
fn split_of_29_records() {
    let mut image = fresh();
    for key in 1..=28 {
        send(&mut image, &[insert(key, 8)]).unwrap();
    }
    assert_eq!(header(&image, 2).slots.len(), 28);
    let page_two = image[2 * 1024..3 * 1024].to_vec();
    let (answer, _) = send(&mut image, &[insert(29, 8)]).unwrap();
    assert_eq!(answer.place, CommitPlace::Header { page: 1 });
    let leaves = sound_leaves(&image).unwrap();
    let shape: Vec<(usize, usize)> = (leaves.iter())
        .map(|leaf| (leaf.page, leaf.records.len()))
        .collect();
    assert_eq!(shape, [(7, 15), (6, 14)]);
    assert_eq!(header(&image, 1).start, 952);
    assert!(image[2 * 1024..3 * 1024] == page_two);
}

/// "Four of 216: an 80-byte value fits, start 64; 81 splits 3 and 2 if its key
/// is largest."
#[test]
fn last_bytes_of_a_leaf() {
    let mut image = fresh();
    let four: Vec<Edit> = (1..=4).map(|key| insert(key, 200)).collect();
    send(&mut image, &four).unwrap();
    let mut fits = image.clone();
    send(&mut fits, &[insert(5, 80)]).unwrap();
    assert_eq!(header(&fits, 2).start, 64);
    assert_eq!(header(&fits, 2).slots.len(), 5);
    send(&mut image, &[insert(5, 81)]).unwrap();
    let leaves = sound_leaves(&image).unwrap();
    let counts: Vec<usize> = leaves.iter().map(|leaf| leaf.records.len()).collect();
    assert_eq!(counts, [3, 2]);
}

/// "Fresh, 8 pages, one 8-byte value, then updated by 39 transactions of one
/// edit: start 64; the next copies it to page 7, start 1,000."
#[test]
fn forty_versions_fill_a_leaf() {
    let mut image = fresh();
    send(&mut image, &[insert(3, 8)]).unwrap();
    for version in 0..39 {
        send(&mut image, &[edit(Kind::Update, 3, &[version; 8])]).unwrap();
    }
    assert_eq!(header(&image, 2).start, 64);
    send(&mut image, &[edit(Kind::Update, 3, &[40; 8])]).unwrap();
    assert_eq!(header(&image, 7).start, 1000);
    assert_eq!(sound_leaves(&image).unwrap()[0].page, 7);
    assert_eq!(table(&image), Some(vec![(3, vec![40; 8])]));
}

/// "Insert 5 then delete 5 alone: accepted, table empty."
#[test]
fn insert_and_delete() {
    let mut image = fresh();
    let both = [insert(5, 8), edit(Kind::Delete, 5, &[])];
    send(&mut image, &both).unwrap();
    assert_eq!(table(&image), Some(Vec::new()));
    assert_eq!(header(&image, 2).start, 1000);
}

/// "Updates in 15 leaves, no copies: accepted; in 16: 12."
#[test]
fn log_of_15_headers() {
    let built = even(&mut Random::new(1), 64, 16, 32);
    let updates: Vec<Edit> = (built.leaves.iter())
        .map(|leaf| edit(Kind::Update, leaf.places[0].key, &[9; 8]))
        .collect();
    let mut image = built.image.clone();
    let (answer, commands) = send(&mut image, &updates[..15]).unwrap();
    assert_eq!(answer.place, CommitPlace::Log);
    assert!(commands.contains(&Command::Flush { line: 15 }));
    let mut image = built.image.clone();
    assert_eq!(refused(send(&mut image, &updates)), (12, 0));
    assert!(image == built.image);
}

/// "Mark with k = 0 or 16: 4."
#[test]
fn marks_out_of_range() {
    for (k, number) in [(0, 4), (16, 4), (1, 3), (15, 3)] {
        let mut image = fresh();
        image[..8].copy_from_slice(&[1, k, 1, 0, 0, 0, 0, 0]);
        assert_eq!(refused(check(&image)), (number, 0));
        assert_eq!(refused(send(&mut image, &[insert(1, 8)])), (number, 0));
        // The log holds zeros, which is no page number.
        assert_eq!(refused(send_recovery(&image)), (4, 0));
    }
}

/// The same with a log of as many good headers: accepted, k from 1 to 15.
#[test]
fn marks_in_range() {
    let built = even(&mut Random::new(1), 64, 16, 32);
    for k in 1..=15 {
        let image = waiting(&mut Random::new(k), &built, k as usize);
        let recovered = send_recovery(&image).unwrap();
        assert_eq!(recovered.flushes, k as usize + 1);
        for k in [0, 16] {
            let mut wrong = image.clone();
            wrong[1] = k;
            assert_eq!(refused(send_recovery(&wrong)), (4, 0));
        }
    }
}
