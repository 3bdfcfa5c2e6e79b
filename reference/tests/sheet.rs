//! The sheet program, run as a process: what it writes is what the reference
//! writes, byte for byte, on document 01's example, on the sheets of
//! `examples/`, on every case below and on random sheets, good and damaged.

use cases::random::Random;
use reference::sheet::sheet;
use std::io::Write;
use std::path::PathBuf;
use std::process::{Command, Stdio};
use std::thread::sleep;
use std::time::Duration;

const SEED: u64 = 20_241_115;
const SHEETS: usize = 600;
const HEADING: &str = "pageslot          key len\n";

// ---- running it

fn root() -> PathBuf {
    PathBuf::from(env!("CARGO_MANIFEST_DIR")).join("..")
}

/// What a program writes for an input that is handed over in these pieces.
fn output(mut program: Command, pieces: &[&[u8]]) -> Vec<u8> {
    let mut child = program
        .stdin(Stdio::piped())
        .stdout(Stdio::piped())
        .spawn()
        .expect("the program starts");
    let mut input = child.stdin.take().expect("its standard input is a pipe");
    for (i, piece) in pieces.iter().enumerate() {
        if i > 0 {
            sleep(Duration::from_millis(30));
        }
        // it does not read what is past line 2,001
        let _ = input.write_all(piece);
    }
    drop(input);
    let done = child.wait_with_output().expect("the program ends");
    assert!(done.status.success(), "the program ended with an error");
    done.stdout
}

fn program() -> Command {
    let program = root().join("crates/sheet/out/sheet");
    assert!(
        program.exists(),
        "crates/sheet/out/sheet is missing. Make it with 'rt run' in the folder crates/sheet."
    );
    Command::new(program)
}

/// What the program writes, which must be what the reference writes.
fn run(input: &[u8]) -> String {
    let wrote = output(program(), &[input]);
    let wanted = sheet(input);
    assert!(
        wrote == wanted,
        "input:\n{}\nwrote:\n{}\nwanted:\n{}",
        String::from_utf8_lossy(input),
        String::from_utf8_lossy(&wrote),
        String::from_utf8_lossy(&wanted)
    );
    String::from_utf8(wrote).expect("the listing is text")
}

// ---- building a form

fn line(kind: u64, key: u64, price: u64) -> String {
    format!("{kind:2}{key:13}{price:12}\n")
}

fn commit() -> String {
    line(0, 0, 0)
}

fn inserts(keys: std::ops::Range<u64>) -> String {
    keys.map(|key| line(1, key, 1_000_000 + key)).collect()
}

/// The last line of a listing.
fn totals(records: usize, accepted: usize, refused: usize) -> String {
    format!("{records:8}{accepted:8}{refused:8}\n")
}

fn bad(number: usize) -> String {
    format!("{HEADING}{number:8}\n")
}

/// Runs a form, and holds the last line of what is written to this.
fn ends_with(form: &str, records: usize, accepted: usize, refused: usize) -> String {
    let wrote = run(form.as_bytes());
    let last = totals(records, accepted, refused);
    assert!(wrote.ends_with(&last), "form:\n{form}wrote:\n{wrote}");
    wrote
}

// ---- the cases

#[test]
fn document_01_example() {
    let form =
        " 1          105    99500000\n 1          101   101250000\n 0            0           0\n";
    let listing = "pageslot          key len\n   2   0          101   8\n   2   1          105   8\n       2       1       0\n";
    assert_eq!(run(form.as_bytes()), listing);
}

#[test]
fn examples() {
    let mut found = 0;
    for entry in std::fs::read_dir(root().join("examples")).expect("examples/ is there") {
        let path = entry.expect("it can be read").path();
        if path.extension().is_some_and(|end| end == "txt") {
            let form = std::fs::read(&path).expect("the form can be read");
            let listing = std::fs::read_to_string(path.with_extension("out"));
            let listing = listing.expect("each form has its listing beside it");
            assert_eq!(run(&form), listing, "{}", path.display());
            found += 1;
        }
    }
    assert!(found >= 4, "only {found} forms in examples/");
}

#[test]
fn empty_input() {
    assert_eq!(run(b""), format!("{HEADING}{}", totals(0, 0, 0)));
}

/// Lines that are not of the form, each for another reason.
const BAD_LINES: &[(&str, &[u8])] = &[
    ("nothing but the line feed", b"\n"),
    ("a column too few", b" 1          101   9950000\n"),
    ("a column too many", b" 1          101    995000000\n"),
    (
        "no line feed in column 28",
        b" 1          101    99500000 \n",
    ),
    ("a carriage return", b" 1          101    99500000\r\n"),
    ("a tab for a space", b" 1\t         101    99500000\n"),
    ("a tab before the kind", b"\t1          101    99500000\n"),
    ("a zero before the kind", b"01          101    99500000\n"),
    ("a zero before the key", b" 1         0101    99500000\n"),
    (
        "zeros in front of the key",
        b" 10000000000101    99500000\n",
    ),
    ("a zero before the price", b" 1          101   099500000\n"),
    ("two zeros for a zero", b" 3          101          00\n"),
    ("a kind at the left", b"1           101    99500000\n"),
    ("a key at the left", b" 1101              99500000\n"),
    ("a space behind the key", b" 1         101     99500000\n"),
    ("a space behind the price", b" 1          101   99500000 \n"),
    ("a space in the key", b" 1        1 101    99500000\n"),
    ("no kind", b"            101    99500000\n"),
    ("no key", b" 1                 99500000\n"),
    ("no price", b" 1          101            \n"),
    ("a plus", b" 1         +101    99500000\n"),
    ("a minus", b" 1         -101    99500000\n"),
    ("a point", b" 1          101   99.500000\n"),
    ("a letter for a digit", b" 1          1O1    99500000\n"),
    ("the byte below 0", b" 1          1/1    99500000\n"),
    ("the byte above 9", b" 1          1:1    99500000\n"),
    ("a zero byte", b" 1          1\x001    99500000\n"),
    ("a byte above 127", b" 1          1\xb11    99500000\n"),
    (
        "a line feed in the middle",
        b" 1          \n01    99500000\n",
    ),
    ("kind 4", b" 4          101    99500000\n"),
    ("kind 9", b" 9          101    99500000\n"),
    ("kind 10", b"10          101    99500000\n"),
    ("kind 31", b"31          101           0\n"),
    ("a commit with a key", b" 0          101           0\n"),
    ("a commit with a price", b" 0            0    99500000\n"),
    ("a delete with a price", b" 3          101           1\n"),
];

#[test]
fn bad_lines() {
    for (why, line) in BAD_LINES {
        for before in [0, 1, 4] {
            let mut form = (inserts(1..2) + &commit()).repeat(before).into_bytes();
            form.extend(*line);
            form.extend(commit().into_bytes());
            assert_eq!(run(&form), bad(2 * before + 1), "{why}");
        }
    }
}

#[test]
fn last_line_without_its_line_feed() {
    let whole = inserts(1..3) + &commit();
    assert_eq!(run(whole.trim_end_matches('\n').as_bytes()), bad(3));
    for length in 1..28 {
        let cut = &whole.as_bytes()[..56 + length];
        assert_eq!(run(cut), bad(3), "{length} bytes of line 3");
    }
}

#[test]
fn line_2001() {
    let commits = commit().repeat(2_000);
    assert_eq!(
        run(commits.as_bytes()),
        format!("{HEADING}{}", totals(0, 0, 2_000))
    );
    for more in ["\n", "x", " ", &commit(), &commit().repeat(1_000)] {
        assert_eq!(run((commits.clone() + more).as_bytes()), bad(2_001));
    }
    let short = commit().repeat(1_999);
    assert_eq!(run((short.clone() + "x\n").as_bytes()), bad(2_000));
    assert_eq!(run((short + "x\n" + &commit()).as_bytes()), bad(2_000));
    // a bad line before it comes first, however long the form
    let long = format!("{}x\n{}", commit().repeat(7), commit().repeat(4_000));
    assert_eq!(run(long.as_bytes()), bad(8));
}

#[test]
fn seventeen_edits_and_more() {
    ends_with(&(inserts(1..17) + &commit()), 16, 1, 0);
    for last in [18, 19, 30, 400] {
        ends_with(&(inserts(1..last) + &commit()), 0, 0, 1);
        // the dropped ones are gone, and do not wait for the next commit
        ends_with(
            &(inserts(1..last) + &commit() + &inserts(5..7) + &commit()),
            2,
            1,
            1,
        );
    }
    // the lines of dropped edits are judged all the same
    assert_eq!(run((inserts(1..40) + " 4\n").as_bytes()), bad(40));
}

#[test]
fn commits_without_edits() {
    ends_with(&commit(), 0, 0, 1);
    ends_with(
        &(commit() + &inserts(1..3) + &commit() + &commit()),
        2,
        1,
        2,
    );
}

#[test]
fn refused_transactions() {
    let start = inserts(101..104) + &commit();
    for refused in [
        line(1, 101, 5),
        line(2, 104, 5),
        line(3, 104, 0),
        line(1, 0, 5),
        line(2, 0, 5),
        line(3, 0, 0),
        line(1, 1_000_000_000_000, 5),
        line(3, 9_999_999_999_999, 0),
        line(1, 104, 5) + &line(1, 104, 5),
        line(1, 104, 5) + &line(3, 101, 0) + &line(2, 101, 5),
    ] {
        let then = line(1, 105, 5) + &line(3, 101, 0) + &commit();
        ends_with(&(start.clone() + &refused + &commit()), 3, 1, 1);
        ends_with(&(start.clone() + &refused + &commit() + &then), 3, 2, 1);
    }
}

#[test]
fn uncommitted_edits() {
    ends_with(&inserts(1..5), 0, 0, 0);
    ends_with(
        &(inserts(1..5) + &commit() + &inserts(5..9) + &line(3, 1, 0)),
        4,
        1,
        0,
    );
}

#[test]
fn keys_and_prices_at_the_limits() {
    let top = 999_999_999_999;
    let form = line(1, top, top) + &line(1, 1, 0) + &commit();
    let rows = "   2   0            1   8\n   2   1 999999999999   8\n";
    assert_eq!(
        ends_with(&form, 2, 1, 0),
        format!("{HEADING}{rows}{}", totals(2, 1, 0))
    );
    ends_with(&(line(1, top + 1, 0) + &commit()), 0, 0, 1);
}

/// "28 records of 24 bytes with no copy, and one more of 24: 15 left on page 7,
/// 14 right on page 6."
#[test]
fn splits() {
    let form =
        inserts(1..15) + &commit() + &inserts(15..29) + &commit() + &inserts(29..30) + &commit();
    let wrote = ends_with(&form, 29, 3, 0);
    assert!(wrote.contains("   7  14           15   8\n   6   0           16   8\n"));
    // until the pages run out
    let batch = |i: u64| inserts(1 + 16 * i..17 + 16 * i) + &commit();
    let all: String = (0..20).map(batch).collect();
    let wrote = run(all.as_bytes());
    assert!(!wrote.ends_with("       0\n"), "no transaction was refused");
}

/// 39 updates in place, then a copy to page 7; and a leaf that is lost.
#[test]
fn copies_and_lost_leaves() {
    let mut form = inserts(9..10) + &commit();
    for price in 1..40 {
        form += &(line(2, 9, price) + &commit());
    }
    assert!(ends_with(&form, 1, 40, 0).contains("   2   0            9   8\n"));
    form += &(line(2, 9, 40) + &commit());
    assert!(ends_with(&form, 1, 41, 0).contains("   7   0            9   8\n"));
    let mut form = inserts(1..15) + &commit() + &inserts(15..30) + &commit();
    let deletes = |keys: std::ops::Range<u64>| keys.map(|key| line(3, key, 0)).collect::<String>();
    form += &(deletes(16..30) + &commit());
    assert!(ends_with(&form, 15, 3, 0).contains("   7  14           15   8\n"));
    form += &(deletes(1..16) + &commit());
    ends_with(&form, 0, 4, 0);
}

/// A read may hand over less than there is.
#[test]
fn input_in_pieces() {
    let form = inserts(1..12) + &commit();
    let bytes = form.as_bytes();
    let pieces = [&bytes[..1], &bytes[1..30], &bytes[30..31], &bytes[31..]];
    assert_eq!(output(program(), &pieces), sheet(bytes));
}

// ---- random sheets

/// A form of some transactions: an edit mostly finds its key as it should.
fn random_form(random: &mut Random) -> String {
    let range = random.pick(&[20, 400, 1_000_000]);
    let mut keys = Vec::new();
    let mut form = String::new();
    for _ in 0..random.pick(&[1, 6, 30, 60]) {
        let edits = match random.below(12) {
            0 => 0,
            1 => random.between(15, 19),
            _ => random.between(1, 8),
        };
        for _ in 0..edits {
            form += &random_edit(random, range, &mut keys);
        }
        form += &commit();
    }
    if random.one_in(3) {
        form += &random_edit(random, range, &mut keys);
    }
    form
}

/// An edit, where these keys were inserted before.
fn random_edit(random: &mut Random, range: usize, keys: &mut Vec<u64>) -> String {
    let price = random.number() % 1_000_000_000_000;
    if random.one_in(150) {
        let key = random.pick(&[0, 999_999_999_999, 1_000_000_000_000, 9_999_999_999_999]);
        return line(random.pick(&[1, 2]), key, price);
    }
    if keys.is_empty() || random.one_in(2) {
        keys.push(random.between(1, range) as u64);
        return line(1, keys[keys.len() - 1], price);
    }
    let at = random.below(keys.len());
    if random.one_in(3) {
        return line(3, keys.remove(at), 0);
    }
    line(2, keys[at], price)
}

/// One change somewhere: another byte, one more, one less, or the end cut off.
fn damage(random: &mut Random, form: &mut Vec<u8>) {
    let at = random.below(form.len());
    let byte = random.pick(b" 0123456789\n\t\r.-+x\0\xff");
    match random.below(4) {
        0 => form[at] = byte,
        1 => form.insert(at, byte),
        2 => drop(form.remove(at)),
        _ => form.truncate(at),
    }
}

#[test]
fn random_sheets() {
    let mut random = Random::new(SEED);
    let (mut bad, mut whole, mut accepted, mut refused, mut split) = (0, 0, 0, 0, 0);
    for i in 0..SHEETS {
        let mut form = random_form(&mut random).into_bytes();
        if i % 3 == 0 {
            damage(&mut random, &mut form);
        }
        let wrote = run(&form);
        let last = wrote.lines().last().expect("a heading at least");
        if last.len() == 8 {
            bad += 1;
            continue;
        }
        whole += 1;
        accepted += last[8..16].trim().parse::<usize>().expect("a number");
        refused += last[16..].trim().parse::<usize>().expect("a number");
        split += wrote.contains("\n   6") as usize;
    }
    println!("seed {SEED}: {bad} bad, {whole} whole, {accepted} accepted, {refused} refused, {split} split");
    assert!(bad > 50 && whole > 100, "too few of one kind");
    assert!(
        accepted > 500 && refused > 500 && split > 20,
        "too few of one kind"
    );
}
