//! The store beside SQLite and LMDB, on the same quotes and the same work. All
//! must first hold the same table; then each takes turns, and medians and
//! ratios are printed. No time is asserted. With a file's name as argument also
//! as a chart.

mod clock;
mod folder;
mod lmdb;
mod sqlite;
mod store;

use bench::books::{five_hundred, neighbours, one, spread};
use bench::chart::{Chart, Panel};
use bench::measure::{processor, taking_turns};
use cases::images::Built;
use folder::Folder;
use lmdb::Lmdb;
use sqlite::{Journal, Sqlite};
use std::collections::BTreeMap;
use store::Store;

/// A quote's key and value.
type Quote = (u64, [u8; 8]);

/// A system that keeps quotes.
trait Quotes {
    /// Updates these, which are there, in one transaction.
    fn shift(&mut self, quotes: &[Quote]);
    fn lookup(&mut self, key: u64) -> Option<[u8; 8]>;
}

type Systems<'a> = [&'a mut dyn Quotes; 4];
type Times = [f64; 4];
/// A row of the table: what is called, and how long a call takes.
type Row = (&'static str, Times);

const SYSTEMS: [(&str, &str); 4] = [
    ("proved store", "#1f4e9e"),
    ("SQLite WAL", "#c65102"),
    ("SQLite DELETE", "#f4b183"),
    ("LMDB", "#1b7f4b"),
];

/// A turn is so many calls that a log's checkpoints and the copies of full
/// leaves are in it.
const CALLS: usize = 1_000;
const REPETITIONS: usize = 51;
const CHECKED: usize = 3_000;

/// Which quotes a transaction shifts at its turn.
type Keys = fn(&Built, usize) -> Vec<u64>;

const SHIFTS: [(&str, Keys); 3] = [
    ("one update", one),
    ("16 neighbours", neighbours),
    ("16 spread", spread),
];

fn main() {
    let book = five_hundred(26);
    let folder = Folder::new();
    let quote = |(key, value): &(u64, Vec<u8>)| (*key, value[..].try_into().expect("8 bytes"));
    let quotes: Vec<Quote> = book.table.iter().map(quote).collect();
    let mut store = Store::new(&book);
    let mut wal = Sqlite::new(&folder.file("wal"), Journal::Wal, &quotes);
    let mut delete = Sqlite::new(&folder.file("delete"), Journal::Delete, &quotes);
    let mut lmdb = Lmdb::new(&folder.file("lmdb"), &quotes);
    let mut systems: Systems = [&mut store, &mut wal, &mut delete, &mut lmdb];
    check(&book, &quotes, &mut systems);
    println!(
        "SQLite {}, LMDB {}; files on {}.",
        sqlite::version(),
        lmdb::version(),
        folder.base()
    );
    println!("Processor: {}.", processor());
    println!("Processor time a call: medians of {REPETITIONS} turns of {CALLS} calls, the systems taking");
    println!("turns.");
    let rows = measure(&book, &quotes, &mut systems);
    print(&rows);
    if let Some(file) = std::env::args().nth(1) {
        std::fs::write(&file, chart(&rows).svg()).expect("the chart can be written");
        println!("\n{file} is written.");
    }
}

fn measure(book: &Built, quotes: &[Quote], systems: &mut Systems) -> Vec<Row> {
    let mut rows = Vec::new();
    for (name, keys) in SHIFTS {
        let lists: Vec<Vec<Quote>> = (0..CALLS).map(|turn| list(book, keys, turn)).collect();
        let times = medians(systems, |system, turn| system.shift(&lists[turn % CALLS]));
        rows.push((name, times));
    }
    let times = medians(systems, |system, turn| {
        let found = system.lookup(quotes[turn % quotes.len()].0);
        assert!(found.is_some(), "a timed lookup found nothing");
    });
    rows.push(("lookup", times));
    rows
}

/// The quotes of one transaction, with values that differ from turn to turn.
fn list(book: &Built, keys: Keys, turn: usize) -> Vec<Quote> {
    let value = |i: usize| ((turn * 16 + i) as u64 + 1).to_le_bytes();
    let keys = keys(book, turn).into_iter().enumerate();
    keys.map(|(i, key)| (key, value(i))).collect()
}

/// Stops the program if a system's table is not the plain map's after the same
/// transactions, or a key that is nowhere is found.
fn check(book: &Built, quotes: &[Quote], systems: &mut [&mut dyn Quotes]) {
    let mut table: BTreeMap<u64, [u8; 8]> = quotes.iter().copied().collect();
    for turn in 0..CHECKED {
        let list = list(book, SHIFTS[turn % SHIFTS.len()].1, turn);
        table.extend(list.iter().copied());
        systems.iter_mut().for_each(|system| system.shift(&list));
    }
    for (system, (name, _)) in systems.iter_mut().zip(SYSTEMS) {
        for (&key, &value) in &table {
            assert_eq!(system.lookup(key), Some(value), "{name}, key {key}");
            assert_eq!(system.lookup(key + 1), None, "{name}, key {key} + 1");
        }
    }
    println!("All hold the same table after {CHECKED} transactions.");
}

/// Processor time of a call in each system; each counts its own turns.
fn medians(systems: &mut Systems, call: impl Fn(&mut dyn Quotes, usize)) -> Times {
    let [a, b, c, d] = systems;
    let call = &call;
    taking_turns(
        &mut [
            &mut counted(*a, call),
            &mut counted(*b, call),
            &mut counted(*c, call),
            &mut counted(*d, call),
        ],
        [CALLS; 4],
        REPETITIONS,
        clock::turn,
    )
}

fn counted<'a>(
    system: &'a mut dyn Quotes,
    call: &'a impl Fn(&mut dyn Quotes, usize),
) -> impl FnMut() + 'a {
    let mut turn = 0;
    move || {
        call(system, turn);
        turn += 1;
    }
}

fn print(rows: &[Row]) {
    let names = SYSTEMS.map(|(name, _)| format!("{name:>15}")).concat();
    println!("\n{:<16}{names}", "microseconds");
    for (name, times) in rows {
        let times = times.map(|time| format!("{:>15.2}", time / 1e3)).concat();
        println!("{name:<16}{times}");
    }
    println!("\n{:<16}{names}", "ratio");
    for (name, times) in rows {
        let ratios = times
            .map(|time| format!("{:>15.2}", time / times[0]))
            .concat();
        println!("{name:<16}{ratios}");
    }
}

fn chart(rows: &[Row]) -> Chart {
    Chart {
        title: "Processor time per call; a book of 500 quotes".into(),
        note: "SQLite and LMDB on a memory file system, where a sync returns at once; the store's \
               flushes are commands of a simulated device."
            .into(),
        groups: rows.iter().map(|(name, _)| name.to_string()).collect(),
        series: SYSTEMS
            .map(|(name, colour)| (name.into(), colour.into()))
            .to_vec(),
        panels: vec![Panel {
            title: "microseconds per call, log scale".into(),
            values: (rows.iter())
                .map(|(_, times)| times.map(|time| Some(time / 1e3)).to_vec())
                .collect(),
        }],
    }
}
