//! Flushes, barriers and bytes stored a transaction: of this store, and of the
//! models of other methods. With a file's name as argument also as a chart.

use bench::chart::{Chart, Panel};
use bench::models::{copy_on_write, logging_only, nvwal, redo, store, undo, Counts};
use bench::workloads::{self, Done, Workload, TURNS};

struct Method {
    name: &'static str,
    colour: &'static str,
    /// What is modelled only of updates, as it is otherwise the row before.
    updates_only: bool,
    counts: fn(&Done) -> Counts,
}

const fn method(name: &'static str, colour: &'static str, counts: fn(&Done) -> Counts) -> Method {
    Method {
        name,
        colour,
        updates_only: false,
        counts,
    }
}

const fn in_place(name: &'static str, colour: &'static str, counts: fn(&Done) -> Counts) -> Method {
    Method {
        updates_only: true,
        ..method(name, colour, counts)
    }
}

const METHODS: [Method; 10] = [
    method("this store", "#1f4e9e", |done| store::counts(&done.tape)),
    method("this store, words", "#4f7fc4", |done| {
        store::counts(&done.tape_of_words)
    }),
    method("logging only", "#8ab0dc", |done| {
        logging_only::counts(&done.change)
    }),
    method("NVWAL", "#c65102", |done| nvwal::counts(&done.change)),
    in_place("NVWAL, in place", "#f4b183", |done| {
        nvwal::counts(&done.change_in_place)
    }),
    method("undo", "#1b7f4b", |done| undo::counts(&done.change)),
    in_place("undo, in place", "#94cfae", |done| {
        undo::counts(&done.change_in_place)
    }),
    method("redo", "#7a3fa0", |done| redo::counts(&done.change)),
    in_place("redo, in place", "#c4a3d9", |done| {
        redo::counts(&done.change_in_place)
    }),
    method("copy-on-write", "#6b6b6b", |done| {
        copy_on_write::counts(&done.change)
    }),
];

const UNITS: [&str; 3] = ["flushes", "barriers", "bytes stored"];

/// A mean in each unit, for each method that is modelled.
type Means = [Option<[f64; 3]>; METHODS.len()];

fn main() {
    let all = workloads::all();
    let means: Vec<Means> = all.iter().map(means).collect();
    println!("Means per transaction, on a book of 500 quotes of 8 bytes in 64 pages: of {TURNS}");
    println!("that follow each other (updates), or of one at every place of the book.");
    for unit in 0..UNITS.len() {
        table(unit, &all, &means);
    }
    if let Some(file) = std::env::args().nth(1) {
        std::fs::write(&file, chart(&all, &means).svg()).expect("the chart can be written");
        println!("\n{file} is written.");
    }
}

fn means(workload: &Workload) -> Means {
    let mut sums = [Counts::default(); METHODS.len()];
    workload.each(|done| {
        for (sum, method) in sums.iter_mut().zip(METHODS) {
            *sum += (method.counts)(done);
        }
    });
    let mean = |sum| sum as f64 / workload.count() as f64;
    std::array::from_fn(|i| {
        let Counts {
            flushes,
            barriers,
            bytes,
        } = sums[i];
        let modelled = workload.updates || !METHODS[i].updates_only;
        modelled.then_some([mean(flushes), mean(barriers), mean(bytes)])
    })
}

fn table(unit: usize, all: &[Workload], means: &[Means]) {
    let names = all.iter().map(|workload| format!("{:>15}", workload.name));
    println!("\n{:<18}{}", UNITS[unit], names.collect::<String>());
    for (i, method) in METHODS.iter().enumerate() {
        let mean = |means: &Means| match means[i] {
            Some(three) => format!("{:>15.1}", three[unit]),
            None => format!("{:>15}", "-"),
        };
        println!(
            "{:<18}{}",
            method.name,
            means.iter().map(mean).collect::<String>()
        );
    }
}

fn chart(all: &[Workload], means: &[Means]) -> Chart {
    let panel = |unit: usize| Panel {
        title: format!("{} per transaction, log scale", UNITS[unit]),
        values: (means.iter())
            .map(|means| means.map(|three| three.map(|three| three[unit])).to_vec())
            .collect(),
    };
    Chart {
        title: "Flushes, barriers and bytes stored per transaction; a book of 500 quotes".into(),
        note: "In place: an update writes over the old value; elsewhere it writes a new record, \
               as in this store."
            .into(),
        groups: all.iter().map(|workload| workload.name.into()).collect(),
        series: (METHODS.iter())
            .map(|method| (method.name.into(), method.colour.into()))
            .collect(),
        panels: (0..UNITS.len()).map(panel).collect(),
    }
}
