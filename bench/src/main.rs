//! Times of the proved store beside the reference and beside `lean`, a version
//! optimised by hand and not verified: the floor of cost when nothing is
//! wasted. All three must first agree on random calls.

mod cuts;
mod device;
mod image;
mod merge;
mod preview;
mod transaction;

use bench::measure;

fn main() {
    device::check();
    cuts::check();
    image::check();
    preview::check();
    merge::check();
    transaction::check();
    println!("Processor: {}.", measure::processor());
    println!(
        "Times in nanoseconds a call: medians of {} repetitions,",
        measure::REPETITIONS
    );
    println!("the three taking turns; all buffers warm, work not cleared before a call.");
    device::measure();
    cuts::measure();
    image::measure();
    preview::measure();
    merge::measure();
    transaction::measure();
}
