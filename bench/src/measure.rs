//! Nanoseconds per call, library and peer in turn.

use crate::cases::{Bench, CASES, Case, KEYS, Keys, Library, Peer, Side, VALUE_LENGTH};
use crate::functions::Header;
use crate::module::Module;
use std::time::Instant;

const BATCHES: usize = 25;

/// Nanoseconds per call over a batch. Where each call has to be undone, the clock is read around
/// each call alone.
fn batch<S: Side>(bench: &mut Bench<S>, calls: u32) -> f64 {
    let mut nanos = 0;
    if bench.has_undo() {
        for _ in 0..calls {
            let start = Instant::now();
            bench.call();
            nanos += start.elapsed().as_nanos();
            bench.undo();
        }
    } else {
        let start = Instant::now();
        for _ in 0..calls {
            bench.call();
        }
        nanos = start.elapsed().as_nanos();
    }
    nanos as f64 / f64::from(calls)
}

fn median(mut list: Vec<f64>) -> f64 {
    list.sort_by(f64::total_cmp);
    list[list.len() / 2]
}

/// What is measured of each case: the library through the header, the peer, and the library through the
/// Rust module.
pub type Measured = [f64; 3];

/// The medians; the batches of the three take turns.
fn measure(case: Case, keys: Keys) -> Measured {
    let mut library = Bench::new(Library::new(Header), case, keys);
    let mut peer = Bench::new(Peer::new(), case, keys);
    let mut library_by_rust = Bench::new(Library::new(Module), case, keys);
    let calls = if case == Case::Icanhaz { 200 } else { 1000 };
    let mut nanos = [const { Vec::new() }; 3];
    for _ in 0..BATCHES {
        nanos[0].push(batch(&mut library, calls));
        nanos[1].push(batch(&mut peer, calls));
        nanos[2].push(batch(&mut library_by_rust, calls));
    }
    nanos.map(median)
}

pub fn run() -> bool {
    println!("Nanoseconds per call: median of {BATCHES} batches of 1000 calls (ICANHAZ: 200), which take turns.");
    println!("64 rows, values of {VALUE_LENGTH} bytes, keys that differ in their last bytes, or, where it says so, in");
    println!("their first. Outputs are long enough and are not cleared between calls. Adding and removing are timed");
    println!("call by call, with the reading of the clock (some 20 to 50 ns) included.\n");
    print_head();
    for (case, _, title) in CASES {
        for keys in KEYS {
            print_row(title, keys, measure(case, keys));
        }
    }
    true
}

/// The head of a table of measurements.
pub fn print_head() {
    println!("| Call | Key bytes | Library | Peer | Ratio | Library by Rust | Ratio |");
    println!("|---|---:|---:|---:|---:|---:|---:|");
}

pub fn print_row(title: &str, keys: Keys, measured: Measured) {
    let [library, peer, library_by_rust] = measured;
    let (ratio, ratio_by_rust) = (library / peer, library_by_rust / peer);
    print!("| {title} | {} | {library:.0} | {peer:.0} | {ratio:.2} ", keys.title);
    println!("| {library_by_rust:.0} | {ratio_by_rust:.2} |");
}
