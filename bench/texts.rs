//! `make bench`, second part: times of writing and shrinking a trace's text against the independent model of
//! tests/host/model, a plain Rust program with vectors and `format!`. Both must come to the same text. It is a program
//! of its own, since what else is linked decides where the archive's code comes to lie, and so what a clock costs.

#[path = "../tests/host/traces/fill.rs"]
mod fill;
#[allow(dead_code)]
#[path = "../tests/host/model/listing.rs"]
mod listing;
#[allow(dead_code)]
#[path = "../tests/host/model/shrinking.rs"]
mod shrinking;
#[allow(dead_code)]
#[path = "../tests/host/replay/text.rs"]
mod text;
#[allow(dead_code)]
#[path = "../tests/host/model/trace.rs"]
mod trace;
#[allow(dead_code)]
#[path = "../tests/host/model/writing.rs"]
mod writing;

use std::time::Instant;
use trace::Item;

/// Rounds of each row, unless an argument says otherwise; the fastest counts.
const ROUNDS: usize = 400;

/// A call of the archive: number and length.
type Call = fn(&[u8], &mut [u8]) -> (u8, usize);

/// Lines of each row.
const LINES: u32 = 10_000;
/// No line has more bytes.
const LINE_LEN: usize = 16;

/// ns a line of archive and model.
fn race(call: Call, model: fn(&[u8]) -> Option<Vec<u8>>, source: &[u8], rounds: usize) -> [f64; 2] {
    let mut buffer = vec![0; LINES as usize * LINE_LEN + LINE_LEN];
    let mut best = [f64::MAX; 2];
    for _ in 0..rounds {
        let begun = Instant::now();
        let (number, length) = call(source, &mut buffer);
        let between = Instant::now();
        let wanted = model(source);
        best[1] = best[1].min(between.elapsed().as_nanos() as f64 / f64::from(LINES));
        best[0] = best[0].min((between - begun).as_nanos() as f64 / f64::from(LINES));
        assert_eq!(number, 0);
        assert!(wanted.as_deref() == Some(&buffer[..length]), "a text: a difference");
    }
    best
}

/// Writes and reads, with clocks between them.
fn calls() -> Vec<Item> {
    let line = |n: u32| match n % 3 {
        0 => Item::Write { address: 193, value: n as u8, answer: 0 },
        1 => Item::Clocks { levels: 17, clocks: 100 + n },
        _ => Item::Read { address: 192, value: n as u8, answer: 0 },
    };
    (0..LINES).map(line).collect()
}

/// A clock a line, as a rig records that makes a run for each.
fn clocks() -> Vec<Item> {
    (0..LINES).map(|_| Item::Clocks { levels: 17, clocks: 1 }).collect()
}

fn main() {
    let rounds = std::env::args().nth(1).map_or(ROUNDS, |word| word.parse().expect("a number of rounds"));
    let [calls, clocks] = [calls(), clocks()];
    let write = |items: &[Item]| race(fill::write, writing::written, &listing::list(items), rounds);
    let shrink = |items: &[Item]| race(fill::shrink, shrinking::shrunk, &text::write(items), rounds);
    println!("{:<46}{:>9}{:>9}{:>9}", "ns a line of a trace", "archive", "model", "ratio");
    for (name, [archive, model]) in [
        ("written: calls, clocks between them", write(&calls)),
        ("written: a clock a line", write(&clocks)),
        ("shrunk: calls, nothing to join", shrink(&calls)),
        ("shrunk: a clock a line, all joined", shrink(&clocks)),
    ] {
        println!("{name:<46}{archive:>9.1}{model:>9.1}{:>9.2}", archive / model);
    }
}
