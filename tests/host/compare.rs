//! Compares the archive `libwarpmagpie.a` with the model in model/: random histories, random devices, damaged records,
//! lines at the limits of the rate error, devices joined by wires, records that break one rule, long holds, lines with
//! noise, and lines whose frames are read late. Then holds, counts of split votes and stand-ins for all calls that are
//! wrong on purpose, the last with frames that wait, take the archive's place, and each has to be seen.
//!
//! compare [--seed N] [--scale K]

#[forbid(unsafe_code)]
mod model;

#[path = "compare/archive.rs"]
mod archive;
#[path = "compare/arguments.rs"]
mod arguments;
#[path = "compare/broken.rs"]
mod broken;
#[path = "compare/broken_waits.rs"]
mod broken_waits;
#[path = "compare/call.rs"]
mod call;
#[path = "compare/choice.rs"]
mod choice;
#[path = "compare/counter.rs"]
mod counter;
#[path = "compare/damage.rs"]
mod damage;
#[path = "compare/devices.rs"]
mod devices;
#[path = "compare/difference.rs"]
mod difference;
#[path = "compare/frames.rs"]
mod frames;
#[path = "compare/histories.rs"]
mod histories;
#[path = "compare/hold_breaks.rs"]
mod hold_breaks;
#[path = "compare/hold_calls.rs"]
mod hold_calls;
#[path = "compare/hold_choice.rs"]
mod hold_choice;
#[path = "compare/hold_lengths.rs"]
mod hold_lengths;
#[path = "compare/hold_refusals.rs"]
mod hold_refusals;
#[path = "compare/hold_splits.rs"]
mod hold_splits;
#[path = "compare/hold_turns.rs"]
mod hold_turns;
#[path = "compare/holds.rs"]
mod holds;
#[path = "compare/late_reads.rs"]
mod late_reads;
#[path = "compare/late_tally.rs"]
mod late_tally;
#[path = "compare/levels.rs"]
mod levels;
#[path = "compare/lines.rs"]
mod lines;
#[path = "compare/noise.rs"]
mod noise;
#[path = "compare/noisy_lines.rs"]
mod noisy_lines;
#[path = "compare/pair.rs"]
mod pair;
#[path = "compare/parts.rs"]
mod parts;
#[path = "compare/random.rs"]
mod random;
#[path = "compare/rates.rs"]
mod rates;
#[path = "compare/reckoning.rs"]
mod reckoning;
#[path = "compare/sampling.rs"]
mod sampling;
#[path = "compare/stand_in.rs"]
mod stand_in;
#[path = "compare/tally.rs"]
mod tally;
#[path = "compare/votes.rs"]
mod votes;
#[path = "compare/waiting_calls.rs"]
mod waiting_calls;
#[path = "compare/waiting_clocks.rs"]
mod waiting_clocks;
#[path = "compare/waiting_records.rs"]
mod waiting_records;
#[path = "compare/waits.rs"]
mod waits;
#[path = "compare/wires.rs"]
mod wires;
#[path = "compare/wrong_asks.rs"]
mod wrong_asks;
#[path = "compare/wrong_clocks.rs"]
mod wrong_clocks;
#[path = "compare/wrong_counts.rs"]
mod wrong_counts;
#[path = "compare/wrong_holds.rs"]
mod wrong_holds;
#[path = "compare/wrong_waits.rs"]
mod wrong_waits;
#[path = "compare/wrong_ways.rs"]
mod wrong_ways;

use random::Random;
use tally::Tally;

const SEED: u64 = 20240328;

type Run = fn(u64, &mut Random, &mut Tally) -> Result<(), String>;
type Part = parts::Part<Run>;

/// A round is a history, a device, a record, or some of them.
#[rustfmt::skip] // a line each
const PARTS: [Part; 9] = [
    Part { name: "random histories", run: histories::run, rounds: 36_000 },
    Part { name: "random valid devices", run: devices::run, rounds: 1_400_000 },
    Part { name: "damaged records", run: damage::run, rounds: 4_500_000 },
    Part { name: "lines at the limits", run: lines::run, rounds: 35 },
    Part { name: "devices joined by wires", run: wires::run, rounds: 35 },
    Part { name: "records that break one rule", run: broken::run, rounds: 10_000 },
    Part { name: "long holds", run: holds::run, rounds: 1 },
    Part { name: "lines with noise", run: noise::run, rounds: 50 },
    Part { name: "lines read late", run: late_reads::run, rounds: 40 },
];

fn main() {
    arguments::run("compare", SEED, compare_all);
}

fn compare_all(seed: u64, scale: u64) -> Result<(), String> {
    let mut tally = Tally::default();
    parts::all(&PARTS, seed, |run, rounds, random| run(rounds * scale, random, &mut tally))?;
    tally.complete()?;
    tally.wrong_holds = wrong_holds::all_are_seen(seed)?;
    tally.wrong_counts = wrong_counts::all_are_seen(seed)?;
    tally.wrong_waits = wrong_waits::all_are_seen(seed)?;
    tally.noise.two_turned_over = wrong_counts::two_turned_over_are_seen(seed)?;
    println!("{:34}{seed:>12}", "seed");
    println!("{:34}{scale:>12}", "scale");
    tally.print();
    println!("no difference");
    Ok(())
}
