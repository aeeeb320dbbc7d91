//! Compares the archive `libwarpmagpie.a` with the model in model/ on lines with the noise that demand 3 allows
//! (document 02, M-112). One hit more has to break its frame as document 01 says, and the last vote of a stop bit may
//! lose the next frame. Then counts of split votes and receivers that are wrong on purpose take the archive's place on
//! lines with noise, and each has to be seen.
//!
//! noisy [--seed N] [--scale K]

// Dead code is allowed in what the comparison uses in full, and this test in part, or not at all where a module that it
// uses names it.
#[allow(dead_code)]
#[forbid(unsafe_code)]
mod model;

#[path = "noisy/allowed_lines.rs"]
mod allowed_lines;
#[path = "noisy/allowed_noise.rs"]
mod allowed_noise;
#[path = "noisy/allowed_tally.rs"]
mod allowed_tally;
#[path = "noisy/allowed_waits.rs"]
mod allowed_waits;
#[path = "compare/archive.rs"]
mod archive;
#[path = "compare/arguments.rs"]
mod arguments;
#[allow(dead_code)]
#[path = "compare/call.rs"]
mod call;
#[path = "compare/choice.rs"]
mod choice;
#[path = "compare/counter.rs"]
mod counter;
#[path = "noisy/counts_seen.rs"]
mod counts_seen;
#[allow(dead_code)]
#[path = "compare/damage.rs"]
mod damage;
#[allow(dead_code)]
#[path = "compare/devices.rs"]
mod devices;
#[path = "compare/difference.rs"]
mod difference;
#[path = "compare/frames.rs"]
mod frames;
#[path = "noisy/held.rs"]
mod held;
#[path = "compare/hold_turns.rs"]
mod hold_turns;
#[path = "noisy/interrupted.rs"]
mod interrupted;
#[allow(dead_code)]
#[path = "compare/late_tally.rs"]
mod late_tally;
#[path = "compare/levels.rs"]
mod levels;
#[allow(dead_code)]
#[path = "compare/lines.rs"]
mod lines;
#[allow(dead_code)]
#[path = "compare/noise.rs"]
mod noise;
#[path = "noisy/noisy_clocks.rs"]
mod noisy_clocks;
#[allow(dead_code)]
#[path = "compare/noisy_lines.rs"]
mod noisy_lines;
#[allow(dead_code)]
#[path = "compare/pair.rs"]
mod pair;
#[path = "compare/parts.rs"]
mod parts;
#[path = "noisy/playing.rs"]
mod playing;
#[path = "compare/random.rs"]
mod random;
#[path = "compare/rates.rs"]
mod rates;
#[path = "compare/sampling.rs"]
mod sampling;
#[path = "noisy/settings.rs"]
mod settings;
#[path = "compare/stand_in.rs"]
mod stand_in;
#[path = "noisy/stop_votes.rs"]
mod stop_votes;
#[allow(dead_code)]
#[path = "compare/tally.rs"]
mod tally;
#[path = "noisy/too_much_noise.rs"]
mod too_much_noise;
#[path = "noisy/totals.rs"]
mod totals;
#[path = "compare/votes.rs"]
mod votes;
#[path = "noisy/voting.rs"]
mod voting;
#[path = "compare/waits.rs"]
mod waits;
#[path = "noisy/watched.rs"]
mod watched;
#[path = "compare/wrong_asks.rs"]
mod wrong_asks;
#[allow(dead_code)]
#[path = "compare/wrong_counts.rs"]
mod wrong_counts;
#[path = "noisy/wrong_receivers.rs"]
mod wrong_receivers;
#[path = "compare/wrong_ways.rs"]
mod wrong_ways;

use random::Random;
use totals::Totals;

const SEED: u64 = 20240328;

type Run = fn(u64, &mut Random, &mut Totals) -> Result<(), String>;
type Part = parts::Part<Run>;

/// A round is a line for each format, speed and some UBRR, and one more.
#[rustfmt::skip] // a line each
const PARTS: [Part; 1] = [
    Part { name: "lines with allowed noise", run: allowed_noise::run, rounds: 80 },
];

fn main() {
    arguments::run("noisy", SEED, compare_all);
}

fn compare_all(seed: u64, scale: u64) -> Result<(), String> {
    rates::check_m9()?;
    let mut totals = Totals::default();
    parts::all(&PARTS, seed, |run, rounds, random| {
        run(rounds * scale, random, &mut totals)
    })?;
    too_much_noise::breaks_frames(seed, &mut totals.allowed)?;
    stop_votes::can_lose_frames(seed, &mut totals.allowed)?;
    totals.complete()?;
    totals.tally.wrong_counts = counts_seen::all_are_seen(seed)?;
    totals.wrong_receivers = wrong_receivers::all_are_seen(seed)?;
    totals.tally.noise.two_turned_over = counts_seen::two_turned_over_are_seen(seed)?;
    println!("{:34}{seed:>12}", "seed");
    println!("{:34}{scale:>12}", "scale");
    totals.print();
    println!("no difference");
    Ok(())
}
