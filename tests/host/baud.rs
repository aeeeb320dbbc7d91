//! Compares the archive's planner and check of baud settings (document 02, M-104) with the model in model/baud.rs: the
//! request's examples, the rows of the source documents, the ends of the ranges, ties, halves, random settings. Then
//! programs that are wrong on purpose take the archive's place, and each has to be seen.
//!
//! baud [--seed N] [--scale K]

#[forbid(unsafe_code)]
#[path = "model/baud.rs"]
mod model;

#[path = "baud/archive.rs"]
mod archive;
#[path = "compare/arguments.rs"]
mod arguments;
#[path = "baud/calls.rs"]
mod calls;
#[path = "baud/edges.rs"]
mod edges;
#[path = "baud/examples.rs"]
mod examples;
#[path = "baud/halves.rs"]
mod halves;
#[path = "baud/itself.rs"]
mod itself;
#[path = "baud/mixed.rs"]
mod mixed;
#[path = "compare/parts.rs"]
mod parts;
#[path = "compare/random.rs"]
mod random;
#[path = "baud/rows.rs"]
mod rows;
#[path = "baud/sweep.rs"]
mod sweep;
#[path = "baud/tally.rs"]
mod tally;
#[path = "baud/ties.rs"]
mod ties;
#[path = "baud/wrong.rs"]
mod wrong;
#[path = "baud/wrong_checks.rs"]
mod wrong_checks;
#[path = "baud/wrong_plans.rs"]
mod wrong_plans;

use calls::Calls;
use random::Random;
use tally::Tally;

const SEED: u64 = 20240611;

const ARCHIVE: Calls = Calls {
    plan: archive::plan,
    check: archive::check,
};

type Run = fn(&Calls, u64, &mut Random, &mut Tally) -> Result<(), String>;
type Part = parts::Part<Run>;

const PARTS: [Part; 8] = [
    examples::PART,
    rows::PART,
    edges::PART,
    ties::PART,
    halves::PART,
    mixed::PART,
    sweep::PART,
    itself::PART,
];

fn main() {
    arguments::run("baud", SEED, compare_all);
}

fn compare_all(seed: u64, scale: u64) -> Result<(), String> {
    let mut tally = Tally::default();
    parts::all(&PARTS, seed, |run, rounds, random| {
        run(&ARCHIVE, rounds * scale, random, &mut tally)
    })?;
    tally.complete()?;
    let wrong = wrong::all_are_seen(seed)?;
    tally.print(wrong);
    Ok(())
}
