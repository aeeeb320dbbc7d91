//! Compares the archive's replay of bench traces (document 02, M-100) with the model in model/trace.rs and
//! model/replay.rs: texts worked out by hand, every prefix of a trace, every single byte of the example, every field,
//! records of any bytes and any length, recorded histories, answers changed, damaged texts, long texts. Then programs
//! that are wrong on purpose take the archive's place, and each has to be seen.
//!
//! replay [--seed N] [--scale K]

#[allow(dead_code)]
#[forbid(unsafe_code)]
mod model;
#[forbid(unsafe_code)]
#[path = "model/replay.rs"]
mod replay;
#[forbid(unsafe_code)]
#[path = "model/trace.rs"]
mod trace;

#[path = "replay/archive.rs"]
mod archive;
#[path = "compare/arguments.rs"]
mod arguments;
#[path = "replay/before.rs"]
mod before;
#[path = "replay/byte_damage.rs"]
mod byte_damage;
#[path = "replay/calls.rs"]
mod calls;
#[path = "replay/changed.rs"]
mod changed;
#[path = "replay/cost.rs"]
mod cost;
#[path = "replay/damage.rs"]
mod damage;
#[path = "replay/examples.rs"]
mod examples;
#[path = "replay/field_damage.rs"]
mod field_damage;
#[path = "replay/fields.rs"]
mod fields;
#[path = "replay/history.rs"]
mod history;
#[path = "replay/line_damage.rs"]
mod line_damage;
#[path = "replay/long.rs"]
mod long;
#[path = "replay/numbers.rs"]
mod numbers;
#[path = "replay/otherwise.rs"]
mod otherwise;
#[path = "replay/prefixes.rs"]
mod prefixes;
#[path = "compare/parts.rs"]
mod parts;
#[path = "compare/random.rs"]
mod random;
#[path = "replay/recorded.rs"]
mod recorded;
#[path = "replay/records.rs"]
mod records;
#[path = "replay/right.rs"]
mod right;
#[path = "replay/scenes.rs"]
mod scenes;
#[path = "replay/shown.rs"]
mod shown;
#[path = "replay/single_bytes.rs"]
mod single_bytes;
#[path = "replay/tally.rs"]
mod tally;
#[path = "replay/text.rs"]
mod text;
#[path = "replay/wrong.rs"]
mod wrong;
#[path = "replay/wrong_answers.rs"]
mod wrong_answers;
#[path = "replay/wrong_compares.rs"]
mod wrong_compares;
#[path = "replay/wrong_first_lines.rs"]
mod wrong_first_lines;
#[path = "replay/wrong_left.rs"]
mod wrong_left;
#[path = "replay/wrong_lines.rs"]
mod wrong_lines;
#[path = "replay/wrong_numbers.rs"]
mod wrong_numbers;
#[path = "replay/wrong_plays.rs"]
mod wrong_plays;
#[path = "replay/wrong_texts.rs"]
mod wrong_texts;
#[path = "replay/wrong_walks.rs"]
mod wrong_walks;

use calls::Program;
use random::Random;
use tally::Tally;

const SEED: u64 = 20240927;

type Run = fn(Program, u64, &mut Random, &mut Tally) -> Result<(), String>;
type Part = parts::Part<Run>;

const PARTS: [Part; 9] = [
    examples::PART,
    prefixes::PART,
    single_bytes::PART,
    fields::PART,
    records::PART,
    recorded::PART,
    changed::PART,
    damage::PART,
    long::PART,
];

fn main() {
    arguments::run("replay", SEED, compare_all);
}

fn compare_all(seed: u64, scale: u64) -> Result<(), String> {
    let mut tally = Tally::default();
    parts::all(&PARTS, seed, |run, rounds, random| {
        run(archive::replay, rounds * scale, random, &mut tally)
    })?;
    tally.complete()?;
    right::none_is_seen(seed)?;
    let wrong = wrong::all_are_seen(seed)?;
    tally.print(wrong);
    Ok(())
}
