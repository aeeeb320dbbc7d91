//! Programs that are wrong on purpose: the part that is named has to see a difference, else the test could not fail.

use crate::calls::Program;
use crate::parts;
use crate::tally::Tally;
use crate::wrong_answers::WRONG_ANSWERS;
use crate::wrong_compares::WRONG_COMPARES;
use crate::wrong_first_lines::WRONG_FIRST_LINES;
use crate::wrong_left::WRONG_LEFT;
use crate::wrong_lines::WRONG_LINES;
use crate::wrong_numbers::WRONG_NUMBERS;
use crate::wrong_plays::WRONG_PLAYS;
use crate::{Part, PARTS};

pub type Wrong = (&'static str, Program, Part);

/// Answers how many there are.
pub fn all_are_seen(seed: u64) -> Result<usize, String> {
    let all = [
        &WRONG_NUMBERS[..],
        &WRONG_LINES,
        &WRONG_FIRST_LINES,
        &WRONG_PLAYS,
        &WRONG_COMPARES,
        &WRONG_LEFT,
        &WRONG_ANSWERS,
    ]
    .concat();
    for (name, program, part) in &all {
        parts::is_seen(name, part, &PARTS, seed, |run, rounds, random| {
            run(*program, rounds, random, &mut Tally::default())
        })?;
    }
    Ok(all.len())
}
