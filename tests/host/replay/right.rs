//! The means by which wrong programs are made, with nothing made wrong: no part may see a difference, so that a wrong
//! program is seen for what is wrong with it.

use crate::calls::Program;
use crate::parts;
use crate::tally::Tally;
use crate::wrong_texts::{of_fields, of_lines, of_numbers};
use crate::wrong_walks::{by, play};
use crate::PARTS;

/// One round in so many is done.
const FEWER: u64 = 50;

#[rustfmt::skip] // a line each
const RIGHT: [(&str, Program); 4] = [
    ("lines", |b, t| of_lines(b, t, |line| line.to_vec())),
    ("fields", |b, t| of_fields(b, t, |_, _, field| field.to_vec())),
    ("numbers", |b, t| of_numbers(b, t, |_, _, number| Some(number))),
    ("plays", |b, t| by(b, t, play)),
];

pub fn none_is_seen(seed: u64) -> Result<(), String> {
    for (name, program) in RIGHT {
        parts::all(&PARTS, seed, |run, rounds, random| {
            run(program, rounds.div_ceil(FEWER), random, &mut Tally::default())
        })
        .map_err(|text| format!("{name} with nothing wrong, {text}"))?;
    }
    Ok(())
}
