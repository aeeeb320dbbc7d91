//! Programs that are wrong on purpose: the part that is named has to see a difference, else the test could not fail.

use crate::calls::Calls;
use crate::means::{Put, Shrinker, Writer, SHRINKER, WRITER};
use crate::parts;
use crate::right::RIGHT;
use crate::tally::Tally;
use crate::wrong_items::WRONG_ITEMS;
use crate::wrong_lines::WRONG_LINES;
use crate::wrong_order::{WRONG_SHRINK_ORDERS, WRONG_WRITE_ORDERS};
use crate::wrong_puts::WRONG_PUTS;
use crate::wrong_reads::WRONG_READS;
use crate::wrong_sums::WRONG_SUMS;
use crate::{Part, PARTS};

pub type WrongWriter = (&'static str, Writer, Part);
pub type WrongShrinker = (&'static str, Shrinker, Part);
pub type WrongPut = (&'static str, Put, Part);

/// Answers how many there are. Each way to lend a text is tried in both calls.
pub fn all_are_seen(seed: u64) -> Result<usize, String> {
    let puts = WRONG_PUTS.map(|(name, put, part)| (name, Writer { put, ..WRITER }, part));
    let writers = [&WRONG_ITEMS[..], &WRONG_LINES, &WRONG_WRITE_ORDERS, &puts].concat();
    for (name, writer, part) in &writers {
        let write = &|before: &_| writer.write(before);
        is_seen(name, &Calls { write, ..RIGHT }, part, seed)?;
    }
    let puts = WRONG_PUTS.map(|(name, put, part)| (name, Shrinker { put, ..SHRINKER }, part));
    let shrinkers = [&WRONG_READS[..], &WRONG_SUMS, &WRONG_SHRINK_ORDERS, &puts].concat();
    for (name, shrinker, part) in &shrinkers {
        let shrink = &|before: &_| shrinker.shrink(before);
        is_seen(name, &Calls { shrink, ..RIGHT }, part, seed)?;
    }
    Ok(writers.len() + shrinkers.len())
}

fn is_seen(name: &str, calls: &Calls, part: &Part, seed: u64) -> Result<(), String> {
    parts::is_seen(name, part, &PARTS, seed, |run, rounds, random| {
        run(calls, rounds, random, &mut Tally::default())
    })
}
