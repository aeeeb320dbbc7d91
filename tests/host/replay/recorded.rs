//! Traces of random histories on the model: done, and the record is that of the history's device.

use crate::calls::{compare, expect, Program};
use crate::history::History;
use crate::model::record::encode;
use crate::random::Random;
use crate::scenes::{random_history, send_slowly};
use crate::shown::shown;
use crate::tally::Tally;
use crate::text::write;
use crate::trace;
use crate::Part;

pub const PART: Part = Part {
    name: "recorded traces",
    run,
    rounds: 12_000,
};

const SCENES: u64 = 10;
/// One trace in so many has a long line of clocks.
const LONG_IN: u64 = 100;
const LONGEST: u64 = 100_000;

fn run(program: Program, count: u64, random: &mut Random, tally: &mut Tally) -> Result<(), String> {
    for number in 0..count {
        let mut history = random_history(random.between(1, SCENES), random);
        if number % LONG_IN == 0 {
            send_slowly(&mut history, random.between(65_536, LONGEST), random);
        }
        is_done(program, &history, random, tally)?;
        tally.recorded += 1;
        tally.seen.add(&history.seen);
    }
    Ok(())
}

/// The reader gives back what was written, too.
pub fn is_done(
    program: Program,
    history: &History,
    random: &mut Random,
    tally: &mut Tally,
) -> Result<(), String> {
    let text = write(&history.items);
    if trace::read(&text).as_deref() != Ok(&history.items[..]) {
        return Err(format!("the model does not read back: {}", shown(&text)));
    }
    let answer = compare(program, &text, random, tally)?;
    expect(&answer, 0, 0, &text)?;
    if answer.record != encode(&history.device) {
        return Err(format!("another device than recorded: {}", shown(&text)));
    }
    Ok(())
}
