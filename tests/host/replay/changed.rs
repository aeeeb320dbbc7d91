//! Traces of random histories with one answer changed: 10 at its line, and the record is as after that call.

use crate::calls::{compare, expect, Program};
use crate::history::History;
use crate::model::record::encode;
use crate::otherwise::otherwise;
use crate::random::Random;
use crate::replay::OTHERWISE;
use crate::scenes::random_history;
use crate::shown::shown;
use crate::tally::Tally;
use crate::text::write;
use crate::Part;

pub const PART: Part = Part {
    name: "answers changed",
    run,
    rounds: 5_000,
};

const SCENES: u64 = 5;
/// Answers changed in each trace, one at a time.
const CHANGES: u64 = 6;

fn run(program: Program, count: u64, random: &mut Random, tally: &mut Tally) -> Result<(), String> {
    for _ in 0..count {
        let history = random_history(random.between(1, SCENES), random);
        let calls: Vec<usize> = (0..history.items.len())
            .filter(|&place| history.items[place].recorded().is_some())
            .collect();
        for _ in 0..if calls.is_empty() { 0 } else { CHANGES } {
            let place = random.pick(&calls);
            change(program, &history, place, random, tally)?;
            tally.changed += 1;
        }
    }
    Ok(())
}

fn change(
    program: Program,
    history: &History,
    place: usize,
    random: &mut Random,
    tally: &mut Tally,
) -> Result<(), String> {
    let mut items = history.items.clone();
    items[place] = otherwise(items[place], random);
    // Whatever is recorded behind the first difference does not matter.
    let last = items.len() - 1;
    if place < last && random.percent(20) {
        items[last] = otherwise(items[last], random);
    }
    let text = write(&items);
    let answer = compare(program, &text, random, tally)?;
    expect(&answer, OTHERWISE, place + 2, &text)?;
    if answer.record != encode(&history.devices[place]) {
        return Err(format!("not as after that call: {}", shown(&text)));
    }
    Ok(())
}
