//! 'Replay ends in the same device with the same outputs and number'; 'The line of a refusal 10 may differ.' The
//! program writes traces of random histories, some with an answer changed, and shrinks them; the archive replays both.

use crate::calls::{Call, Calls};
use crate::device_calls;
use crate::history::History;
use crate::laws::written;
use crate::model::record::{encode, LENGTH};
use crate::otherwise::otherwise;
use crate::parted::{lines_of, parted};
use crate::random::Random;
use crate::random_items::{near, FULL_SUM};
use crate::scenes::random_history;
use crate::shown::shown;
use crate::shrinking::levels;
use crate::tally::Tally;
use crate::trace::Item;
use crate::Part;

pub const PART: Part = Part {
    name: "replays",
    run,
    rounds: 30_000,
};

const SCENES: u64 = 5;
/// One history in so many has more clocks than a line holds.
const LONG_IN: u64 = 20;
const DONE: u8 = 0;
const DIFFERENT: u8 = 10;

/// What the archive's replay answers, and the record after it.
#[derive(Debug)]
struct Replay {
    number: u8,
    line: usize,
    record: [u8; LENGTH],
}

fn run(calls: &Calls, count: u64, random: &mut Random, tally: &mut Tally) -> Result<(), String> {
    for number in 0..count {
        let history = random_history(random.between(1, SCENES), random);
        match number % LONG_IN {
            0 => long(calls, &history, random, tally)?,
            place if place % 2 == 0 => as_recorded(calls, &history, random, tally)?,
            _ => changed(calls, &history, random, tally)?,
        }
    }
    Ok(())
}

/// The trace of a history leaves the device that the history left.
fn as_recorded(
    calls: &Calls,
    history: &History,
    random: &mut Random,
    tally: &mut Tally,
) -> Result<(), String> {
    let replay = same_end(calls, &history.items, random, tally)?;
    if replay.number != DONE || replay.record[..] != encode(&history.device)[..] {
        return Err(format!("{replay:?} is not as recorded"));
    }
    tally.replays_done += 1;
    Ok(())
}

/// The answer of one call becomes another, if there is a call.
fn changed(
    calls: &Calls,
    history: &History,
    random: &mut Random,
    tally: &mut Tally,
) -> Result<(), String> {
    let mut items = history.items.clone();
    let all = items.iter_mut();
    let mut answered: Vec<&mut Item> = all.filter(|item| levels(item).is_none()).collect();
    if answered.is_empty() {
        return Ok(());
    }
    let place = random.below(answered.len() as u64) as usize;
    *answered[place] = otherwise(*answered[place], random);
    let replay = same_end(calls, &items, random, tally)?;
    if replay.number != DIFFERENT {
        return Err(format!("{replay:?} with an answer changed"));
    }
    tally.replays_different += 1;
    Ok(())
}

/// More clocks at the end than a line holds.
fn long(
    calls: &Calls,
    history: &History,
    random: &mut Random,
    tally: &mut Tally,
) -> Result<(), String> {
    let clocks = near(random.between(1, 3) * FULL_SUM, random);
    let lines = lines_of(history.pins, clocks, random.between(1, 6), random);
    let items = [&history.items[..], &lines].concat();
    let replay = same_end(calls, &items, random, tally)?;
    if replay.number != DONE {
        return Err(format!("{replay:?} with more clocks at the end"));
    }
    tally.replays_long += 1;
    Ok(())
}

/// Answers what a replay of the items gives, with their clocks parted into lines, and one of the shrunk text too.
fn same_end(
    calls: &Calls,
    items: &[Item],
    random: &mut Random,
    tally: &mut Tally,
) -> Result<Replay, String> {
    let text = written(calls, &parted(items, random), random)?;
    let shrunk = calls.text(Call::Shrink, &text, text.len(), random)?;
    let [before, after] = [&text, &shrunk].map(|text| replay(text, random));
    // The line may be another one; the call that stands there may not.
    let same_call = calls_up_to(&text, before.line) == calls_up_to(&shrunk, after.line);
    if (before.number, before.record) != (after.number, after.record) || !same_call {
        return Err(format!(
            "\ntext: {}\nshrunk: {}\n{before:?}\n{after:?}",
            shown(&text),
            shown(&shrunk)
        ));
    }
    tally.replays_shorter += (shrunk.len() < text.len()) as u64;
    Ok(before)
}

/// On a record of any bytes, since a replay starts by a reset.
fn replay(text: &[u8], random: &mut Random) -> Replay {
    let mut record = [random.byte(); LENGTH];
    let mut line = usize::MAX;
    let number = device_calls::replay(&mut record, text, &mut line);
    Replay {
        number,
        line,
        record,
    }
}

/// The calls in the lines up to this one, and the line itself, if it is one.
fn calls_up_to(text: &[u8], line: usize) -> Vec<&[u8]> {
    let lines = text.split(|&byte| byte == b'\n').take(line);
    lines.filter(|line| !line.starts_with(b"C")).collect()
}
