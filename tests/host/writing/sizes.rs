//! Lent buffers of every size up to some bytes more than the text: 12 exactly where it is shorter, and the bytes past a
//! text, or past a buffer, stay.

use crate::calls::{Call, Calls};
use crate::listing::list;
use crate::memory::Before;
use crate::random::Random;
use crate::random_items::random_items;
use crate::tally::Tally;
use crate::text::write;
use crate::writing::{DONE, MALFORMED, ROOM};
use crate::Part;

pub const PART: Part = Part {
    name: "sizes of the buffer",
    run,
    rounds: 4_000,
};

const MOST_ITEMS: u64 = 12;
/// Bytes more than the text has, or than the input where that is refused.
const MORE: usize = 9;

fn run(calls: &Calls, count: u64, random: &mut Random, tally: &mut Tally) -> Result<(), String> {
    for number in 0..count {
        // Few items at first: the first line alone, and one line after it.
        let items = random_items(number.min(random.below(MOST_ITEMS)), random);
        every_size(calls, Call::Write, &list(&items), random, tally)?;
        every_size(calls, Call::Shrink, &write(&items), random, tally)?;
        tally.sizes += 2;
    }
    Ok(())
}

/// Compares one input with a buffer of every size. A refused one has no text: then sizes round its own length are tried.
pub fn every_size(
    calls: &Calls,
    call: Call,
    input: &[u8],
    random: &mut Random,
    tally: &mut Tally,
) -> Result<(), String> {
    let text = call.text(input);
    let length = text.as_ref().map_or(input.len(), Vec::len);
    for room in 0..=length + MORE {
        let before = Before::random(input, room, random);
        let answer = calls.compare_from(call, &before, text.as_deref(), tally)?;
        let due = match text {
            None => MALFORMED,
            Some(_) if room < length => ROOM,
            Some(_) => DONE,
        };
        if answer.number != due {
            return Err(format!("{} bytes of room: model {}", room, answer.number));
        }
    }
    Ok(())
}
