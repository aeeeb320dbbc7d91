//! Null pointers where there are no bytes: an empty list, an empty text, a buffer of no bytes, and both.

use crate::calls::{Call, Calls};
use crate::examples::{EXAMPLE, EXAMPLE_LIST};
use crate::memory::Before;
use crate::random::Random;
use crate::tally::Tally;
use crate::writing::{DONE, MALFORMED, ROOM};
use crate::Part;

pub const PART: Part = Part {
    name: "null pointers",
    run,
    rounds: 50,
};

/// Input, room, and the number that is due.
const CASES: [(Call, &[u8], usize, u8); 11] = [
    (Call::Write, b"", 0, ROOM),
    (Call::Write, b"", 7, ROOM),
    (Call::Write, b"", 8, DONE),
    (Call::Write, b"", 100, DONE),
    (Call::Write, EXAMPLE_LIST, 0, ROOM),
    (Call::Write, b"X\0\0\0\0\0\0\0", 0, MALFORMED),
    (Call::Shrink, b"", 0, MALFORMED),
    (Call::Shrink, b"", 8, MALFORMED),
    (Call::Shrink, EXAMPLE.as_bytes(), 0, ROOM),
    (Call::Shrink, b"chime\t1\n", 0, ROOM),
    (Call::Shrink, b"chime\t1", 0, MALFORMED),
];

fn run(calls: &Calls, count: u64, random: &mut Random, tally: &mut Tally) -> Result<(), String> {
    for _ in 0..count {
        for (call, input, room, due) in CASES {
            both_ways(calls, call, input, room, due, random, tally)?;
        }
    }
    Ok(())
}

/// With null pointers, and with others to no bytes.
fn both_ways(
    calls: &Calls,
    call: Call,
    input: &[u8],
    room: usize,
    due: u8,
    random: &mut Random,
    tally: &mut Tally,
) -> Result<(), String> {
    let mut before = Before::random(input, room, random);
    for nulls in [false, true] {
        before.nulls = nulls;
        let text = call.text(input);
        let answer = calls.compare_from(call, &before, text.as_deref(), tally)?;
        if answer.number != due {
            return Err(format!("{call:?}: model {}, due {due}", answer.number));
        }
        tally.nulls += nulls as u64;
    }
    Ok(())
}
