//! Every value of each byte of an item, for every first byte, held against a table of what is taken there; and lists of
//! every length up to five items.

use crate::calls::{expect_any, Call, Calls};
use crate::examples::EXAMPLE_LIST;
use crate::listing::ITEM_LEN;
use crate::memory::Before;
use crate::random::Random;
use crate::tally::Tally;
use crate::Part;

pub const PART: Part = Part {
    name: "bytes of an item",
    run,
    rounds: 1,
};

/// Values of a byte that are taken, the others being as they are.
enum Taken {
    Any,
    Zero,
    UpTo31,
}

use Taken::{Any, UpTo31, Zero};

/// The letters, with what is taken in byte 1 and those behind it. Clocks of 0 are looked at by themselves.
const LETTERS: [(u8, [Taken; 7]); 4] = [
    (b'W', [Any, Any, Zero, Any, Zero, Zero, Zero]),
    (b'R', [Any, Any, Zero, Any, Zero, Zero, Zero]),
    (b'A', [Any, Any, Zero, Zero, Zero, Zero, Zero]),
    (b'C', [UpTo31, Zero, Zero, Any, Any, Any, Any]),
];

/// Bytes 1 to 7: the smallest and the largest ones of each letter, and others in range.
const BASES: [[u8; 7]; 9] = [
    [0, 0, 0, 0, 0, 0, 0],
    [0, 0, 0, 1, 0, 0, 0],
    [255, 255, 0, 255, 0, 0, 0],
    [0, 193, 0, 24, 0, 0, 0],
    [255, 255, 0, 0, 0, 0, 0],
    [8, 1, 0, 0, 0, 0, 0],
    [31, 0, 0, 255, 255, 255, 255],
    [17, 0, 0, 16, 0, 0, 0],
    [17, 0, 0, 0, 0, 0, 1],
];

/// A first byte that is no letter is tried with one of the bases, another one for each.
fn run(calls: &Calls, _: u64, random: &mut Random, tally: &mut Tally) -> Result<(), String> {
    for first in 0..=u8::MAX {
        let is_letter = LETTERS.iter().any(|(letter, _)| *letter == first);
        let one = usize::from(first) % BASES.len();
        let bases = if is_letter {
            &BASES[..]
        } else {
            &BASES[one..=one]
        };
        for base in bases {
            every_byte(calls, first, base, random, tally)?;
        }
    }
    lengths(calls, random, tally)
}

/// Each of the bytes behind the first takes every value.
fn every_byte(
    calls: &Calls,
    first: u8,
    base: &[u8; 7],
    random: &mut Random,
    tally: &mut Tally,
) -> Result<(), String> {
    for place in 0..base.len() {
        for value in 0..=u8::MAX {
            let mut rest = *base;
            rest[place] = value;
            is_taken_or_not(calls, first, rest, random, tally)?;
        }
    }
    Ok(())
}

fn is_taken_or_not(
    calls: &Calls,
    first: u8,
    rest: [u8; 7],
    random: &mut Random,
    tally: &mut Tally,
) -> Result<(), String> {
    let item = [&[first][..], &rest].concat();
    let text = Call::Write.text(&item);
    expect_any(Call::Write, &item, &text, is_taken(first, rest))?;
    let room = text.as_ref().map_or(40, Vec::len);
    let before = Before::random(&item, room, random);
    calls.compare_from(Call::Write, &before, text.as_deref(), tally)?;
    tally.items += 1;
    Ok(())
}

fn is_taken(first: u8, rest: [u8; 7]) -> bool {
    let Some((_, taken)) = LETTERS.iter().find(|(letter, _)| *letter == first) else {
        return false;
    };
    let has_no_clocks = first == b'C' && rest[3..] == [0; 4];
    let mut bytes = taken.iter().zip(rest);
    !has_no_clocks
        && bytes.all(|(taken, byte)| match taken {
            Any => true,
            Zero => byte == 0,
            UpTo31 => byte <= 31,
        })
}

/// 'no multiple of eight': of the first bytes of five items only whole items are taken.
fn lengths(calls: &Calls, random: &mut Random, tally: &mut Tally) -> Result<(), String> {
    let items = [&EXAMPLE_LIST[..], &EXAMPLE_LIST[..16]].concat();
    for length in 0..=items.len() {
        let list = &items[..length];
        let text = calls.compare(Call::Write, list, random, tally)?;
        expect_any(Call::Write, list, &text, length % ITEM_LEN == 0)?;
        // The rest of the items stands behind the input: a reader that rounds the length up finds it.
        let mut before = Before::random(&items, 100, random);
        before.input.end = before.input.start + length;
        calls.compare_from(Call::Write, &before, text.as_deref(), tally)?;
    }
    Ok(())
}
