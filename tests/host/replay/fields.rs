//! Every place of every kind of line: all short strings of likely bytes, and numbers at the ends of the ranges, held
//! against lists of what is well-formed there. No clocks pass that cost anything: with a call before it that is always
//! answered otherwise, a well-formed line is 10 at that call, and before an empty line it is not the malformed one.

use std::collections::HashSet;

use crate::calls::{compare, expect, Program};
use crate::numbers::NUMBERS;
use crate::random::Random;
use crate::replay::{MALFORMED, OTHERWISE};
use crate::tally::Tally;
use crate::text::{self, of_lines};
use crate::trace::HEADER;
use crate::Part;

pub const PART: Part = Part {
    name: "fields",
    run,
    rounds: 1,
};

#[derive(Clone, Copy)]
enum Range {
    Byte,
    Level,
    Clocks,
}

/// A line of each kind with the answers that it gets after reset, and the ranges of its numbers.
const LINES: [(&str, &[(&str, Range)]); 4] = [
    (
        "W",
        &[
            ("193", Range::Byte),
            ("24", Range::Byte),
            ("0", Range::Byte),
        ],
    ),
    (
        "R",
        &[
            ("192", Range::Byte),
            ("32", Range::Byte),
            ("0", Range::Byte),
        ],
    ),
    ("A", &[("0", Range::Byte), ("8", Range::Byte)]),
    ("C", &[("17", Range::Level), ("16", Range::Clocks)]),
];

/// Bytes of which the short strings are made: digits, and what might be taken for one or passed over.
const LIKELY: &[u8] = b"0123456789 +-\ra.:/\0\xB1";

fn run(program: Program, _: u64, random: &mut Random, tally: &mut Tally) -> Result<(), String> {
    let strings = short_strings();
    let decimals: HashSet<Vec<u8>> = (0..1_000).map(|n| n.to_string().into_bytes()).collect();
    for (letter, numbers) in LINES {
        for (place, (_, range)) in numbers.iter().enumerate() {
            for string in &strings {
                let is_in = decimals.contains(string) && is_short_in(*range, string);
                let line = line_with(letter, numbers, place, string);
                in_all_frames(program, &line, is_in, true, random, tally)?;
            }
            for (string, is_byte, is_level, is_clocks) in NUMBERS {
                let is_in = match range {
                    Range::Byte => is_byte,
                    Range::Level => is_level,
                    Range::Clocks => is_clocks,
                };
                let line = line_with(letter, numbers, place, string.as_bytes());
                in_all_frames(program, &line, is_in, string.len() < 6, random, tally)?;
            }
        }
        letters(program, letter, numbers, random, tally)?;
    }
    Ok(())
}

/// The decimals below 1,000 that a place takes.
fn is_short_in(range: Range, decimal: &[u8]) -> bool {
    match range {
        Range::Byte => decimal.len() < 3 || decimal <= b"255",
        Range::Level => decimal.len() < 2 || decimal.len() == 2 && decimal <= b"31",
        Range::Clocks => decimal != b"0",
    }
}

/// Strings of up to three bytes.
fn short_strings() -> Vec<Vec<u8>> {
    let mut all = vec![Vec::new()];
    let mut last = all.clone();
    for _ in 0..3 {
        last = last
            .iter()
            .flat_map(|string| LIKELY.iter().map(|&byte| [&string[..], &[byte]].concat()))
            .collect();
        all.extend(last.iter().cloned());
    }
    all
}

fn line_with(letter: &str, numbers: &[(&str, Range)], place: usize, string: &[u8]) -> Vec<u8> {
    let mut fields = vec![letter.as_bytes()];
    fields.extend(numbers.iter().map(|(number, _)| number.as_bytes()));
    fields[place + 1] = string;
    fields.join(&b'\t')
}

/// The letter's place: a byte of any value, or two. Of the letters only one with as many numbers goes.
fn letters(
    program: Program,
    letter: &str,
    numbers: &[(&str, Range)],
    random: &mut Random,
    tally: &mut Tally,
) -> Result<(), String> {
    let right: &[u8] = if numbers.len() == 3 { b"WR" } else { b"AC" };
    let rest = line_with(letter, numbers, 0, numbers[0].0.as_bytes()).split_off(1);
    for byte in (0..=u8::MAX).filter(|byte| !b"\n\t".contains(byte)) {
        for second in [None, Some(byte), Some(b' '), Some(b'W'), Some(b'\0')] {
            let string: Vec<u8> = [byte].into_iter().chain(second).collect();
            let is_in = second.is_none() && right.contains(&byte);
            let line = [&string[..], &rest[..]].concat();
            in_all_frames(program, &line, is_in, true, random, tally)?;
        }
    }
    in_all_frames(program, &rest, false, true, random, tally)
}

/// The line after one that is always answered otherwise, before an empty one, and, where it is cheap, by itself.
fn in_all_frames(
    program: Program,
    line: &[u8],
    is_in: bool,
    is_cheap: bool,
    random: &mut Random,
    tally: &mut Tally,
) -> Result<(), String> {
    let text = of_lines(&[HEADER, text::OTHERWISE, line]);
    let answer = compare(program, &text, random, tally)?;
    match is_in {
        true => expect(&answer, OTHERWISE, 2, &text)?,
        false => expect(&answer, MALFORMED, 3, &text)?,
    }
    let text = of_lines(&[HEADER, line, b""]);
    let answer = compare(program, &text, random, tally)?;
    expect(&answer, MALFORMED, if is_in { 3 } else { 2 }, &text)?;
    if is_cheap {
        compare(program, &of_lines(&[HEADER, line]), random, tally)?;
    }
    Ok(())
}
