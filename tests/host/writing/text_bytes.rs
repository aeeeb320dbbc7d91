//! Texts for a shrink: every prefix, every single byte changed, taken out or put in, and in each place of each kind of
//! line numbers at the ends of the ranges.

use crate::calls::{expect, expect_any, Call, Calls};
use crate::memory::Before;
use crate::numbers::NUMBERS;
use crate::random::Random;
use crate::tally::Tally;
use crate::Part;

pub const PART: Part = Part {
    name: "bytes of a text",
    run,
    rounds: 1,
};

const TEXT: &[u8] =
    b"chime\t1\nC\t17\t16\nC\t17\t9\nR\t192\t32\t0\nC\t0\t4294967295\nC\t0\t5\nA\t1\t8\n";

/// A line for each number of it, which stands at `#`, and the place of its range in NUMBERS.
const LINES: [(&str, usize); 10] = [
    ("W\t#\t24\t0\n", 0),
    ("W\t193\t#\t0\n", 0),
    ("W\t193\t24\t#\n", 0),
    ("R\t#\t32\t0\n", 0),
    ("R\t192\t#\t0\n", 0),
    ("R\t192\t32\t#\n", 0),
    ("A\t#\t8\n", 0),
    ("A\t1\t#\n", 0),
    ("C\t#\t16\n", 1),
    ("C\t17\t#\n", 2),
];

fn run(calls: &Calls, _: u64, random: &mut Random, tally: &mut Tally) -> Result<(), String> {
    prefixes(calls, random, tally)?;
    single_bytes(calls, random, tally)?;
    numbers(calls, random, tally)
}

/// Only a prefix of whole lines is a text. The rest stands behind it in memory.
fn prefixes(calls: &Calls, random: &mut Random, tally: &mut Tally) -> Result<(), String> {
    for length in 0..=TEXT.len() {
        let prefix = &TEXT[..length];
        let text = Call::Shrink.text(prefix);
        expect_any(Call::Shrink, prefix, &text, prefix.ends_with(b"\n"))?;
        let mut before = Before::random(TEXT, TEXT.len(), random);
        before.input.end = before.input.start + length;
        calls.compare_from(Call::Shrink, &before, text.as_deref(), tally)?;
    }
    Ok(())
}

fn single_bytes(calls: &Calls, random: &mut Random, tally: &mut Tally) -> Result<(), String> {
    for place in 0..=TEXT.len() {
        let (head, tail) = TEXT.split_at(place);
        let without = &tail[tail.len().min(1)..];
        calls.compare(Call::Shrink, &[head, without].concat(), random, tally)?;
        for byte in 0..=u8::MAX {
            for tail in [tail, without] {
                let text = [head, &[byte], tail].concat();
                calls.compare(Call::Shrink, &text, random, tally)?;
            }
        }
    }
    Ok(())
}

fn numbers(calls: &Calls, random: &mut Random, tally: &mut Tally) -> Result<(), String> {
    for (line, range) in LINES {
        for (number, is_byte, is_level, is_clocks) in NUMBERS {
            let line = line.replace('#', number);
            let is_in = [is_byte, is_level, is_clocks][range];
            alone_and_between(calls, &line, is_in, random, tally)?;
        }
    }
    Ok(())
}

/// The line as the only one, where a shrink changes nothing, and between others.
fn alone_and_between(
    calls: &Calls,
    line: &str,
    is_in: bool,
    random: &mut Random,
    tally: &mut Tally,
) -> Result<(), String> {
    let text = format!("chime\t1\n{line}").into_bytes();
    let shrunk = calls.compare(Call::Shrink, &text, random, tally)?;
    expect(Call::Shrink, &text, &shrunk, is_in.then_some(&text))?;
    let text = format!("chime\t1\nC\t17\t1\n{line}C\t17\t1\n").into_bytes();
    let shrunk = calls.compare(Call::Shrink, &text, random, tally)?;
    expect_any(Call::Shrink, &text, &shrunk, is_in)
}
