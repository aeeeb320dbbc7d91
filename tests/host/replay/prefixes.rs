//! Every prefix of a whole trace. Only one that ends with an LF is a trace; of any other the last line is malformed.
//! The rest stands behind it in memory, so a reader that goes too far finds it there.

use crate::calls::{compare, expect, Program};
use crate::examples::EXAMPLE;
use crate::random::Random;
use crate::scenes::random_history;
use crate::tally::Tally;
use crate::text::write;
use crate::Part;

pub const PART: Part = Part {
    name: "prefixes",
    run,
    rounds: 3,
};

const SCENES: u64 = 8;

fn run(program: Program, count: u64, random: &mut Random, tally: &mut Tally) -> Result<(), String> {
    all_prefixes(program, EXAMPLE, random, tally)?;
    for _ in 0..count {
        let text = write(&random_history(SCENES, random).items);
        all_prefixes(program, &text, random, tally)?;
    }
    Ok(())
}

fn all_prefixes(
    program: Program,
    text: &[u8],
    random: &mut Random,
    tally: &mut Tally,
) -> Result<(), String> {
    for length in 0..=text.len() {
        let prefix = &text[..length];
        let answer = compare(program, prefix, random, tally)?;
        let ends = prefix.iter().filter(|&&byte| byte == b'\n').count();
        match prefix.last() {
            Some(b'\n') => expect(&answer, 0, 0, prefix)?,
            _ => expect(&answer, 9, ends + 1, prefix)?,
        }
    }
    Ok(())
}
