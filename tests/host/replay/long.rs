//! Texts that are longer than the 65,536 bytes which bind the program and not the call, and more lines than 16 bits
//! count.

use crate::calls::{compare, expect, Program};
use crate::random::Random;
use crate::recorded::is_done;
use crate::replay::{MALFORMED, OTHERWISE};
use crate::scenes::random_history;
use crate::tally::Tally;
use crate::text::{self, of_lines, NEUTRAL};
use crate::trace::HEADER;
use crate::Part;

pub const PART: Part = Part {
    name: "long texts",
    run,
    rounds: 1,
};

/// Scenes that come to more than 65,536 bytes.
const SCENES: u64 = 1_200;
const LENGTH: usize = 65_536;

/// Lines around where a count in 8 or 16 bits would turn over, and a length of 65,536 bytes.
const LINES: [usize; 9] = [255, 256, 257, 8_192, 8_193, 65_535, 65_536, 65_537, 70_000];

fn run(program: Program, count: u64, random: &mut Random, tally: &mut Tally) -> Result<(), String> {
    for lines in LINES {
        ends(program, lines, random, tally)?;
    }
    for _ in 0..count {
        let history = random_history(SCENES, random);
        let length = text::write(&history.items).len();
        if length <= LENGTH {
            return Err(format!("the history has {length} bytes only"));
        }
        is_done(program, &history, random, tally)?;
    }
    Ok(())
}

/// So many lines: done; with the last answered otherwise, malformed, or without its LF.
fn ends(
    program: Program,
    lines: usize,
    random: &mut Random,
    tally: &mut Tally,
) -> Result<(), String> {
    let mut all = vec![HEADER];
    all.resize(lines, NEUTRAL);
    let text = of_lines(&all);
    let answer = compare(program, &text, random, tally)?;
    expect(&answer, 0, 0, &text)?;
    let cut = &text[..text.len() - 1];
    let answer = compare(program, cut, random, tally)?;
    expect(&answer, MALFORMED, lines, cut)?;
    for (last, number) in [(text::OTHERWISE, OTHERWISE), (b"R\t0\t0", MALFORMED)] {
        all[lines - 1] = last;
        let text = of_lines(&all);
        let answer = compare(program, &text, random, tally)?;
        expect(&answer, number, lines, &text)?;
    }
    Ok(())
}
