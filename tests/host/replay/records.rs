//! Records before the call: any 64 bytes will do, and any other length is 5 whatever the text.

use crate::before::random_before;
use crate::calls::{compare_from, expect, Before, Program};
use crate::examples::EXAMPLE;
use crate::model::number::RECORD;
use crate::model::record::LENGTH;
use crate::random::Random;
use crate::tally::Tally;
use crate::text::{self, of_lines};
use crate::trace::HEADER;
use crate::Part;

pub const PART: Part = Part {
    name: "records",
    run,
    rounds: 2_000,
};

const LAST_LENGTH: usize = 200;

fn run(program: Program, count: u64, random: &mut Random, tally: &mut Tally) -> Result<(), String> {
    let otherwise = of_lines(&[HEADER, b"W\t36\t60\t0", text::OTHERWISE]);
    let malformed = of_lines(&[HEADER, b"W\t36\t60\t0", b""]);
    let texts: [&[u8]; 5] = [EXAMPLE, &otherwise, &malformed, b"", &EXAMPLE[..20]];
    for length in (0..=LAST_LENGTH).filter(|&length| length != LENGTH) {
        for text in texts {
            for line in [usize::MAX, 1] {
                let record = (0..length).map(|_| random.byte()).collect();
                let before = Before { record, line };
                let answer = compare_from(program, &before, text, tally)?;
                expect(&answer, RECORD, 0, text)?;
            }
        }
    }
    for _ in 0..count {
        for (text, number, line) in [(texts[0], 0, 0), (texts[1], 10, 3), (texts[2], 9, 3)] {
            let answer = compare_from(program, &random_before(random), text, tally)?;
            expect(&answer, number, line, text)?;
        }
    }
    Ok(())
}
