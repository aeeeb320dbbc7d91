//! M-100's whole example with one byte changed to each other value, one put in anywhere, or one taken out.

use crate::calls::{compare, Program};
use crate::examples::EXAMPLE;
use crate::random::Random;
use crate::tally::Tally;
use crate::Part;

pub const PART: Part = Part {
    name: "single bytes",
    run,
    rounds: 1,
};

fn run(program: Program, _: u64, random: &mut Random, tally: &mut Tally) -> Result<(), String> {
    for place in 0..EXAMPLE.len() {
        for byte in (0..=u8::MAX).filter(|&byte| byte != EXAMPLE[place]) {
            let mut text = EXAMPLE.to_vec();
            text[place] = byte;
            compare(program, &text, random, tally)?;
        }
        let mut text = EXAMPLE.to_vec();
        text.remove(place);
        compare(program, &text, random, tally)?;
    }
    for place in 0..=EXAMPLE.len() {
        for byte in 0..=u8::MAX {
            let mut text = EXAMPLE.to_vec();
            text.insert(place, byte);
            compare(program, &text, random, tally)?;
        }
    }
    Ok(())
}
