//! Damaged texts: short traces with bytes, lines or fields changed, so that many stay well-formed and many do not.

use crate::byte_damage::damage_bytes;
use crate::calls::{compare, Program};
use crate::cost::is_cheap;
use crate::field_damage::damage_field;
use crate::line_damage::damage_lines;
use crate::random::Random;
use crate::scenes::short_history;
use crate::tally::Tally;
use crate::text::write;
use crate::Part;

pub const PART: Part = Part {
    name: "damaged texts",
    run,
    rounds: 50_000,
};

/// Damaged texts made of each trace.
const COPIES: u64 = 25;
/// Clocks that a damaged text may pass.
const MOST_CLOCKS: u64 = 20_000;

fn run(program: Program, count: u64, random: &mut Random, tally: &mut Tally) -> Result<(), String> {
    for _ in 0..count {
        let text = write(&short_history(random).items);
        for _ in 0..COPIES {
            let damaged = damaged(&text, random);
            // Damage may also undo itself, or change a digit to the same one.
            if damaged != text && is_cheap(&damaged, MOST_CLOCKS) {
                let answer = compare(program, &damaged, random, tally)?;
                tally.count_damaged(&answer, &damaged);
            }
        }
    }
    Ok(())
}

/// Damaged once, now and then more often: a second damage may come before the first malformed line, or behind it.
fn damaged(text: &[u8], random: &mut Random) -> Vec<u8> {
    let mut text = text.to_vec();
    let times = random.pick(&[1, 1, 1, 1, 1, 2, 2, 3]);
    for _ in 0..times {
        match random.below(10) {
            0..=2 => damage_bytes(&mut text, random),
            3 => damage_lines(&mut text, random),
            _ => damage_field(&mut text, random),
        }
    }
    text
}
