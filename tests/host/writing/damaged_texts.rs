//! Damaged texts for a shrink: bytes, lines or fields changed, so that many stay well-formed and many do not.

use crate::byte_damage::damage_bytes;
use crate::calls::{Call, Calls};
use crate::field_damage::damage_field;
use crate::line_damage::damage_lines;
use crate::random::Random;
use crate::random_items::random_items;
use crate::tally::Tally;
use crate::text::write;
use crate::Part;

pub const PART: Part = Part {
    name: "damaged texts",
    run,
    rounds: 50_000,
};

/// Damaged texts made of each trace.
const COPIES: u64 = 25;
const MOST_ITEMS: u64 = 9;

fn run(calls: &Calls, count: u64, random: &mut Random, tally: &mut Tally) -> Result<(), String> {
    for _ in 0..count {
        let text = write(&random_items(random.below(MOST_ITEMS), random));
        for _ in 0..COPIES {
            let damaged = damaged_text(&text, random);
            // Damage may also undo itself, or change a digit to the same one.
            if damaged != text {
                let shrunk = calls.compare(Call::Shrink, &damaged, random, tally)?;
                tally.damaged_texts.count(shrunk.is_some());
            }
        }
    }
    Ok(())
}

/// Damaged once, now and then more often.
pub fn damaged_text(text: &[u8], random: &mut Random) -> Vec<u8> {
    let mut text = text.to_vec();
    let times = random.pick(&[1, 1, 1, 1, 2, 3]);
    for _ in 0..times {
        match random.below(10) {
            0..=3 => damage_bytes(&mut text, random),
            4..=5 => damage_lines(&mut text, random),
            _ => damage_field(&mut text, random),
        }
    }
    text
}
