//! 9 goes before 12: lists and texts that are refused, with buffers of every size that is too short, and some that
//! would do.

use crate::calls::{Call, Calls};
use crate::damaged_lists::damaged_list;
use crate::damaged_texts::damaged_text;
use crate::listing::list;
use crate::random::Random;
use crate::random_items::random_items;
use crate::sizes::every_size;
use crate::tally::Tally;
use crate::text::write;
use crate::Part;

pub const PART: Part = Part {
    name: "9 before 12",
    run,
    rounds: 10_000,
};

const MOST_ITEMS: u64 = 6;

fn run(calls: &Calls, count: u64, random: &mut Random, tally: &mut Tally) -> Result<(), String> {
    for _ in 0..count {
        let items = random_items(random.below(MOST_ITEMS), random);
        let damaged = damaged_list(&list(&items), random);
        where_refused(calls, Call::Write, &damaged, random, tally)?;
        let damaged = damaged_text(&write(&items), random);
        where_refused(calls, Call::Shrink, &damaged, random, tally)?;
    }
    Ok(())
}

/// Damage may leave an input well-formed; that is no case for this part.
fn where_refused(
    calls: &Calls,
    call: Call,
    input: &[u8],
    random: &mut Random,
    tally: &mut Tally,
) -> Result<(), String> {
    if call.text(input).is_none() {
        every_size(calls, call, input, random, tally)?;
        tally.refused_at_every_size += 1;
    }
    Ok(())
}
