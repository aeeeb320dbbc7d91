//! Random lists of none to some hundred items, written, and their texts shrunk.

use crate::calls::{Call, Calls};
use crate::listing::list;
use crate::random::Random;
use crate::random_items::{random_count, random_items};
use crate::tally::Tally;
use crate::text::write;
use crate::Part;

pub const PART: Part = Part {
    name: "random lists",
    run,
    rounds: 80_000,
};

fn run(calls: &Calls, count: u64, random: &mut Random, tally: &mut Tally) -> Result<(), String> {
    for _ in 0..count {
        let items = random_items(random_count(random), random);
        let text = write(&items);
        calls.compare(Call::Write, &list(&items), random, tally)?;
        let shrunk = calls.compare(Call::Shrink, &text, random, tally)?;
        tally.count_list(&items, text.len(), shrunk.map_or(0, |shrunk| shrunk.len()));
    }
    Ok(())
}
