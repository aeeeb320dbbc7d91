//! More lines or items than 8 or 16 bits count, texts above 65,536 bytes, and sums of very many full lines.

use crate::calls::{expect, Call, Calls};
use crate::listing::list;
use crate::random::Random;
use crate::random_items::random_items;
use crate::shrinking::FULL;
use crate::tally::Tally;
use crate::text::write;
use crate::trace::Item;
use crate::Part;

pub const PART: Part = Part {
    name: "long texts",
    run,
    rounds: 4,
};

/// Items around where a count in 8 or 16 bits would turn over, or a length of 65,536 bytes.
const COUNTS: [usize; 9] = [255, 256, 257, 4_096, 8_192, 8_193, 65_535, 65_536, 70_000];
const RANDOM: u64 = 20_000;

const CALL: Item = Item::Vector {
    vector: 1,
    answer: 8,
};

fn run(calls: &Calls, count: u64, random: &mut Random, tally: &mut Tally) -> Result<(), String> {
    for count in COUNTS {
        alike(calls, count, random, tally)?;
        rest_goes_last(calls, count, random, tally)?;
    }
    for _ in 0..count {
        let items = random_items(RANDOM, random);
        calls.compare(Call::Write, &list(&items), random, tally)?;
        calls.compare(Call::Shrink, &write(&items), random, tally)?;
        tally.long += 2;
    }
    Ok(())
}

/// So many equal items: calls and full lines stay, single clocks become one line.
fn alike(
    calls: &Calls,
    count: usize,
    random: &mut Random,
    tally: &mut Tally,
) -> Result<(), String> {
    let one_line = vec![clocks(count as u32)];
    for (item, left) in [
        (CALL, vec![CALL; count]),
        (clocks(FULL), vec![clocks(FULL); count]),
        (clocks(1), one_line),
    ] {
        let items = vec![item; count];
        calls.compare(Call::Write, &list(&items), random, tally)?;
        let text = write(&items);
        let shrunk = calls.compare(Call::Shrink, &text, random, tally)?;
        expect(Call::Shrink, &text, &shrunk, Some(&write(&left)))?;
        tally.long += 2;
    }
    Ok(())
}

/// A clock, and then so many full lines: the full ones come first.
fn rest_goes_last(
    calls: &Calls,
    count: usize,
    random: &mut Random,
    tally: &mut Tally,
) -> Result<(), String> {
    let full = vec![clocks(FULL); count];
    let text = write(&[&[clocks(1)][..], &full].concat());
    let due = write(&[&full[..], &[clocks(1)]].concat());
    let shrunk = calls.compare(Call::Shrink, &text, random, tally)?;
    expect(Call::Shrink, &text, &shrunk, Some(&due))?;
    tally.long += 1;
    Ok(())
}

fn clocks(clocks: u32) -> Item {
    Item::Clocks { levels: 17, clocks }
}
