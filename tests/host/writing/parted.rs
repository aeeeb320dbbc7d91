//! Clocks parted into lines, so that a shrink finds something to join.

use crate::random::Random;
use crate::random_items::FULL_SUM;
use crate::shrinking::clocks;
use crate::trace::Item;

/// Lines that a line of clocks becomes, if it has so many clocks.
const MOST_LINES: u64 = 4;

/// The items with each line of clocks parted, now and then.
pub fn parted(items: &[Item], random: &mut Random) -> Vec<Item> {
    let mut all = Vec::new();
    for item in items {
        match *item {
            Item::Clocks { levels, .. } if random.flip() => {
                let lines = random.between(2, MOST_LINES);
                all.extend(lines_of(levels, clocks(item) as u64, lines, random));
            }
            _ => all.push(*item),
        }
    }
    all
}

/// So many clocks in about so many lines of any number of clocks, more where they do not go into these.
pub fn lines_of(levels: u8, clocks: u64, lines: u64, random: &mut Random) -> Vec<Item> {
    let mut left = clocks;
    let mut all = Vec::new();
    while left > 0 {
        let is_last = all.len() as u64 + 1 >= lines;
        let any = random.between(1, left);
        let some = if is_last { left } else { any }.min(FULL_SUM);
        all.push(Item::Clocks {
            levels,
            clocks: some as u32,
        });
        left -= some;
    }
    all
}
