//! Random items of a trace: often clocks with the levels of their neighbours, whose sums come near to full lines and to
//! where a number gets a digit more.

use crate::random::Random;
use crate::shrinking::{clocks, levels, FULL};
use crate::trace::Item;

/// In 64 bits, where sums do not turn over.
pub const FULL_SUM: u64 = FULL as u64;

/// Full lines that a sum comes near to.
const MOST_FULL: u64 = 5;

/// A few items, or a few hundred.
pub fn random_count(random: &mut Random) -> u64 {
    let most = random.pick(&[4, 12, 12, 40, 40, 400]);
    random.below(most)
}

pub fn random_items(count: u64, random: &mut Random) -> Vec<Item> {
    let mut items: Vec<Item> = Vec::new();
    for _ in 0..count {
        let item = match random.below(10) {
            0..=1 => random_call(random),
            _ => random_clocks(&items, random),
        };
        items.push(item);
    }
    items
}

fn random_call(random: &mut Random) -> Item {
    let [first, second, answer] = [(); 3].map(|_| random_byte(random));
    match random.below(3) {
        0 => Item::Write {
            address: first,
            value: second,
            answer,
        },
        1 => Item::Read {
            address: first,
            value: second,
            answer,
        },
        _ => Item::Vector {
            vector: first,
            answer,
        },
    }
}

/// A byte, often one with a digit more or fewer than the next.
fn random_byte(random: &mut Random) -> u8 {
    let any = random.byte();
    random.pick(&[0, 1, 9, 10, 11, 99, 100, 101, 199, 200, 255, any, any])
}

/// Mostly with the levels of the last item, if it is clocks.
fn random_clocks(items: &[Item], random: &mut Random) -> Item {
    let any = random.pick(&[0, 1, 9, 10, 11, 17, 17, 30, 31]);
    let last = items.last().and_then(levels);
    let levels = match last {
        Some(levels) if random.percent(85) => levels,
        _ => any,
    };
    Item::Clocks {
        levels,
        clocks: random_number(group_sum(items, levels), random),
    }
}

/// The clocks with these levels at the end of the items.
fn group_sum(items: &[Item], group_levels: u8) -> u64 {
    let group = items.iter().rev();
    let group = group.take_while(|item| levels(item) == Some(group_levels));
    group.map(clocks).sum::<u128>() as u64
}

/// So many clocks more, often such that their sum with those before is a full line or has a digit more.
fn random_number(sum: u64, random: &mut Random) -> u32 {
    let full = random.between(0, MOST_FULL) * FULL_SUM;
    let ten = ten_to(random);
    let number = match random.below(10) {
        0..=1 => random.between(1, 20),
        2 => near(ten, random),
        3 => near(FULL_SUM, random),
        4 => near(FULL_SUM / 2, random),
        5 => random.below(ten),
        6 => random.next() & FULL_SUM,
        7..=8 => near(full, random).saturating_sub(sum),
        _ => near(full + ten, random).saturating_sub(sum),
    };
    number.clamp(1, FULL_SUM) as u32
}

/// 1 to 1,000,000,000.
fn ten_to(random: &mut Random) -> u64 {
    10u64.pow(random.below(10) as u32)
}

/// At most two more or fewer.
pub fn near(number: u64, random: &mut Random) -> u64 {
    (number + random.below(5)).saturating_sub(2)
}
