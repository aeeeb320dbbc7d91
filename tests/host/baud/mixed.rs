//! Random clocks and rates of all sizes, random bytes as the speed, random proposals.

use crate::calls::{proposals, Calls};
use crate::model::{Wanted, CLOCKS, RATES};
use crate::random::Random;
use crate::tally::Tally;
use crate::Part;

pub const PART: Part = Part {
    name: "mixed",
    run,
    rounds: 250_000,
};

fn run(calls: &Calls, count: u64, random: &mut Random, tally: &mut Tally) -> Result<(), String> {
    for _ in 0..count {
        let wanted = random_wanted(random);
        let plan = calls.compare_plan(&wanted, tally)?;
        let around = random.pick(&proposals(plan.ubrr.into()));
        let within = random.below(4_096) as u32;
        let anything = random.next() as u32 >> random.below(32);
        for ubrr in [around, within, anything] {
            calls.compare_check(&wanted, ubrr, tally)?;
        }
    }
    Ok(())
}

pub fn random_wanted(random: &mut Random) -> Wanted {
    let u2x = if random.flip() { 0 } else { random.byte() };
    let clock = random_number(*CLOCKS.end(), random);
    let rate = if random.percent(40) {
        // Somewhere near the rate of a UBRR, up to those just above the last.
        let ticks = random.pick(&[8, 16]) * random.between(1, 4_200);
        (u64::from(clock) / ticks).max(1) as u32
    } else {
        random_number(*RATES.end(), random)
    };
    Wanted { clock, rate, u2x }
}

/// Mostly from 1 to the last: anywhere, small, or of any number of bits.
fn random_number(last: u32, random: &mut Random) -> u32 {
    let last = u64::from(last);
    let bits = random.below(24);
    let number = match random.below(50) {
        0 => random.next(),
        1..=16 => random.between(1, last),
        17..=32 => random.between(1, 2_000),
        _ => random.between(1, (last >> bits).max(1)),
    };
    number as u32
}
