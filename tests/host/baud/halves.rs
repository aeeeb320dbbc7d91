//! Errors that lie just half way between two figures, 'halves away from zero', and the clocks beside them.
//!
//! The error is an odd number of half tenths exactly when 2000 * clock = q * T with q odd, and they are q - 2000.

use crate::calls::Calls;
use crate::model::{Wanted, CLOCKS, RATES};
use crate::random::Random;
use crate::tally::Tally;
use crate::Part;

pub const PART: Part = Part {
    name: "halves",
    run,
    rounds: 6_000,
};

/// A divisor (UBRR + 1) and q.
type Half = (u64, u64);

fn run(calls: &Calls, count: u64, random: &mut Random, tally: &mut Tally) -> Result<(), String> {
    for _ in 0..count {
        for choose in [below_the_first, above_the_last, between] {
            let half = choose(random);
            let u2x = random.below(2) as u8;
            if let Some(wanted) = wanted_of(half, u2x, random) {
                compare_half(calls, half, &wanted, tally)?;
            }
        }
    }
    Ok(())
}

/// UBRR 0 is the best one for every T above the clock: all errors down to -100 %.
fn below_the_first(random: &mut Random) -> Half {
    (1, 2 * random.below(1_000) + 1)
}

/// UBRR 4,095 is the best one for every T below the clock; above 5,000, q has to have more factors of 5 to go with
/// a rate that is low enough.
fn above_the_last(random: &mut Random) -> Half {
    let factor = random.pick(&[1, 5, 25, 125]);
    (
        4_096,
        factor * (2_000 / factor + 1 + 2 * random.below(2_400)),
    )
}

/// Others are best only where the error is below about 1 / (2m + 1).
fn between(random: &mut Random) -> Half {
    let m = random.between(1, 1_000);
    let widest = 2_000 / (2 * m + 1);
    (m, (2_000 - widest + random.below(2 * widest + 1)) | 1)
}

/// A clock and a rate with this error at this divisor, if there are any within the ranges.
fn wanted_of((m, q): Half, u2x: u8, random: &mut Random) -> Option<Wanted> {
    let s = if u2x == 0 { 16 } else { 8 };
    // The clock is product * rate / 2000: the rate is a multiple of what 2000 has and the product has not.
    let product = q * s * m;
    let step = 2_000 / greatest_divisor(2_000, product);
    let last = (u64::from(*CLOCKS.end()) * 2_000 / product).min(u64::from(*RATES.end())) / step;
    let rate = step * random.between(1, last.max(1));
    (last > 0).then(|| Wanted {
        clock: (product * rate / 2_000) as u32,
        rate: rate as u32,
        u2x,
    })
}

fn greatest_divisor(a: u64, b: u64) -> u64 {
    if b == 0 {
        a
    } else {
        greatest_divisor(b, a % b)
    }
}

fn compare_half(
    calls: &Calls,
    (m, q): Half,
    wanted: &Wanted,
    tally: &mut Tally,
) -> Result<(), String> {
    let plan = calls.compare_plan(wanted, tally)?;
    for clock in [wanted.clock - 1, wanted.clock + 1] {
        calls.compare_plan(&Wanted { clock, ..*wanted }, tally)?;
    }
    if u64::from(plan.ubrr) + 1 != m {
        return Ok(());
    }
    let half_tenths = q as i32 - 2_000;
    if plan.tenths != (half_tenths + half_tenths.signum()) / 2 {
        return Err(format!(
            "{wanted:?}: {plan:?}, but the error is {half_tenths} half tenths"
        ));
    }
    tally.halves_above += (half_tenths > 0) as u64;
    tally.halves_below += (half_tenths < 0) as u64;
    Ok(())
}
