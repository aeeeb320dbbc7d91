//! Settings at which two UBRRs have the same absolute error. Both are accepted, and the planner gives the larger.
//!
//! Divisors m and m + 1 (UBRRs m - 1 and m) tie exactly when clock * (2m + 1) = 2 * S * rate * m * (m + 1). As 2m + 1
//! has no factor in common with 2, S, m or m + 1, it divides the rate: rate = (2m + 1) * i, and then
//! clock = 2 * S * m * (m + 1) * i.

use crate::calls::Calls;
use crate::model::{Wanted, CLOCKS, RATES};
use crate::random::Random;
use crate::tally::Tally;
use crate::Part;

pub const PART: Part = Part {
    name: "ties",
    run,
    rounds: 3,
};

/// All clocks and rates up to these are searched.
const SEARCHED_CLOCKS: u32 = 1_000;
const SEARCHED_RATES: u32 = 40;

fn run(calls: &Calls, count: u64, random: &mut Random, tally: &mut Tally) -> Result<(), String> {
    let mut within_search = 0;
    for u2x in [0, 1] {
        for m in 1.. {
            let first = tie(m, 1, u2x);
            let last = most(&first, *CLOCKS.end(), *RATES.end());
            if last == 0 {
                break;
            }
            within_search += u64::from(most(&first, SEARCHED_CLOCKS, SEARCHED_RATES));
            compare_tie(calls, &first, m, tally)?;
            compare_tie(calls, &tie(m, last, u2x), m, tally)?;
            for _ in 0..count {
                let i = random.between(1, last.into()) as u32;
                compare_tie(calls, &tie(m, i, u2x), m, tally)?;
            }
        }
    }
    search(calls, within_search, tally)
}

fn tie(m: u32, i: u32, u2x: u8) -> Wanted {
    let s = if u2x == 0 { 16 } else { 8 };
    Wanted {
        clock: 2 * s * m * (m + 1) * i,
        rate: (2 * m + 1) * i,
        u2x,
    }
}

/// The largest i with which clock and rate, here those with 1, are no more than these.
fn most(first: &Wanted, clock: u32, rate: u32) -> u32 {
    (clock / first.clock).min(rate / first.rate)
}

fn compare_tie(calls: &Calls, wanted: &Wanted, m: u32, tally: &mut Tally) -> Result<(), String> {
    let plan = calls.compare_around(wanted, tally)?;
    let smaller = calls.compare_check(wanted, m - 1, tally)?;
    let larger = calls.compare_check(wanted, m, tally)?;
    if (u32::from(plan.ubrr), smaller.accepted, larger.accepted) != (m, 1, 1) {
        return Err(format!("{wanted:?}: no tie of UBRR {} and {m}", m - 1));
    }
    tally.ties += 1;
    Ok(())
}

/// Among all small settings the model meets as many ties as there are by the equation: it leaves none out.
fn search(calls: &Calls, expected: u64, tally: &mut Tally) -> Result<(), String> {
    let mut met = 0;
    for clock in 1..=SEARCHED_CLOCKS {
        for rate in 1..=SEARCHED_RATES {
            for u2x in [0, 1] {
                let wanted = Wanted { clock, rate, u2x };
                let plan = calls.compare_plan(&wanted, tally)?;
                if let Some(smaller) = u32::from(plan.ubrr).checked_sub(1) {
                    met += u64::from(calls.compare_check(&wanted, smaller, tally)?.accepted);
                }
            }
        }
    }
    if met != expected {
        return Err(format!(
            "{met} ties among the small settings, not {expected}"
        ));
    }
    tally.ties_searched += met;
    Ok(())
}
