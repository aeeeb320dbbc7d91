//! The model itself. Its planner goes over the UBRRs once; here each of them is held against the words instead.

use crate::calls::Calls;
use crate::mixed::random_wanted;
use crate::model::{Wanted, LAST_UBRR};
use crate::random::Random;
use crate::tally::Tally;
use crate::Part;

pub const PART: Part = Part {
    name: "the model itself",
    run,
    rounds: 100,
};

fn run(_: &Calls, count: u64, random: &mut Random, _: &mut Tally) -> Result<(), String> {
    for _ in 0..count {
        let wanted = random_wanted(random);
        if wanted.in_range() {
            plan_is_the_largest_accepted(&wanted)?;
            figure_is_within_half_a_tenth(&wanted)?;
        }
    }
    Ok(())
}

/// 'The planner gives one that is accepted for each speed, the larger UBRR on a tie'.
fn plan_is_the_largest_accepted(wanted: &Wanted) -> Result<(), String> {
    let largest = (0..=LAST_UBRR).rev().find(|&ubrr| wanted.accepts(ubrr));
    let plan = wanted.plan();
    if largest != Some(plan.ubrr.into()) {
        return Err(format!(
            "{wanted:?}: model {plan:?}, the largest accepted is {largest:?}"
        ));
    }
    Ok(())
}

/// 'the shown figure lies within half a tenth of the exact one': at every UBRR, not the best one's alone.
fn figure_is_within_half_a_tenth(wanted: &Wanted) -> Result<(), String> {
    for ubrr in 0..=LAST_UBRR {
        let (over, t) = wanted.error(ubrr);
        let tenths = wanted.tenths(ubrr);
        let off = tenths * t - 1_000 * over;
        let half_toward_zero = 2 * off.abs() == t && off.signum() != over.signum();
        if 2 * off.abs() > t || half_toward_zero {
            return Err(format!("{wanted:?}, UBRR {ubrr}: model {tenths} tenths"));
        }
    }
    Ok(())
}
