//! Programs that are wrong on purpose: the part that is named has to see a difference, else the test could not fail.

use crate::calls::Calls;
use crate::model::{Plan, Verdict, Wanted};
use crate::parts;
use crate::tally::Tally;
use crate::wrong_checks::WRONG_CHECKS;
use crate::wrong_plans::WRONG_PLANS;
use crate::{Part, PARTS};

pub type WrongPlan = (&'static str, fn(&Wanted, Plan) -> Plan, Part);
pub type WrongCheck = (&'static str, fn(&Wanted, u32, Verdict) -> Verdict, Part);

/// What is not wrong on purpose is the model's own.
const RIGHT: Calls = Calls {
    plan: |wanted, _| wanted.plan(),
    check: |wanted, ubrr, _| wanted.check(ubrr),
};

/// Answers how many there are.
pub fn all_are_seen(seed: u64) -> Result<usize, String> {
    for (name, plan, part) in WRONG_PLANS {
        is_seen(name, &Calls { plan, ..RIGHT }, &part, seed)?;
    }
    for (name, check, part) in WRONG_CHECKS {
        is_seen(name, &Calls { check, ..RIGHT }, &part, seed)?;
    }
    Ok(WRONG_PLANS.len() + WRONG_CHECKS.len())
}

fn is_seen(name: &str, calls: &Calls, part: &Part, seed: u64) -> Result<(), String> {
    parts::is_seen(name, part, &PARTS, seed, |run, rounds, random| {
        run(calls, rounds, random, &mut Tally::default())
    })
}
