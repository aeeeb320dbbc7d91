//! A planner and a check, and what they answer against the model. They are the archive's, or wrong ones on purpose.

use crate::model::{Plan, Verdict, Wanted, OUT_OF_RANGE};
use crate::tally::Tally;

/// The last argument is what stands in the places of the answers before the call.
#[derive(Clone, Copy)]
pub struct Calls {
    pub plan: fn(&Wanted, Plan) -> Plan,
    pub check: fn(&Wanted, u32, Verdict) -> Verdict,
}

/// Two fillings that have no bit in common: an answer that is not stored cannot pass for one in both.
const PLANS_BEFORE: [Plan; 2] = [
    Plan {
        number: 0xA5,
        ubrr: 0xA5A5,
        tenths: 0x5A5A_5A5A,
    },
    Plan {
        number: 0x5A,
        ubrr: 0x5A5A,
        tenths: !0x5A5A_5A5A,
    },
];
const VERDICTS_BEFORE: [Verdict; 2] = [
    Verdict {
        number: 0xA5,
        accepted: 0xA5,
    },
    Verdict {
        number: 0x5A,
        accepted: 0x5A,
    },
];

impl Calls {
    /// Answers what model and archive both say.
    pub fn compare_plan(&self, wanted: &Wanted, tally: &mut Tally) -> Result<Plan, String> {
        let expected = wanted.plan();
        for before in PLANS_BEFORE {
            let given = (self.plan)(wanted, before);
            if given != expected {
                return Err(format!("{wanted:?}: model {expected:?}, archive {given:?}"));
            }
        }
        tally.plans += 1;
        tally.plans_refused += (expected.number == OUT_OF_RANGE) as u64;
        Ok(expected)
    }

    /// Answers what model and archive both say.
    pub fn compare_check(
        &self,
        wanted: &Wanted,
        ubrr: u32,
        tally: &mut Tally,
    ) -> Result<Verdict, String> {
        let expected = wanted.check(ubrr);
        for before in VERDICTS_BEFORE {
            let given = (self.check)(wanted, ubrr, before);
            if given != expected {
                return Err(format!(
                    "{wanted:?}, UBRR {ubrr}: model {expected:?}, archive {given:?}"
                ));
            }
        }
        tally.checks += 1;
        tally.checks_refused += (expected.number == OUT_OF_RANGE) as u64;
        tally.accepted += expected.accepted as u64;
        Ok(expected)
    }

    /// The plan, and the check at the UBRRs around it and at those that a cut of the UBRR's bits would take for it.
    pub fn compare_around(&self, wanted: &Wanted, tally: &mut Tally) -> Result<Plan, String> {
        let plan = self.compare_plan(wanted, tally)?;
        for ubrr in proposals(plan.ubrr.into()) {
            self.compare_check(wanted, ubrr, tally)?;
        }
        Ok(plan)
    }
}

/// UBRRs around the best one, at the ends, and the best one with a bit above those of UBRR.
pub fn proposals(best: u32) -> [u32; 16] {
    [
        best,
        best + 1,
        best + 2,
        best.saturating_sub(1),
        best.saturating_sub(2),
        0,
        4_094,
        4_095,
        4_096,
        best + (1 << 12),
        best + (1 << 15),
        65_535,
        best + (1 << 16),
        best + (1 << 31),
        u32::MAX - best,
        u32::MAX,
    ]
}
