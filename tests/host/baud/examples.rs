//! The examples of M-104: '16 MHz, 115,200, normal: UBRR 8, -35. Double: 16, 21.'

use crate::calls::Calls;
use crate::model::{Wanted, DONE};
use crate::random::Random;
use crate::tally::Tally;
use crate::Part;

pub const PART: Part = Part {
    name: "examples",
    run,
    rounds: 1,
};

const EXAMPLES: [(u8, u16, i32); 2] = [(0, 8, -35), (1, 16, 21)];

fn run(calls: &Calls, _: u64, _: &mut Random, tally: &mut Tally) -> Result<(), String> {
    for (u2x, ubrr, tenths) in EXAMPLES {
        let wanted = Wanted {
            clock: 16_000_000,
            rate: 115_200,
            u2x,
        };
        let plan = calls.compare_around(&wanted, tally)?;
        if (plan.number, plan.ubrr, plan.tenths) != (DONE, ubrr, tenths) {
            return Err(format!(
                "{wanted:?}: M-104 has UBRR {ubrr}, {tenths}; model and archive {plan:?}"
            ));
        }
    }
    Ok(())
}
