//! The ends of both ranges and of the numbers' types, and between them an example where the speeds' UBRRs differ: all
//! crossed, with every byte as the speed.

use crate::calls::Calls;
use crate::model::{Wanted, DONE, OUT_OF_RANGE};
use crate::random::Random;
use crate::tally::Tally;
use crate::Part;

pub const PART: Part = Part {
    name: "edges",
    run,
    rounds: 1,
};

/// With each, whether it is in the range.
const CLOCKS: [(u32, bool); 11] = [
    (0, false),
    (1, true),
    (2, true),
    (16_000_000, true),
    (19_999_999, true),
    (20_000_000, true),
    (20_000_001, false),
    (20_000_000 + (1 << 24), false),
    (i32::MAX as u32, false),
    (1 << 31, false),
    (u32::MAX, false),
];
const RATES: [(u32, bool); 11] = [
    (0, false),
    (1, true),
    (2, true),
    (115_200, true),
    (2_499_999, true),
    (2_500_000, true),
    (2_500_001, false),
    (2_500_000 + (1 << 24), false),
    (i32::MAX as u32, false),
    (1 << 31, false),
    (u32::MAX, false),
];

fn run(calls: &Calls, _: u64, _: &mut Random, tally: &mut Tally) -> Result<(), String> {
    for u2x in 0..=u8::MAX {
        for (clock, clock_in_range) in CLOCKS {
            for (rate, rate_in_range) in RATES {
                let wanted = Wanted { clock, rate, u2x };
                let in_range = clock_in_range && rate_in_range;
                let expected = if in_range { DONE } else { OUT_OF_RANGE };
                let plan = calls.compare_around(&wanted, tally)?;
                if plan.number != expected {
                    return Err(format!("{wanted:?}: {plan:?}, not {expected}"));
                }
            }
        }
    }
    Ok(())
}
