//! Every UBRR, and some above, as a proposal. At high clocks and rates the errors' cross products go beyond 64 bits, so
//! that a cut of them shows, at a few UBRRs.

use crate::calls::Calls;
use crate::mixed::random_wanted;
use crate::model::Wanted;
use crate::random::Random;
use crate::tally::Tally;
use crate::Part;

pub const PART: Part = Part {
    name: "sweep",
    run,
    rounds: 200,
};

fn run(calls: &Calls, count: u64, random: &mut Random, tally: &mut Tally) -> Result<(), String> {
    for _ in 0..count {
        for wanted in [high(random), random_wanted(random)] {
            for ubrr in 0..4_200 {
                calls.compare_check(&wanted, ubrr, tally)?;
            }
        }
    }
    Ok(())
}

fn high(random: &mut Random) -> Wanted {
    Wanted {
        clock: random.between(15_000_000, 20_000_000) as u32,
        rate: random.between(2_000_000, 2_500_000) as u32,
        u2x: random.below(2) as u8,
    }
}
