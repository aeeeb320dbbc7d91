//! Refused holds: damaged records, illegal levels, both, and holds of no clocks. 5 comes before 7, both come also for
//! no clocks, the output byte is 0 and the record's bytes stay.

use crate::call::{compare_by, Call, Hold};
use crate::choice::illegal_bits;
use crate::damage::damaged;
use crate::hold_choice::{random_level, random_pair};
use crate::holds::Scene;
use crate::model::record::decode;
use crate::model::{level, number};
use crate::random::Random;
use crate::tally::Tally;

pub const SCENE: Scene = Scene {
    name: "refused holds",
    round,
    rounds: 8_000,
};

/// Holds on what becomes of one record.
const HOLDS: u64 = 40;
/// Clocks of one that is not refused.
const LONGEST: u32 = 100;

fn round(hold: Hold, _: u64, random: &mut Random, tally: &mut Tally) -> Result<(), String> {
    let pair = random_pair(hold, random, tally)?;
    for _ in 0..HOLDS {
        let mut bytes = if random.flip() {
            damaged(&pair, random)
        } else {
            pair.record.to_vec()
        };
        let mut level = random_level(random);
        if random.percent(60) {
            level |= illegal_bits(random);
        }
        let mut device = decode(&bytes);
        // The model passes the clocks of a hold that is not refused one by one.
        let is_refused = device.is_none() || level & level::ILLEGAL != 0;
        let longest = if is_refused { u32::MAX } else { LONGEST };
        let any = random.between(0, longest.into()) as u32;
        let clocks = random.pick(&[0, 1, any, longest]);
        let call = Call::Hold { level, clocks };
        let answer = compare_by(&pair.calls, &mut bytes, &mut device, call, tally)?;
        tally.holds_refused += (answer.number != number::DONE) as u64;
    }
    Ok(())
}
