//! Holds among other calls: what a hold leaves must go on as the model does.

use crate::call::Hold;
use crate::choice::random_call;
use crate::hold_choice::{random_length, random_level, random_pair};
use crate::holds::Scene;
use crate::levels::Levels;
use crate::random::Random;
use crate::tally::Tally;

pub const SCENE: Scene = Scene {
    name: "holds among calls",
    round,
    rounds: 4_000,
};

const HOLDS: u64 = 4;
const CALLS: u64 = 5;
const LONGEST_RUN: u64 = 100;

fn round(hold: Hold, _: u64, random: &mut Random, tally: &mut Tally) -> Result<(), String> {
    let mut pair = random_pair(hold, random, tally)?;
    let mut levels = Levels::new();
    for number in 0..HOLDS {
        let clocks = random_length(&pair.device.usart, random);
        pair.hold(random_level(random), clocks, tally)
            .map_err(|text| format!("hold {number}: {text}"))?;
        for _ in 0..random.below(CALLS) {
            let call = random_call(&pair.device, &mut levels, LONGEST_RUN, random);
            pair.call(call, tally)
                .map_err(|text| format!("after hold {number}: {text}"))?;
        }
    }
    Ok(())
}
