//! Part 7: long holds (document 02, M-106). A hold must equal as many single clocks of the model, and go on from there
//! as the model does. The scenes choose devices, levels and lengths at which a hold that does not pass its clocks one
//! by one could go wrong.

use crate::archive;
use crate::call::Hold;
use crate::random::Random;
use crate::tally::Tally;
use crate::{hold_breaks, hold_calls, hold_lengths, hold_refusals, hold_splits};

/// What is done in a round, by its number, and how many rounds at scale 1.
pub struct Scene {
    pub name: &'static str,
    pub round: fn(Hold, u64, &mut Random, &mut Tally) -> Result<(), String>,
    pub rounds: u64,
}

pub const SCENES: [Scene; 5] = [
    hold_lengths::SCENE,
    hold_breaks::SCENE,
    hold_calls::SCENE,
    hold_refusals::SCENE,
    hold_splits::SCENE,
];

pub fn run(times: u64, random: &mut Random, tally: &mut Tally) -> Result<(), String> {
    SCENES
        .iter()
        .try_for_each(|scene| scene.play(archive::hold, times * scene.rounds, random, tally))
}

impl Scene {
    /// Plays rounds with a hold, the archive's or one that is wrong on purpose.
    pub fn play(
        &self,
        hold: Hold,
        rounds: u64,
        random: &mut Random,
        tally: &mut Tally,
    ) -> Result<(), String> {
        for number in 0..rounds {
            (self.round)(hold, number, random, tally)
                .map_err(|text| format!("{}, round {number}: {text}", self.name))?;
        }
        Ok(())
    }
}
