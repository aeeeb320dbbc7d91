//! The parts of a comparison: kinds of inputs, each with random numbers of its own. The archive goes through all of
//! them; where programs that are wrong on purpose take its place, the part that is named with one has to see it.

use crate::random::Random;

/// One kind of inputs, what goes through them, and how many rounds of them are done at scale 1.
#[derive(Clone, Copy)]
pub struct Part<Run> {
    pub name: &'static str,
    pub run: Run,
    pub rounds: u64,
}

/// Goes through each part.
pub fn all<Run: Copy>(
    parts: &[Part<Run>],
    seed: u64,
    mut go: impl FnMut(Run, u64, &mut Random) -> Result<(), String>,
) -> Result<(), String> {
    for (number, part) in parts.iter().enumerate() {
        go(part.run, part.rounds, &mut own_random(number, parts, seed))
            .map_err(|text| format!("{}: {text}", part.name))?;
    }
    Ok(())
}

/// Fails where this part sees no difference, although a wrong program is in the archive's place.
#[allow(dead_code)] // comparisons whose wrong programs go by other scenes
pub fn is_seen<Run: Copy>(
    wrong: &str,
    part: &Part<Run>,
    parts: &[Part<Run>],
    seed: u64,
    go: impl FnOnce(Run, u64, &mut Random) -> Result<(), String>,
) -> Result<(), String> {
    let number = parts.iter().position(|other| other.name == part.name);
    let number = number.expect("each part is in the list");
    match go(part.run, part.rounds, &mut own_random(number, parts, seed)) {
        Err(_) => Ok(()),
        Ok(()) => Err(format!(
            "{} do not see what is wrong with: {wrong}",
            part.name
        )),
    }
}

/// A part's own random numbers, so that a change in one leaves the others alone, and wrong programs get the very inputs
/// that the archive got.
fn own_random<Run>(number: usize, parts: &[Part<Run>], seed: u64) -> Random {
    let seeds = parts.len().next_power_of_two() as u64;
    Random::new(seed.wrapping_mul(seeds).wrapping_add(number as u64))
}
