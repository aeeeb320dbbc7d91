//! A line with allowed noise (allowed_noise.rs) beside the choices that it was made by: the clocks at which its frames
//! start, and the votes that are turned over.

use crate::model::level;
use crate::noisy_lines::{NoisyLine, Sent};
use crate::voting::VotingSample;

/// What was chosen for a frame.
#[derive(Clone)]
pub struct Chosen {
    /// n: 'A frame starts at a whole clock n'.
    pub start: u64,
    /// The votes of it that are turned over.
    pub hits: Vec<VotingSample>,
}

#[derive(Clone)]
pub struct AllowedLine {
    pub noisy: NoisyLine,
    /// For each of its frames.
    pub chosen: Vec<Chosen>,
}

impl AllowedLine {
    pub fn frames(&self) -> impl Iterator<Item = (&Sent, &Chosen)> {
        self.noisy.frames.iter().zip(&self.chosen)
    }

    /// All voting samples of the frames, in order, reckoned from the clocks at which they start.
    pub fn voting_samples(&self) -> Vec<VotingSample> {
        let sampling = &self.noisy.sampling;
        let mut samples = Vec::new();
        for chosen in &self.chosen {
            let first = sampling.tick_from(chosen.start);
            for bit in 0..self.noisy.voted_bits() {
                samples.extend([0, 1, 2].map(|vote| sampling.vote(first, bit, vote)));
            }
        }
        samples
    }

    /// The clocks at which the line is not as its sender makes it: frames, and high before, between and after.
    pub fn noise(&self) -> Vec<usize> {
        let NoisyLine {
            format,
            bit,
            levels,
            ..
        } = &self.noisy;
        let mut highs = vec![true; levels.len()];
        for (sent, chosen) in self.frames() {
            let word = format.word_of(sent.frame.data);
            for t in 0..bit.frame_clocks(format) {
                highs[(chosen.start + t) as usize] = bit.level(word, format, t);
            }
        }
        let is_noise = |clock: &usize| (levels[*clock] & level::RXD != 0) != highs[*clock];
        (0..levels.len()).filter(is_noise).collect()
    }

    /// How many frames have their stop bit hit where the next tick after its last vote already is the next start's
    /// first sample.
    pub fn stop_bits_hit_before_starts(&self) -> u64 {
        let stop_bit = self.noisy.voted_bits() - 1;
        let pairs = self.frames().zip(&self.noisy.frames[1..]);
        let close = pairs.filter(|((sent, chosen), next)| {
            let next_tick = sent.completes as u64 + self.noisy.sampling.turn;
            next.first == next_tick && chosen.hits.iter().any(|hit| hit.bit == stop_bit)
        });
        close.count() as u64
    }
}
