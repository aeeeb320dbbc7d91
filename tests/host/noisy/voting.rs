//! Voting samples of a frame, and lines on which some of them are turned over, beside what the comparison does with
//! lines (compare/noisy_lines.rs).

use crate::model::level;
use crate::noisy_lines::{NoisyLine, Sent};
use crate::random::Random;
use crate::sampling::Sampling;

/// A voting sample of a frame.
#[derive(Clone, Copy, PartialEq, Debug)]
pub struct VotingSample {
    /// The clock at which it is taken.
    pub clock: usize,
    /// Its bit, the start bit being 0, and which of the bit's three votes it is, 0 to 2.
    pub bit: u64,
    pub vote: usize,
}

impl Sampling {
    /// A vote of a bit of the frame whose sample 1 is at the clock `first`.
    pub fn vote(&self, first: u64, bit: u64, vote: usize) -> VotingSample {
        let clock = self.clock_of(first, bit, self.votes[vote]) as usize;
        VotingSample { clock, bit, vote }
    }
}

impl Clone for Sent {
    fn clone(&self) -> Sent {
        Sent { ..*self }
    }
}

impl Clone for NoisyLine {
    fn clone(&self) -> NoisyLine {
        NoisyLine {
            levels: self.levels.clone(),
            frames: self.frames.clone(),
            ..*self
        }
    }
}

impl NoisyLine {
    /// None, all or any number of the bits that are voted, whichever they are.
    pub fn any_bits(&self, random: &mut Random) -> Vec<u64> {
        let all = self.voted_bits();
        let any = random.between(0, all);
        let number = random.pick(&[0, all, any, any, any]);
        let mut bits: Vec<u64> = (0..all).collect();
        for place in 0..number {
            let other = random.between(place, all - 1);
            bits.swap(place as usize, other as usize);
        }
        bits.truncate(number as usize);
        bits
    }

    /// Turns over one vote in each of these bits of the last frame, which has no noise yet; in the stop bit one of the
    /// first so many votes. Answers which.
    pub fn hit_bits(
        &mut self,
        bits: &[u64],
        stop_votes: u64,
        random: &mut Random,
    ) -> Vec<VotingSample> {
        let mut hits = Vec::new();
        for &bit in bits {
            let is_stop = bit + 1 == self.voted_bits();
            let votes = if is_stop { stop_votes } else { 3 };
            let vote = random.below(votes) as usize;
            self.turn_over(bit, vote);
            let sent = self.frames.last();
            hits.extend(sent.map(|sent| self.sampling.vote(sent.first, bit, vote)));
        }
        if let Some(sent) = self.frames.last_mut() {
            sent.frame.split_votes = bits.len() as u8;
        }
        hits
    }

    /// High line, of up to three bits, or of up to as many clocks as lie between ticks.
    pub fn add_pause(&mut self, random: &mut Random) {
        let most = random.pick(&[3 * self.bit.p / self.bit.q, self.sampling.turn]);
        self.add_high(random.between(0, most));
    }

    pub fn add_high(&mut self, clocks: u64) {
        let length = self.levels.len() + clocks as usize;
        self.levels.resize(length, level::RXD);
    }
}
