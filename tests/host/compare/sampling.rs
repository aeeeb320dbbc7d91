//! The clocks at which a receiver samples a frame, reckoned from document 01's words and not from the model, so that
//! noise can be put where it votes and where it does not.

use crate::model::frame::Format;

/// 'Voting samples are 8, 9, 10 (S=16) or 4, 5, 6 (S=8)'.
const VOTES_16: [u64; 3] = [8, 9, 10];
const VOTES_8: [u64; 3] = [4, 5, 6];

/// When a receiver samples. Document 01: 'At each clock: if the counter is 0 it gives a tick and is loaded with UBRR,
/// else it falls by one. So ticks are UBRR+1 clocks apart.' 'At each tick RxD is sampled.'
#[derive(Clone, Copy)]
pub struct Sampling {
    /// The clock of the first tick: the baud counter at clock 0.
    first_tick: u64,
    /// UBRR + 1.
    pub turn: u64,
    /// S, the samples of a bit, and the numbers of those that vote.
    samples: u64,
    pub votes: [u64; 3],
}

impl Sampling {
    /// Of a line whose clock 0 finds the baud counter so.
    pub fn new(format: &Format, ubrr: u16, counter: u16) -> Sampling {
        let (samples, votes) = if format.double_speed {
            (8, VOTES_8)
        } else {
            (16, VOTES_16)
        };
        Sampling {
            first_tick: counter.into(),
            turn: u64::from(ubrr) + 1,
            samples,
            votes,
        }
    }

    /// The first tick at a clock or after it.
    pub fn tick_from(&self, clock: u64) -> u64 {
        let turns = clock.saturating_sub(self.first_tick).div_ceil(self.turn);
        self.first_tick + turns * self.turn
    }

    /// The clock of a sample, from 1, of a bit, the start bit being 0: 'a low sample after a remembered high one is
    /// sample 1 of the start bit', here at the clock `first`, and 'Each following bit has S samples'.
    pub fn clock_of(&self, first: u64, bit: u64, sample: u64) -> u64 {
        first + (bit * self.samples + sample - 1) * self.turn
    }

    /// A clock of that frame is the clock of a voting sample.
    pub fn is_vote(&self, first: u64, clock: u64) -> bool {
        let (ticks, between) = ((clock - first) / self.turn, (clock - first) % self.turn);
        between == 0 && self.votes.contains(&(ticks % self.samples + 1))
    }
}
