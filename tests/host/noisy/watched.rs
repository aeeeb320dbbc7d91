//! A pair that is watched clock by clock (allowed_noise.rs). Which samples vote is seen in the archive's own record
//! before each clock, by the bytes that docs/RECORD.md names, and held against what sampling.rs reckons.

use crate::allowed_lines::AllowedLine;
use crate::allowed_tally::AllowedTally;
use crate::frames::Program;
use crate::held::Holder;
use crate::model::layout::{COUNTER, RECEIVING, SAMPLED_BIT, SAMPLES};
use crate::model::level;
use crate::pair::Pair;
use crate::random::Random;
use crate::tally::Tally;
use crate::voting::VotingSample;

pub struct Watched {
    pair: Pair,
    /// The numbers of the samples that vote.
    votes: [u64; 3],
    /// Clocks that have passed, and the voting samples taken with them.
    clock: usize,
    taken: Vec<VotingSample>,
}

impl Watched {
    pub fn new(pair: Pair, line: &AllowedLine) -> Watched {
        Watched {
            pair,
            votes: line.noisy.sampling.votes,
            clock: 0,
            taken: Vec::new(),
        }
    }

    /// The voting sample that the next clock takes: it gives a tick, a frame is under way, and the next sample's number
    /// is one of the three that vote.
    fn next_vote(&self) -> Option<VotingSample> {
        let record = &self.pair.record;
        let is_sampled = record[COUNTER] == 0 && record[COUNTER + 1] == 0 && record[RECEIVING] == 1;
        let number = u64::from(record[SAMPLES]) + 1;
        let vote = self.votes.iter().position(|&vote| vote == number)?;
        is_sampled.then_some(VotingSample {
            clock: self.clock,
            bit: record[SAMPLED_BIT].into(),
            vote,
        })
    }

    /// The voting samples taken are those reckoned, all of them and no other, in order. Noise is at these clocks alone,
    /// in the very bits and votes that were chosen.
    pub fn check(&self, line: &AllowedLine, tally: &mut AllowedTally) -> Result<(), String> {
        let hits = self.hits_of(line)?;
        tally.votes_watched += self.taken.len() as u64;
        tally.hits_watched += hits;
        Ok(())
    }

    /// How many votes are hit, where all is as reckoned.
    fn hits_of(&self, line: &AllowedLine) -> Result<u64, String> {
        let reckoned = line.voting_samples();
        if self.taken != reckoned {
            let pairs = self.taken.iter().zip(&reckoned);
            let alike = pairs.take_while(|(taken, other)| taken == other).count();
            let [taken, other] = [&self.taken, &reckoned].map(|samples| samples.get(alike));
            return Err(format!("vote {alike}: {taken:?}, reckoned {other:?}"));
        }
        let noise = line.noise();
        let hit: Vec<VotingSample> = (self.taken.iter().copied())
            .filter(|vote| noise.binary_search(&vote.clock).is_ok())
            .collect();
        let mut chosen: Vec<VotingSample> = (line.chosen.iter())
            .flat_map(|chosen| chosen.hits.iter().copied())
            .collect();
        chosen.sort_unstable_by_key(|vote| vote.clock);
        if hit.len() != noise.len() || hit != chosen {
            return Err(format!("noise at {noise:?}, votes hit {hit:?}"));
        }
        Ok(hit.len() as u64)
    }

    /// The check could fail: with a frame's start reckoned a tick late, or noise at a sample that does not vote, or at
    /// a vote that was not chosen, it does.
    pub fn sees_other_lines(&self, line: &AllowedLine, random: &mut Random) -> Result<(), String> {
        let number = random.below(line.chosen.len() as u64) as usize;
        let sent = &line.noisy.frames[number];
        let turn = line.noisy.sampling.turn as usize;
        let mut later = line.clone();
        later.chosen[number].start += turn as u64;
        let turned_over = |clock: usize| {
            let mut other = line.clone();
            other.noisy.levels[clock] ^= level::RXD;
            other
        };
        let others = [
            later,
            turned_over(sent.accepted + turn),
            turned_over(sent.completes),
        ];
        match others.iter().position(|other| self.hits_of(other).is_ok()) {
            Some(other) => Err(format!("votes watched do not see other line {other}")),
            None => Ok(()),
        }
    }
}

impl Program for Watched {
    fn pass_levels(&mut self, levels: &[u8], tally: &mut Tally) -> Result<(), String> {
        for level in levels.chunks(1) {
            self.taken.extend(self.next_vote());
            self.pair.run(level, tally)?;
            self.clock += 1;
        }
        Ok(())
    }

    fn read_register(&mut self, address: u16, tally: &mut Tally) -> Result<u8, String> {
        self.pair.read_register(address, tally)
    }

    fn ask_split_votes(&mut self, tally: &mut Tally) -> Result<u8, String> {
        self.pair.ask_split_votes(tally)
    }
}

impl Holder for Watched {
    fn expect_held(&self, unread: usize) -> Result<(), String> {
        self.pair.expect_held(unread)
    }
}
