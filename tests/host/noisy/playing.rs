//! Plays a line with noise to a receiver (allowed_noise.rs, counts_seen.rs), with more looks than the comparison has
//! (compare/noise.rs). Each frame must be held, or wait, after the very clock with which it completes; until then what
//! is seen is the oldest held before. What has to be held goes by the line and the reads alone.

use crate::frames::{see_frame, Frame};
use crate::held::Holder;
use crate::model::level;
use crate::noise::{Held, Playing};
use crate::noisy_lines::{NoisyLine, Sent};
use crate::random::Random;
use crate::tally::Tally;

/// How a line is read: from a receiver that holds these frames at first, and so slowly that frames may be lost, or so
/// that 'none waits' when 'a start is accepted' (M-103).
#[derive(Default)]
pub struct Reading {
    pub at_first: Vec<Frame>,
    pub is_slow: bool,
}

/// What came out of a line.
pub struct Played {
    /// Frames that waited, and those of them lost at an accepted start.
    pub waited: u64,
    pub lost: u64,
}

impl<P: Holder> Playing<'_, P> {
    fn look(&mut self, tally: &mut Tally) -> Result<(), String> {
        see_frame(self.program, self.held.oldest(), tally)
            .and_then(|()| self.program.expect_held(self.held.frames.len()))
            .map_err(|text| format!("after {} clocks: {text}", self.clock))
    }

    fn take(&mut self, tally: &mut Tally) -> Result<(), String> {
        self.read(tally)
            .map_err(|text| format!("read after {} clocks: {text}", self.clock))
    }

    /// Up to the completion of a frame, with a look, and now and then a read, on the way. Where none may be lost, the
    /// look comes before the start is accepted, at the last time now and then, and a frame that waits is moved in by a
    /// read.
    fn look_and_receive(
        &mut self,
        sent: &Sent,
        is_slow: bool,
        random: &mut Random,
        tally: &mut Tally,
    ) -> Result<(), String> {
        let must_read = self.held.one_waits() && !is_slow;
        let last = if must_read {
            sent.accepted
        } else {
            sent.completes
        };
        let middle = random.between(self.clock as u64, last as u64) as usize;
        let middle = random.pick(&[middle, middle, last]);
        self.pass(middle, sent, tally)?;
        self.look(tally)?;
        let may_read = self.held.one_waits() || !is_slow;
        if must_read || may_read && random.percent(30) {
            self.take(tally)?;
        }
        self.pass(sent.completes, sent, tally)?;
        self.look(tally)?;
        self.pass(sent.completes + 1, sent, tally)?;
        self.held.enter(sent);
        self.look(tally)
    }

    /// The rest of the line, and nothing more in as much time as a frame takes: those left are read, and none after
    /// them.
    fn end(mut self, tally: &mut Tally) -> Result<(), String> {
        let rest = &self.line.levels[self.clock..];
        self.program.pass_levels(rest, tally)?;
        self.clock = self.line.levels.len();
        self.look(tally)?;
        let idle = self.line.levels.len() / self.line.frames.len();
        self.program.pass_levels(&vec![level::RXD; idle], tally)?;
        self.clock += idle;
        self.look(tally)?;
        for _ in 0..=self.held.frames.len() {
            self.take(tally)?;
        }
        Ok(())
    }
}

pub fn play(
    line: &NoisyLine,
    reading: &Reading,
    program: &mut impl Holder,
    random: &mut Random,
    tally: &mut Tally,
) -> Result<Played, String> {
    let mut held = Held::default();
    held.frames.extend(&reading.at_first);
    let mut playing = Playing {
        line,
        program,
        held,
        clock: 0,
    };
    let (mut waited, lost_before) = (0, tally.noise.lost);
    for sent in &line.frames {
        playing.look_and_receive(sent, reading.is_slow, random, tally)?;
        waited += playing.held.one_waits() as u64;
        if random.percent(if reading.is_slow { 40 } else { 60 }) {
            playing.take(tally)?;
        }
    }
    playing.end(tally)?;
    Ok(Played {
        waited,
        lost: tally.noise.lost - lost_before,
    })
}
