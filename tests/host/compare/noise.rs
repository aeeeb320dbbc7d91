//! Part 8: lines with noise (document 02, M-101). On lines within the limits of the rate error one voting sample is
//! turned over in each of some bits of a frame. Then exactly the frame's data come out, without FE and UPE, without DOR
//! where no frame was lost, and its split votes are as many as bits were hit: a number chosen here, whatever the model
//! counts. Noise at samples that do not vote changes nothing. A third frame waits until a read, or is lost with the
//! last vote of the next one's start bit (M-103).

use std::collections::VecDeque;

use crate::frames::{expect_split_votes, read_frame, Frame, Program};
use crate::lines::receiving_device;
use crate::model::frame::Format;
use crate::model::{level, Device};
use crate::noisy_lines::{NoisyLine, Sent};
use crate::pair::Pair;
use crate::random::Random;
use crate::rates::{all_formats, bits_at_limit, Bit};
use crate::sampling::Sampling;
use crate::tally::Tally;

/// UBRR and the frames of a line with it.
pub const LENGTHS: [(u16, usize); 4] = [(0, 7), (1, 6), (2, 6), (7, 4)];
/// So many lines in a hundred are read so slowly that frames are lost.
pub const SLOWLY_READ: u64 = 15;

pub fn run(rounds: u64, random: &mut Random, tally: &mut Tally) -> Result<(), String> {
    // What is seen of votes elsewhere must be complete without these lines.
    let elsewhere = std::mem::take(&mut tally.votes);
    for _ in 0..rounds {
        round(Pair::of, random, tally)?;
    }
    tally.votes = elsewhere;
    Ok(())
}

/// A line for each format and UBRR, received by a program that is made of a device.
pub fn round<P: Program>(
    make: impl Fn(Device) -> Result<P, String>,
    random: &mut Random,
    tally: &mut Tally,
) -> Result<(), String> {
    for format in all_formats() {
        for (ubrr, frames) in LENGTHS {
            let bit = random_bit(&format, ubrr, random);
            let device = receiving_device(&format, ubrr, random);
            let sampling = Sampling::new(&format, ubrr, device.usart.counter);
            let line = random_line(frames, NoisyLine::new(&format, bit, sampling), random);
            play(&line, &mut make(device)?, random, tally)
                .map_err(|text| format!("{format:?}, UBRR {ubrr}, {bit:?}: {text}"))?;
        }
    }
    Ok(())
}

/// A bit at the limits of the rate error or between them.
pub fn random_bit(format: &Format, ubrr: u16, random: &mut Random) -> Bit {
    let q = random.between(200, 5000);
    let q = random.pick(&[1, q]);
    let [shortest, longest] = bits_at_limit(format, ubrr, q);
    let p = random.between(shortest.p, longest.p);
    random.pick(&[shortest, longest, Bit { p, q }])
}

/// Frames with noise in none, all or any number of their bits.
pub fn random_line(frames: usize, mut line: NoisyLine, random: &mut Random) -> NoisyLine {
    for _ in 0..frames {
        line.add_gap(random);
        line.add_frame(random);
        let bits = line.voted_bits();
        let any = random.between(0, bits);
        let hits = random.pick(&[0, bits, any, any, any]);
        line.hit(hits, random);
        line.add_strays(random);
    }
    line
}

/// 'The buffer holds two frames' (document 01).
const PLACES: usize = 2;

/// What has to be held, and behind it what waits.
#[derive(Default)]
pub struct Held {
    pub frames: VecDeque<Frame>,
    lost: bool,
}

impl Held {
    /// M-103: 'with both places full a completed frame waits', and after a loss 'the next frame that completes carries
    /// DOR'.
    pub fn enter(&mut self, sent: &Sent) {
        self.frames.push_back(Frame {
            dor: std::mem::take(&mut self.lost),
            ..sent.frame
        });
    }

    pub fn one_waits(&self) -> bool {
        self.frames.len() > PLACES
    }

    /// M-103: 'an accepted start bit (its last vote) while one waits loses that one'.
    fn accept(&mut self, tally: &mut Tally) {
        if self.one_waits() {
            self.frames.truncate(PLACES);
            self.lost = true;
            tally.noise.lost += 1;
        }
    }

    pub fn oldest(&self) -> Option<Frame> {
        self.frames.front().copied()
    }

    /// Reads the oldest frame, or finds none. M-103: 'a UDR0 read moves it in at once', the one that waits.
    fn read(&mut self, program: &mut impl Program, tally: &mut Tally) -> Result<(), String> {
        tally.noise.moved_in += self.one_waits() as u64;
        let frame = self.frames.pop_front();
        read_frame(program, frame, tally)?;
        match frame {
            Some(Frame { dor: true, .. }) => tally.noise.after_loss += 1,
            Some(frame) => tally.noise.frames[frame.split_votes as usize] += 1,
            None => (),
        }
        Ok(())
    }
}

/// A line under way: what has to be held, and the clocks that have passed.
pub struct Playing<'a, P> {
    pub line: &'a NoisyLine,
    pub program: &'a mut P,
    pub held: Held,
    pub clock: usize,
}

impl<P: Program> Playing<'_, P> {
    /// Passes clocks up to this number of them. The frame's start is accepted with the clock of its last vote.
    pub fn pass(&mut self, clock: usize, sent: &Sent, tally: &mut Tally) -> Result<(), String> {
        self.program
            .pass_levels(&self.line.levels[self.clock..clock], tally)?;
        if (self.clock..clock).contains(&sent.accepted) {
            self.held.accept(tally);
        }
        self.clock = clock;
        Ok(())
    }

    pub fn read(&mut self, tally: &mut Tally) -> Result<(), String> {
        self.held.read(self.program, tally)
    }

    /// Up to the completion of a frame, with a look, and now and then a read, on the way. Where none may be lost, the
    /// look comes before the start is accepted, and a frame that waits is moved in by a read.
    fn receive(
        &mut self,
        sent: &Sent,
        is_slowly_read: bool,
        random: &mut Random,
        tally: &mut Tally,
    ) -> Result<(), String> {
        let must_read = self.held.one_waits() && !is_slowly_read;
        let last = if must_read {
            sent.accepted
        } else {
            sent.completes
        };
        let middle = random.between(self.clock as u64, last as u64) as usize;
        self.pass(middle, sent, tally)?;
        expect_split_votes(self.program, self.held.oldest(), tally)?;
        if must_read || self.held.one_waits() && random.percent(30) {
            self.read(tally)?;
        }
        self.pass(sent.completes + 1, sent, tally)?;
        self.held.enter(sent);
        Ok(())
    }
}

/// Each frame must be held, or wait, after the clock with which it completes; before that clock the count answered is
/// that of the oldest held till then.
pub fn play(
    line: &NoisyLine,
    program: &mut impl Program,
    random: &mut Random,
    tally: &mut Tally,
) -> Result<(), String> {
    let is_slowly_read = random.percent(SLOWLY_READ);
    let mut playing = Playing {
        line,
        program,
        held: Held::default(),
        clock: 0,
    };
    for sent in &line.frames {
        playing.receive(sent, is_slowly_read, random, tally)?;
        if random.percent(if is_slowly_read { 40 } else { 70 }) {
            playing.read(tally)?;
        }
    }
    let Playing {
        program,
        mut held,
        clock,
        ..
    } = playing;
    program.pass_levels(&line.levels[clock..], tally)?;
    // Nothing more comes in as much time as a frame takes.
    let idle = line.levels.len() / line.frames.len();
    program.pass_levels(&vec![level::RXD; idle], tally)?;
    for _ in 0..=held.frames.len() {
        held.read(program, tally)?;
    }
    tally.noise.false_starts += line.false_starts;
    tally.noise.stray_frames += line.stray_frames;
    Ok(())
}
