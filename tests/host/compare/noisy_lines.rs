//! Lines of document 01, 'The line of demand 3', on which noise turns over samples. What a receiver has to make of a
//! line is known from the choices made here and from document 01's words, not from the model.

use crate::frames::Frame;
use crate::model::frame::{Format, Parity};
use crate::model::level;
use crate::random::Random;
use crate::rates::Bit;
use crate::sampling::Sampling;

/// Samples, and clocks between them, that do not vote are turned over in some frames: few of them or all.
const STRAYS: [u64; 4] = [0, 0, 8, 100];

/// So many bits in a hundred of a spoiled frame have votes turned over.
const SPOILED: u64 = 15;

/// A frame on a line.
pub struct Sent {
    /// As it has to come out, but for DOR, which goes by when the frames before it are read. Its split votes are as
    /// many as bits of it that have votes of both levels.
    pub frame: Frame,
    /// The clock of sample 1 of its start bit: the first tick at which the line shows it, since the receiver is idle by
    /// then and remembers high.
    pub first: u64,
    /// 'an accepted start bit (its last vote)' (M-103): with this clock the start is accepted.
    pub accepted: usize,
    /// 'The frame completes at the last vote of the first stop bit': with this clock it is held, or waits.
    pub completes: usize,
}

pub struct NoisyLine {
    pub format: Format,
    pub bit: Bit,
    pub sampling: Sampling,
    pub levels: Vec<u8>,
    pub frames: Vec<Sent>,
    pub false_starts: u64,
    /// Frames with noise where nothing votes.
    pub stray_frames: u64,
}

impl NoisyLine {
    pub fn new(format: &Format, bit: Bit, sampling: Sampling) -> NoisyLine {
        NoisyLine {
            format: *format,
            bit,
            sampling,
            levels: Vec::new(),
            frames: Vec::new(),
            false_starts: 0,
            stray_frames: 0,
        }
    }

    /// The bits of a frame that are voted: start bit, data, parity and first stop bit.
    pub fn voted_bits(&self) -> u64 {
        u64::from(self.format.word_bits()) + 2
    }

    /// Adds a frame of random data, without noise.
    pub fn add_frame(&mut self, random: &mut Random) {
        let data = random.next() as u16 & self.format.data_mask();
        self.add_frame_of(data, random);
    }

    pub fn add_frame_of(&mut self, data: u16, random: &mut Random) {
        let start = self.levels.len() as u64;
        let word = self.format.word_of(data);
        for t in 0..self.bit.frame_clocks(&self.format) {
            // The other pins carry anything: the SPI must not matter.
            let others = random.byte() & !(level::ILLEGAL | level::RXD);
            let rxd = self.bit.level(word, &self.format, t) as u8 * level::RXD;
            self.levels.push(others | rxd);
        }
        let sampling = &self.sampling;
        let first = sampling.tick_from(start);
        let accepted = sampling.clock_of(first, 0, sampling.votes[2]);
        let completes = sampling.clock_of(first, self.voted_bits() - 1, sampling.votes[2]);
        self.frames.push(Sent {
            frame: Frame::plain(data),
            first,
            accepted: accepted as usize,
            completes: completes as usize,
        });
    }

    /// Turns over a vote, 0 to 2, of a bit of the last frame.
    pub fn turn_over(&mut self, bit: u64, vote: usize) {
        if let Some(frame) = self.frames.last() {
            let sample = self.sampling.votes[vote];
            let clock = self.sampling.clock_of(frame.first, bit, sample);
            self.levels[clock as usize] ^= level::RXD;
        }
    }

    /// Turns over one vote in each of so many bits of the last frame, whichever they are.
    ///
    /// After the last vote the receiver 'is idle and remembers that last sample'. Where it is turned over, to low, a
    /// high one must be seen before the next start. So the last vote of the stop bit is turned over only where one more
    /// tick comes before the frame's end, from which on the next one may start; it is left alone where none does.
    pub fn hit(&mut self, hits: u64, random: &mut Random) {
        let mut bits: Vec<u64> = (0..self.voted_bits()).collect();
        for place in 0..hits as usize {
            let other = random.between(place as u64, bits.len() as u64 - 1) as usize;
            bits.swap(place, other);
            let has_room = bits[place] + 1 < self.voted_bits() || self.tick_is_left();
            let votes = if has_room { 3 } else { 2 };
            self.turn_over(bits[place], random.below(votes) as usize);
        }
        if let Some(frame) = self.frames.last_mut() {
            frame.frame.split_votes = hits as u8;
        }
    }

    /// Turns over votes in some bits of the last frame, which has no noise yet: one, and the vote is split; two, and
    /// the bit is turned over too; or all three, and it is turned over. The start bit stays a start bit.
    pub fn spoil(&mut self, random: &mut Random) {
        for bit in 0..self.voted_bits() {
            if !random.percent(SPOILED) {
                continue;
            }
            let is_stop = bit + 1 == self.voted_bits();
            let votes: &[&[usize]] = match bit {
                0 => &[&[0], &[1], &[2]],
                // The last vote of the stop bit, where it is low, is remembered: as in `hit`.
                _ if is_stop && !self.tick_is_left() => &[&[0], &[1], &[0, 1]],
                _ => &[&[0], &[2], &[0, 1], &[1, 2], &[0, 1, 2], &[0, 1, 2]],
            };
            let votes = random.pick(votes);
            votes.iter().for_each(|&vote| self.turn_over(bit, vote));
            self.note_votes(bit, votes.len());
        }
    }

    /// What becomes of the last frame where so many votes of a bit are turned over.
    pub fn note_votes(&mut self, bit: u64, votes: usize) {
        let format = &self.format;
        let Some(Sent { frame, .. }) = self.frames.last_mut() else {
            return;
        };
        frame.split_votes += (votes < 3) as u8;
        if votes < 2 {
            return;
        }
        if bit > u64::from(format.word_bits()) {
            frame.fe = true;
            return;
        }
        // Data and parity bit agree, or do not, the other way round.
        frame.upe ^= format.parity != Parity::Off;
        if bit <= u64::from(format.data_bits) {
            frame.data ^= 1 << (bit - 1);
        }
    }

    /// A tick comes after the last frame is complete and before its stop bit has ended.
    pub fn tick_is_left(&self) -> bool {
        let turn = self.sampling.turn as usize;
        self.frames
            .last()
            .is_some_and(|frame| frame.completes + turn < self.levels.len())
    }

    /// Noise where nothing votes, which must change nothing: after sample 1 of the start bit, since that one makes the
    /// start, and as long as the last frame is being received.
    pub fn add_strays(&mut self, random: &mut Random) {
        let percent = random.pick(&STRAYS);
        let Some(frame) = self.frames.last().filter(|_| percent > 0) else {
            return;
        };
        for clock in frame.first + 1..frame.completes as u64 {
            if !self.sampling.is_vote(frame.first, clock) && random.percent(percent) {
                self.levels[clock as usize] ^= level::RXD;
            }
        }
        self.stray_frames += 1;
    }

    /// High line between frames; mostly the next one starts at the first clock it may.
    pub fn add_gap(&mut self, random: &mut Random) {
        match random.below(100) {
            0..=14 => {
                let clocks = random.below(3 * self.bit.p / self.bit.q) as usize;
                self.levels.extend(vec![level::RXD; clocks]);
            }
            15..=29 => self.add_false_start(random),
            _ => (),
        }
    }

    /// 'A start bit voted high is dropped at its last vote', and its votes belong to no frame: here the first sample
    /// and one of the first two votes are low. The last vote, which is remembered, is high, so that a start may follow.
    fn add_false_start(&mut self, random: &mut Random) {
        let sampling = self.sampling;
        let first = sampling.tick_from(self.levels.len() as u64);
        let last = sampling.clock_of(first, 0, sampling.votes[2]) as usize;
        self.levels.resize(last + 1, level::RXD);
        let low_vote = random.pick(&sampling.votes[..2]);
        for sample in 1..sampling.votes[2] {
            let is_low = match sample {
                1 => true,
                _ if sampling.votes.contains(&sample) => sample == low_vote,
                _ => random.flip(),
            };
            if is_low {
                self.levels[sampling.clock_of(first, 0, sample) as usize] ^= level::RXD;
            }
        }
        self.false_starts += 1;
    }
}
