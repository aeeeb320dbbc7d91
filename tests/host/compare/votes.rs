//! What was seen of split votes (document 02, M-101), and the rows of the table that tell it.

use crate::model::frame::Format;
use crate::model::layout::held::SPLIT_VOTES_LAST;
use crate::model::receiver::{Line, Receiving};
use crate::model::usart::Usart;
use crate::tally::print_row;

/// Kinds of bits whose votes count.
pub const START: usize = 0;
pub const DATA: usize = 1;
pub const PARITY: usize = 2;
pub const STOP: usize = 3;
pub const BITS: [&str; 4] = ["start", "data", "parity", "stop"];

/// Numbers of split votes that a frame can have.
pub const COUNTS: usize = SPLIT_VOTES_LAST as usize + 1;
/// Frames that each of these numbers must have been chosen for on lines with noise.
const LEAST_CHOSEN: u64 = 300;

#[derive(Default)]
pub struct Votes {
    /// By the kind of bit.
    split: [u64; 4],
    /// Start bits with a split vote that were dropped.
    dropped: u64,
    /// Frames that completed with a split vote, and frames with one that waited and were lost at an accepted start.
    frames: u64,
    lost: u64,
    /// The greatest count of a frame that completed.
    greatest: u8,
}

/// What was done on lines with noise.
#[derive(Default)]
pub struct NoiseTally {
    /// Frames that came out without DOR, by the number of bits that were hit.
    pub frames: [u64; COUNTS],
    /// Frames that waited and came out, those lost at an accepted start, and those that came out with DOR after it.
    pub moved_in: u64,
    pub lost: u64,
    pub after_loss: u64,
    /// Frames with noise where nothing votes, too.
    pub stray_frames: u64,
    pub false_starts: u64,
    /// Bits in which two votes were turned over, each of which gave its frame away.
    pub two_turned_over: u64,
}

/// The kind of a bit of a frame, the start bit being 0.
pub fn kind_of(bit: u8, format: &Format) -> usize {
    match bit {
        0 => START,
        _ if bit <= format.data_bits => DATA,
        _ if bit <= format.word_bits() => PARITY,
        _ => STOP,
    }
}

impl Votes {
    /// Counts what one clock of the model brought: at a tick, the last vote of a bit.
    #[inline]
    pub fn count_clock(&mut self, before: &Usart, rxd: bool) {
        if before.counter != 0 {
            return;
        }
        match &before.receiver.line {
            Line::Frame(frame) if frame.samples + 1 == before.format.last_vote() => {
                self.count_vote(before, frame, rxd)
            }
            _ => (),
        }
    }

    fn count_vote(&mut self, before: &Usart, frame: &Receiving, rxd: bool) {
        let decision = frame.majority(rxd);
        let kind = kind_of(frame.bit, &before.format);
        self.split[kind] += decision.split as u64;
        if kind == START && decision.high {
            self.dropped += decision.split as u64;
        }
        if kind == START && !decision.high {
            let waiting = before.receiver.waiting;
            self.lost += waiting.is_some_and(|frame| frame.split_votes > 0) as u64;
        }
        if kind == STOP {
            let count = frame.split_votes + decision.split as u8;
            self.frames += (count > 0) as u64;
            self.greatest = self.greatest.max(count);
        }
    }

    /// All must have been met.
    pub fn complete(&self) -> Result<(), String> {
        if let Some((kind, _)) = BITS.iter().zip(self.split).find(|(_, count)| *count == 0) {
            return Err(format!("no {kind} bit had a split vote"));
        }
        if self.dropped == 0 || self.lost == 0 || self.frames == 0 {
            return Err("split votes were all of one kind of frames".to_string());
        }
        if self.greatest != SPLIT_VOTES_LAST {
            let most = self.greatest;
            return Err(format!("no frame had more than {most} split votes"));
        }
        Ok(())
    }

    pub fn print(&self) {
        for (kind, count) in BITS.iter().zip(self.split) {
            print_row(&format!("split votes of {kind} bits"), count);
        }
        print_row("frames with split votes", self.frames);
        print_row("most split votes of a frame", self.greatest.into());
        print_row("frames with split votes lost", self.lost);
        print_row("starts with split votes dropped", self.dropped);
    }
}

impl NoiseTally {
    /// Each number of split votes must have been met often, and all the rest.
    pub fn complete(&self) -> Result<(), String> {
        let losses = self.moved_in.min(self.lost).min(self.after_loss);
        if losses.min(self.stray_frames).min(self.false_starts) == 0 {
            return Err("lines with noise were all alike".to_string());
        }
        match self.frames.iter().position(|&count| count < LEAST_CHOSEN) {
            Some(hits) => Err(format!("few frames with {hits} bits hit by noise")),
            None => Ok(()),
        }
    }

    pub fn print(&self) {
        for (hits, &count) in self.frames.iter().enumerate() {
            print_row(&format!("frames with noise in {hits} bits"), count);
        }
        print_row("frames with noise moved in", self.moved_in);
        print_row("frames with noise lost", self.lost);
        print_row("frames with noise and DOR", self.after_loss);
        print_row("frames with noise beside the votes", self.stray_frames);
        print_row("false starts on lines with noise", self.false_starts);
        print_row("two votes turned over, seen", self.two_turned_over);
    }
}
