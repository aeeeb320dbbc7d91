//! A receiver of its own that counts split votes in some way, right or wrong on purpose (wrong_counts.rs). It is the
//! model, but for the counts. No record of it is compared: only its answers can give it away.

use crate::frames::Program;
use crate::model::receiver::{Line, Receiving};
use crate::model::usart::Usart;
use crate::model::{address, level, Device};
use crate::tally::Tally;
use crate::votes::{kind_of, START, STOP};

/// The last vote of a bit, with the count before it.
pub struct Vote<'a> {
    pub count: u8,
    /// START, DATA, PARITY or STOP.
    pub kind: usize,
    /// The bit's samples up to this one; the last three are its votes.
    pub samples: &'a [bool],
}

/// What ended before a start was found, and its count.
#[derive(Clone, Copy)]
pub enum Ended {
    Completed(u8),
    Dropped(u8),
}

/// A way to count.
#[derive(Clone, Copy)]
pub struct Way {
    /// The count that a frame begins with.
    pub begin: fn(Ended) -> u8,
    /// The count after a vote.
    pub vote: fn(&Vote) -> u8,
    /// Puts the count of a frame that completes to those held, oldest first, the third of which waits; the frame has
    /// this DOR.
    pub enter: fn(&mut Vec<u8>, u8, bool),
    /// Takes away the count of the frame that waits, if one does, as a start is accepted with this count; answers the
    /// count with which the frame under way goes on.
    pub accept: fn(&mut Vec<u8>, u8) -> u8,
    /// Takes away the count of a frame that is read.
    pub take: fn(&mut Vec<u8>),
    /// The answer, from the counts held and that of the frame under way.
    pub answer: fn(&[u8], Option<u8>) -> u8,
}

pub struct Counter {
    device: Device,
    way: Way,
    ended: Ended,
    count: u8,
    samples: Vec<bool>,
    held: Vec<u8>,
}

impl Counter {
    /// A counter of an idle receiver. Of frames at first the counts are right.
    pub fn new(device: Device, way: Way) -> Counter {
        let receiver = device.usart.receiver;
        let frames = [receiver.oldest, receiver.second, receiver.waiting];
        Counter {
            device,
            way,
            ended: Ended::Completed(0),
            count: 0,
            samples: Vec::new(),
            held: frames.iter().flatten().map(|f| f.split_votes).collect(),
        }
    }

    fn clock(&mut self, level: u8) {
        let before = self.device.usart;
        self.device.clock(level);
        if before.counter == 0 {
            self.tick(&before, level & level::RXD != 0);
        }
    }

    fn tick(&mut self, before: &Usart, rxd: bool) {
        let is_busy = self.device.usart.receiver.busy();
        match &before.receiver.line {
            Line::Idle { .. } if is_busy => {
                self.count = (self.way.begin)(self.ended);
                self.samples = vec![rxd];
            }
            Line::Idle { .. } => (),
            Line::Frame(frame) => {
                if frame.samples == 0 {
                    self.samples.clear();
                }
                self.samples.push(rxd);
                if frame.samples + 1 == before.format.last_vote() {
                    self.vote(before, frame);
                }
            }
        }
    }

    fn vote(&mut self, before: &Usart, frame: &Receiving) {
        let kind = kind_of(frame.bit, &before.format);
        self.count = (self.way.vote)(&Vote {
            count: self.count,
            kind,
            samples: &self.samples,
        });
        match kind {
            START if self.device.usart.receiver.busy() => {
                self.count = (self.way.accept)(&mut self.held, self.count);
            }
            START => self.ended = Ended::Dropped(self.count),
            STOP => {
                (self.way.enter)(&mut self.held, self.count, before.receiver.lost);
                self.ended = Ended::Completed(self.count);
            }
            _ => (),
        }
    }
}

impl Program for Counter {
    fn pass_levels(&mut self, levels: &[u8], _: &mut Tally) -> Result<(), String> {
        levels.iter().for_each(|&level| self.clock(level));
        Ok(())
    }

    fn read_register(&mut self, address: u16, _: &mut Tally) -> Result<u8, String> {
        if address == address::UDR0 {
            (self.way.take)(&mut self.held);
        }
        Ok(self.device.read(address).1)
    }

    fn ask_split_votes(&mut self, _: &mut Tally) -> Result<u8, String> {
        let under_way = self.device.usart.receiver.busy().then_some(self.count);
        Ok((self.way.answer)(&self.held, under_way))
    }
}
