//! Clocks of a receiver, and a read, that are wrong on purpose with noise (wrong_receivers.rs), and the stand-in with
//! nothing wrong. They are made of the model; what is not wrong on purpose, the count of split votes mostly, is right.

use crate::model::receiver::{Line, Received, Receiver, Receiving};
use crate::model::record::decode;
use crate::model::{address, level, Device};
use crate::stand_in::StandIn;
use crate::votes::{kind_of, DATA, PARITY, START, STOP};

pub const RIGHT: StandIn = StandIn {
    decode,
    clock: Device::clock,
    read: Device::read,
    write: Device::write,
    split_votes: Device::split_votes,
};

/// The last vote of a bit.
#[derive(Clone, Copy)]
pub struct Voting {
    /// START, DATA, PARITY or STOP.
    kind: usize,
    votes: [bool; 3],
    /// Bits of the frame before this one that had a split vote.
    split_before: u8,
}

impl Voting {
    /// That which the next clock brings, if it brings one.
    fn next(device: &Device, level: u8) -> Option<Voting> {
        let usart = &device.usart;
        match &usart.receiver.line {
            Line::Frame(frame)
                if usart.counter == 0 && frame.samples + 1 == usart.format.last_vote() =>
            {
                let [first, second] = frame.votes;
                Some(Voting {
                    kind: kind_of(frame.bit, &usart.format),
                    votes: [first, second, level & level::RXD != 0],
                    split_before: frame.split_votes,
                })
            }
            _ => None,
        }
    }

    fn any(&self) -> bool {
        self.votes.contains(&true)
    }

    fn all(&self) -> bool {
        !self.votes.contains(&false)
    }

    fn majority(&self) -> bool {
        self.votes.iter().filter(|vote| **vote).count() >= 2
    }

    fn is_split(&self) -> bool {
        self.any() && !self.all()
    }
}

/// The level of a bit is chosen so; the count of split votes is right.
pub fn decide_by(device: &mut Device, level: u8, choose: fn(&Voting) -> bool) -> u8 {
    if let (Some(voting), Line::Frame(frame)) =
        (Voting::next(device, level), &mut device.usart.receiver.line)
    {
        let high = choose(&voting);
        // The first two votes decide. Where the last one is like them the clock counts no split vote.
        frame.votes = [high; 2];
        frame.split_votes += (voting.is_split() && voting.votes[2] == high) as u8;
    }
    device.clock(level)
}

pub fn of_vote(vote: usize, voting: &Voting) -> bool {
    voting.votes[vote]
}

pub fn any_high(voting: &Voting) -> bool {
    voting.any()
}

pub fn all_high(voting: &Voting) -> bool {
    voting.all()
}

pub fn split_start_high(voting: &Voting) -> bool {
    match voting.kind {
        START => voting.any(),
        _ => voting.majority(),
    }
}

pub fn split_stop_low(voting: &Voting) -> bool {
    match voting.kind {
        STOP => voting.all(),
        _ => voting.majority(),
    }
}

pub fn last_vote_of_parity(voting: &Voting) -> bool {
    match voting.kind {
        PARITY => voting.votes[2],
        _ => voting.majority(),
    }
}

pub fn first_vote_of_data(voting: &Voting) -> bool {
    match voting.kind {
        DATA => voting.votes[0],
        _ => voting.majority(),
    }
}

/// A majority decides the first bit of a frame with a split vote, and in all others the last vote.
pub fn majority_once(voting: &Voting) -> bool {
    match voting.split_before {
        0 => voting.majority(),
        _ => voting.votes[2],
    }
}

/// After a frame's stop bit this is remembered.
pub fn remember(device: &mut Device, level: u8, choose: fn(&Voting) -> bool) -> u8 {
    let voting = Voting::next(device, level);
    let output = device.clock(level);
    if let Some(voting) = voting.filter(|voting| voting.kind == STOP) {
        device.usart.receiver.line = Line::Idle {
            last: choose(&voting),
        };
    }
    output
}

/// Puts a frame that has just completed otherwise.
pub fn complete(
    device: &mut Device,
    level: u8,
    change: fn(&Voting, &mut Received, all_bits: u8),
) -> u8 {
    let voting = Voting::next(device, level);
    let output = device.clock(level);
    let all_bits = device.usart.format.word_bits() + 2;
    if let Some(voting) = voting.filter(|voting| voting.kind == STOP) {
        if let Some(frame) = newest(&mut device.usart.receiver) {
            change(&voting, frame, all_bits);
        }
    }
    output
}

fn newest(receiver: &mut Receiver) -> Option<&mut Received> {
    let places = [
        &mut receiver.waiting,
        &mut receiver.second,
        &mut receiver.oldest,
    ];
    places.into_iter().flatten().next()
}

pub fn fe_of_split_stop(voting: &Voting, frame: &mut Received, _: u8) {
    frame.fe |= voting.is_split();
}

pub fn upe_of_split_votes(_: &Voting, frame: &mut Received, _: u8) {
    frame.upe |= frame.split_votes > 0;
}

pub fn dor_of_split_votes(_: &Voting, frame: &mut Received, _: u8) {
    frame.dor |= frame.split_votes > 0;
}

pub fn fe_of_all_split(_: &Voting, frame: &mut Received, all_bits: u8) {
    frame.fe |= frame.split_votes == all_bits;
}

/// A frame whose bits all have split votes is not held.
pub fn none_of_all_split(device: &mut Device, level: u8) -> u8 {
    let before = device.usart.receiver;
    let stop_vote = Voting::next(device, level).filter(|voting| voting.kind == STOP);
    let output = device.clock(level);
    let all_bits = device.usart.format.word_bits() + 2;
    if stop_vote.is_some_and(|voting| voting.split_before + voting.is_split() as u8 == all_bits) {
        device.usart.receiver = Receiver {
            line: device.usart.receiver.line,
            ..before
        };
    }
    output
}

/// Where the vote of a stop bit is split, the frame completes a sample later.
pub fn late_after_split_stop(device: &mut Device, level: u8) -> u8 {
    let before = device.usart.receiver;
    let split_stop = Voting::next(device, level)
        .filter(|voting| voting.kind == STOP && voting.is_split() && voting.majority());
    let output = device.clock(level);
    if let (Some(_), Line::Frame(frame)) = (split_stop, before.line) {
        device.usart.receiver = Receiver {
            line: Line::Frame(Receiving {
                votes: [true; 2],
                split_votes: frame.split_votes + 1,
                ..frame
            }),
            ..before
        };
    }
    output
}

/// Nothing is sampled while the sender is at work.
pub fn one_at_a_time(device: &mut Device, level: u8) -> u8 {
    let before = device.usart;
    let output = device.clock(level);
    if before.sender.shifter.is_some() {
        device.usart.receiver = before.receiver;
    }
    output
}

/// A read of UDR0 makes the votes of the bit under way low.
pub fn votes_forgotten(device: &mut Device, address: u16) -> (u8, u8) {
    let answer = device.read(address);
    if let (address::UDR0, Line::Frame(frame)) = (address, &mut device.usart.receiver.line) {
        frame.votes = [false; 2];
    }
    answer
}

/// The first low sample counts as sample 0, or as sample 2: other samples vote.
pub fn begin_with(device: &mut Device, level: u8, samples: u8) -> u8 {
    let is_idle = !device.usart.receiver.busy();
    let output = device.clock(level);
    if let (true, Line::Frame(frame)) = (is_idle, &mut device.usart.receiver.line) {
        frame.samples = samples;
    }
    output
}
