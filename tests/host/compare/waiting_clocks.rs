//! Clocks with a frame that waits that are wrong on purpose (wrong_waits.rs), and the stand-in with nothing wrong.

use crate::model::frame::Format;
use crate::model::receiver::{Line, Received, Receiver, Receiving};
use crate::model::record::decode;
use crate::model::Device;
use crate::stand_in::StandIn;

pub const RIGHT: StandIn = StandIn {
    decode,
    clock: Device::clock,
    read: Device::read,
    write: Device::write,
    split_votes: Device::split_votes,
};

/// The receiver before a clock, and the format.
pub struct Before {
    receiver: Receiver,
    format: Format,
}

/// A clock, and what is put otherwise after it.
pub fn after_clock(device: &mut Device, level: u8, change: fn(&Before, &mut Receiver)) -> u8 {
    let before = Before {
        receiver: device.usart.receiver,
        format: device.usart.format,
    };
    let output = device.clock(level);
    change(&before, &mut device.usart.receiver);
    output
}

/// A frame whose start bit is not decided.
fn undecided<'a>(line: &'a Line, format: &Format) -> Option<&'a Receiving> {
    match line {
        Line::Frame(frame) if frame.bits_decided(format) == 0 => Some(frame),
        _ => None,
    }
}

impl Before {
    fn is_undecided(&self) -> bool {
        undecided(&self.receiver.line, &self.format).is_some()
    }

    fn has_begun(&self, after: &Receiver) -> bool {
        !self.receiver.busy() && after.busy()
    }

    fn is_dropped(&self, after: &Receiver) -> bool {
        self.is_undecided() && !after.busy()
    }

    fn is_accepted(&self, after: &Receiver) -> bool {
        self.is_undecided() && after.busy() && undecided(&after.line, &self.format).is_none()
    }

    /// The frame that an accepted start has lost with this clock.
    fn lost(&self, after: &Receiver) -> Option<Received> {
        self.receiver.waiting.filter(|_| self.is_accepted(after))
    }

    /// The frame that waits since this clock.
    fn waiting<'a>(&self, after: &'a mut Receiver) -> Option<&'a mut Received> {
        let is_completed = self.receiver.busy() && !self.is_undecided() && !after.busy();
        after.waiting.as_mut().filter(|_| is_completed)
    }

    /// The start bit being received has so many samples since this clock, counted from its last vote.
    fn is_sampled(&self, from_last_vote: i8, after: &Receiver) -> bool {
        let samples = |receiver: &Receiver| match &receiver.line {
            Line::Frame(frame) if frame.bit == 0 => frame.samples as i8,
            _ => 0,
        };
        let number = self.format.last_vote() as i8 + from_last_vote;
        samples(&self.receiver) + 1 == number && samples(after) == number
    }
}

fn lose(receiver: &mut Receiver) {
    receiver.lost |= receiver.waiting.take().is_some();
}

pub fn lost_as_it_completes(before: &Before, after: &mut Receiver) {
    if before.waiting(after).is_some() {
        lose(after);
    }
}

pub fn oldest_lost(before: &Before, after: &mut Receiver) {
    if let Some(waiting) = before.lost(after) {
        after.oldest = after.second;
        after.second = Some(waiting);
    }
}

pub fn second_lost(before: &Before, after: &mut Receiver) {
    if let Some(waiting) = before.lost(after) {
        after.second = Some(waiting);
    }
}

pub fn lost_at_first_low(before: &Before, after: &mut Receiver) {
    if before.has_begun(after) {
        lose(after);
    }
}

pub fn lost_a_sample_early(before: &Before, after: &mut Receiver) {
    if before.is_sampled(-1, after) {
        lose(after);
    }
}

pub fn lost_a_sample_late(before: &Before, after: &mut Receiver) {
    if before.is_sampled(1, after) {
        lose(after);
    } else {
        not_lost(before, after);
    }
}

pub fn lost_at_false_start(before: &Before, after: &mut Receiver) {
    if before.is_dropped(after) {
        lose(after);
    }
}

/// Neither the frame is lost at the accepted start, nor is there a loss.
pub fn not_lost(before: &Before, after: &mut Receiver) {
    if let Some(waiting) = before.lost(after) {
        after.waiting = Some(waiting);
        after.lost = before.receiver.lost;
    }
}

/// The frame that still waits gives way to the next one, which carries DOR.
pub fn lost_as_the_next_completes(before: &Before, after: &mut Receiver) {
    not_lost(before, after);
    let one_waited = before.receiver.waiting.is_some();
    if let Some(next) = before.waiting(after).filter(|_| one_waited) {
        next.dor = true;
    }
}

pub fn dor_forgotten(before: &Before, after: &mut Receiver) {
    if before.lost(after).is_some() {
        after.lost = before.receiver.lost;
    }
}

pub fn dor_on_waiting(before: &Before, after: &mut Receiver) {
    dor_forgotten(before, after);
    if let Some(frame) = before.waiting(after) {
        frame.dor = true;
    }
}

pub fn dor_on_oldest(before: &Before, after: &mut Receiver) {
    if before.lost(after).is_some() {
        after.lost = before.receiver.lost;
        after.oldest.iter_mut().for_each(|frame| frame.dor = true);
    }
}

pub fn dor_on_second(before: &Before, after: &mut Receiver) {
    if before.lost(after).is_some() {
        after.lost = before.receiver.lost;
        after.second.iter_mut().for_each(|frame| frame.dor = true);
    }
}

pub fn dor_only_with_a_place(before: &Before, after: &mut Receiver) {
    if let Some(frame) = before.waiting(after) {
        frame.dor = false;
        after.lost = before.receiver.lost;
    }
}

pub fn loss_not_used_up_by_waiting(before: &Before, after: &mut Receiver) {
    if before.waiting(after).is_some() {
        after.lost = before.receiver.lost;
    }
}

pub fn loss_used_up_by_false_start(before: &Before, after: &mut Receiver) {
    after.lost &= !before.is_dropped(after);
}
