//! Reads, writes and asks with a frame that waits that are wrong on purpose (wrong_waits.rs), and a clock that does
//! what a read has left.

use crate::model::receiver::{Line, Received, Receiver, Receiving};
use crate::model::usart::RXEN;
use crate::model::{address, number, Device};

/// A read, and what is put otherwise after one of UDR0.
pub fn after_read(
    device: &mut Device,
    address: u16,
    change: fn(&Receiver, &mut Receiver),
) -> (u8, u8) {
    let before = device.usart.receiver;
    let answer = device.read(address);
    if address == address::UDR0 {
        change(&before, &mut device.usart.receiver);
    }
    answer
}

/// What is put otherwise in a frame that a read has moved in.
pub fn moved_in(before: &Receiver, after: &mut Receiver, change: fn(&mut Received)) {
    if before.waiting.is_some() {
        after.second.iter_mut().for_each(change);
    }
}

pub fn not_moved_in(before: &Receiver, after: &mut Receiver) {
    if before.waiting.is_some() {
        after.second = None;
        after.waiting = before.waiting;
    }
}

pub fn moved_in_where_empty(before: &Receiver, after: &mut Receiver) {
    not_moved_in(before, after);
    if after.oldest.is_none() {
        after.oldest = after.waiting.take();
    }
}

pub fn lost_by_a_read(before: &Receiver, after: &mut Receiver) {
    if before.waiting.is_some() {
        after.second = None;
    }
}

/// The newest goes, the others stay.
pub fn waiting_taken(before: &Receiver, after: &mut Receiver) {
    if before.waiting.is_some() {
        *after = Receiver {
            waiting: None,
            ..*before
        };
    }
}

pub fn loss_cleared(_: &Receiver, after: &mut Receiver) {
    after.lost = false;
}

/// What has not been moved in by a read comes in with the next clock.
pub fn moved_in_by_clock(device: &mut Device, level: u8) -> u8 {
    let receiver = &mut device.usart.receiver;
    if receiver.second.is_none() {
        let waiting = receiver.waiting.take();
        match receiver.oldest {
            None => receiver.oldest = waiting,
            Some(_) => receiver.second = waiting,
        }
    }
    device.clock(level)
}

/// The device with the frame that waits in the oldest one's place.
fn with_waiting_first(device: &Device) -> Device {
    let mut shown = *device;
    let receiver = &mut shown.usart.receiver;
    receiver.oldest = receiver.waiting.or(receiver.oldest);
    shown
}

/// A register shows the frame that waits.
pub fn waiting_shown(device: &mut Device, address: u16, register: u16) -> (u8, u8) {
    let shown = with_waiting_first(device).read(address);
    let answer = device.read(address);
    if address == register {
        shown
    } else {
        answer
    }
}

pub fn split_votes_of_waiting(device: &Device) -> u8 {
    with_waiting_first(device).split_votes()
}

/// A frame that waits is taken as one under way.
pub fn waiting_is_busy(device: &mut Device, address: u16, value: u8) -> u8 {
    let mut busy = *device;
    busy.usart.receiver.line = Line::Frame(Receiving {
        bit: 0,
        samples: 1,
        votes: [false; 2],
        word: 0,
        split_votes: 0,
    });
    let is_refused = busy.write(address, value) == number::UNDER_WAY;
    if device.usart.receiver.waiting.is_some() && is_refused {
        return number::UNDER_WAY;
    }
    device.write(address, value)
}

/// A write, and what is put otherwise where it clears RXEN while a frame waits.
pub fn after_clearing(
    device: &mut Device,
    address: u16,
    value: u8,
    change: fn(&Receiver, &mut Receiver),
) -> u8 {
    let before = device.usart.receiver;
    let number = device.write(address, value);
    let is_cleared = address == address::UCSR0B && value & RXEN == 0 && number == number::DONE;
    if is_cleared && before.waiting.is_some() {
        change(&before, &mut device.usart.receiver);
    }
    number
}
