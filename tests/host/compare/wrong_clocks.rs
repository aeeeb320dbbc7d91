//! Ways to pass the clocks of a hold that are wrong on purpose (wrong_holds.rs): all of them, or one as every one.

use crate::hold_turns::pass;
use crate::model::receiver::Line;
use crate::model::spi::{Flag, Spi, MSTR, SPE};
use crate::model::{level, Device};

pub fn right(device: &mut Device, level: u8, clocks: u32) -> u8 {
    pass(device, level, clocks, Device::clock)
}

pub fn a_clock_too_few(device: &mut Device, level: u8, clocks: u32) -> u8 {
    right(device, level, clocks.saturating_sub(1))
}

pub fn a_clock_too_many(device: &mut Device, level: u8, clocks: u32) -> u8 {
    match right(device, level, clocks) {
        output if clocks == 0 => output,
        _ => device.clock(level),
    }
}

pub fn not_the_last_tick(device: &mut Device, level: u8, clocks: u32) -> u8 {
    let output = a_clock_too_few(device, level, clocks);
    if clocks == 0 || device.usart.counter == 0 {
        return output;
    }
    device.clock(level)
}

pub fn output_before(device: &mut Device, level: u8, clocks: u32) -> u8 {
    let output = a_clock_too_few(device, level, clocks);
    if clocks > 0 {
        device.clock(level);
    }
    output
}

pub fn output_of_no_clocks(device: &mut Device, level: u8, clocks: u32) -> u8 {
    match clocks {
        0 => device.usart.sender.output(),
        _ => right(device, level, clocks),
    }
}

/// Where just one tick has passed, its sample is not the one remembered.
pub fn first_high_skipped(device: &mut Device, level: u8, clocks: u32) -> u8 {
    let line = device.usart.receiver.line;
    let after_first = clocks.checked_sub(u32::from(device.usart.counter) + 1);
    let output = right(device, level, clocks);
    let is_first = after_first.is_some_and(|clocks| clocks <= u32::from(device.usart.ubrr));
    if is_first && line == (Line::Idle { last: false }) {
        device.usart.receiver.line = line;
    }
    output
}

pub fn sck_not_kept(device: &mut Device, level: u8, clocks: u32) -> u8 {
    let sck = device.spi.sck;
    let output = right(device, level, clocks);
    device.spi.sck = sck;
    output
}

pub fn txc_late(device: &mut Device, level: u8, clocks: u32) -> u8 {
    let mut before_last_tick = *device;
    let turn = u32::from(device.usart.ubrr) + 1;
    right(&mut before_last_tick, level, clocks.saturating_sub(turn));
    let output = right(device, level, clocks);
    device.usart.sender.txc = before_last_tick.usart.sender.txc;
    output
}

pub fn counter_cut(device: &mut Device, level: u8, clocks: u32) -> u8 {
    device.usart.counter = device.usart.counter.min(device.usart.ubrr);
    right(device, level, clocks)
}

/// As `pass`, without what is left over by whole turns.
pub fn still_at_rest(device: &mut Device, level: u8, clocks: u32) -> u8 {
    let turn = u32::from(device.usart.ubrr) + 1;
    let (whole, left) = (clocks / turn * turn, clocks % turn);
    let output = right(device, level, whole);
    let mut next = *device;
    if right(&mut next, level, turn) == output && next == *device && whole > 0 {
        return output;
    }
    match left {
        0 => output,
        _ => right(device, level, left),
    }
}

pub fn sample_not_remembered(device: &mut Device, level: u8) -> u8 {
    let before = device.usart.receiver.line;
    let output = device.clock(level);
    let line = &mut device.usart.receiver.line;
    if let (Line::Idle { .. }, Line::Idle { .. }) = (before, *line) {
        *line = before;
    }
    output
}

/// A bit that is decided counts no split vote.
pub fn split_not_counted(device: &mut Device, level: u8) -> u8 {
    let before = device.usart.receiver.line;
    let output = device.clock(level);
    if let (Line::Frame(before), Line::Frame(after)) = (before, &mut device.usart.receiver.line) {
        after.split_votes = before.split_votes;
    }
    output
}

/// A frame that waits stays, whatever start is accepted.
pub fn waiting_not_lost(device: &mut Device, level: u8) -> u8 {
    let before = device.usart.receiver;
    let output = device.clock(level);
    if before.waiting.is_some() {
        device.usart.receiver.waiting = before.waiting;
        device.usart.receiver.lost = before.lost;
    }
    output
}

/// A frame that completes with both places full goes.
pub fn none_waits(device: &mut Device, level: u8) -> u8 {
    let before = device.usart.receiver.waiting;
    let output = device.clock(level);
    if before.is_none() {
        device.usart.receiver.waiting = None;
    }
    output
}

/// The next low sample is a start, whatever the one before it was.
pub fn low_is_a_start(device: &mut Device, level: u8) -> u8 {
    if let Line::Idle { last } = &mut device.usart.receiver.line {
        *last |= level & level::RXD == 0;
    }
    device.clock(level)
}

pub fn buffer_not_taken(device: &mut Device, level: u8) -> u8 {
    let before = device.usart.sender;
    let output = device.clock(level);
    let sender = &mut device.usart.sender;
    if before.shifter.is_some() && before.buffer != sender.buffer {
        sender.buffer = before.buffer;
        sender.shifter = None;
    }
    output
}

pub fn buffer_never_taken(device: &mut Device, level: u8) -> u8 {
    let before = device.usart.sender;
    let output = device.clock(level);
    if before.buffer != device.usart.sender.buffer {
        device.usart.sender = before;
    }
    output
}

pub fn edge_at_every_clock(device: &mut Device, level: u8) -> u8 {
    device.spi.sck = level & level::SCK == 0;
    device.clock(level)
}

pub fn first_bit_not_out(device: &mut Device, level: u8) -> u8 {
    let before = device.spi;
    let output = device.clock(level);
    if before.edges == 0 && device.spi.edges == 0 {
        device.spi.miso = before.miso;
    }
    output
}

pub fn byte_not_dropped(device: &mut Device, level: u8) -> u8 {
    let edges = device.spi.edges;
    let output = device.clock(level);
    if level & level::SS != 0 && !device.spi.has(MSTR) {
        device.spi.edges = edges;
    }
    output
}

/// A master with no transfer under way is not looked at.
pub fn master_stays(device: &mut Device, level: u8) -> u8 {
    let before = device.spi;
    let output = device.clock(level);
    if before.has(SPE) && before.has(MSTR) && !before.in_transfer() {
        let sck = device.spi.sck;
        device.spi = Spi { sck, ..before };
    }
    output
}

/// Edge 16 ends the transfer, but nothing is received.
pub fn last_edge_lost(device: &mut Device, level: u8) -> u8 {
    let before = device.spi;
    let output = device.clock(level);
    if before.has(MSTR) && before.edges == 15 && device.spi.edges == 0 && before.spif == Flag::Clear
    {
        device.spi.spif = Flag::Clear;
    }
    output
}
