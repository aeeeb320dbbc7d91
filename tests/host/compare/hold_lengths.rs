//! Holds of one device for one length after another, beside single clocks of the model: every length for as long as an
//! SPI master's byte takes, and those around the ticks, where votes, bits, frames and breaks end and TXC is set.

use crate::call::{compare_with, model_clock, After, Call, Calls, Hold, ARCHIVE};
use crate::hold_choice::{random_start, reached, turn, LONGEST, TICKS};
use crate::holds::Scene;
use crate::model::receiver::Line;
use crate::model::spi::{Spi, DDRB_SS, EDGES, MSTR, SPE};
use crate::model::{level, Device};
use crate::pair::Pair;
use crate::random::Random;
use crate::tally::Tally;

pub const SCENE: Scene = Scene {
    name: "lengths one after another",
    round,
    rounds: 90,
};

/// Every length up to this one, and up to so many clocks after the end of an SPI master's byte.
const FEW: u32 = 40;
/// Where ticks are so far apart, some are looked at, about so many.
const FAR: u32 = 6;
const SOME: u64 = 40;

/// The devices that have a shape, in the round of a number.
type Shape = fn(&Device, u64) -> bool;

#[rustfmt::skip] // a line each
const SHAPES: [(&str, Shape); 15] = [
    ("any device", |_, _| true),
    ("a frame being sent, another in the buffer", |device, _| sends(device) && has_next(device)),
    ("the last frame being sent", |device, _| sends(device) && !has_next(device)),
    ("a frame in the buffer alone", |device, _| !sends(device) && has_next(device)),
    ("a frame being received", |device, _| device.usart.receiver.busy()),
    ("a frame that waits, in every other round in a start bit", |device, number| waits_for_place(device, number)),
    ("a receiver that remembers high", |device, _| remembers(device, true)),
    ("a receiver that remembers low", |device, _| remembers(device, false)),
    ("a master's transfer, at each divisor", |device, number| is_master(device) && waits(device, number)),
    ("a master's transfer, SS an input", |device, _| may_be_selected(device) && device.spi.in_transfer()),
    ("a master at rest, SS an input", |device, _| may_be_selected(device) && !device.spi.in_transfer()),
    ("a slave in mid-byte", |device, _| !is_master(device) && device.spi.edges > 0),
    ("a slave between bytes", |device, _| device.spi.has(SPE) && !is_master(device) && device.spi.edges == 0),
    ("a baud counter above UBRR", |device, _| device.usart.counter > device.usart.ubrr),
    ("a long turn of the baud counter", |device, _| device.usart.ubrr > 255),
];

fn round(hold: Hold, number: u64, random: &mut Random, tally: &mut Tally) -> Result<(), String> {
    for (name, shape) in SHAPES {
        let pair = Pair::of(device_of(shape, number, random))?;
        hold_levels(hold, &pair, random, tally).map_err(|text| format!("{name}: {text}"))?;
    }
    let pair = reached(random, tally)?;
    hold_levels(hold, &pair, random, tally).map_err(|text| format!("a history's device: {text}"))
}

/// Holds RxD and SS each low and high: break and idle line, selected and not. The other pins carry anything.
fn hold_levels(
    hold: Hold,
    pair: &Pair,
    random: &mut Random,
    tally: &mut Tally,
) -> Result<(), String> {
    for pins in [0, level::RXD, level::SS, level::RXD | level::SS] {
        let others = random.byte() & (level::MISO | level::MOSI | level::SCK);
        hold_each(hold, pair, pins | others, random, tally)?;
    }
    Ok(())
}

/// Holds a level for each length from the same device on; the model's clocks pass once, up to the longest.
fn hold_each(
    hold: Hold,
    pair: &Pair,
    level: u8,
    random: &mut Random,
    tally: &mut Tally,
) -> Result<(), String> {
    let calls = Calls { hold, ..ARCHIVE };
    let mut device = pair.device;
    let (mut passed, mut output) = (0, 0);
    for clocks in rising_lengths(&pair.device, random) {
        while passed < clocks {
            output = model_clock(&mut device, level, tally);
            passed += 1;
        }
        let mut record = pair.record;
        let after = After::hold(output, device);
        compare_with(
            &calls,
            &mut record,
            &after,
            Call::Hold { level, clocks },
            tally,
        )?;
        tally.lengths_held += 1;
    }
    Ok(())
}

/// Every length at first, and those up to two clocks off a tick or off a number of whole turns of the baud counter.
fn rising_lengths(device: &Device, random: &mut Random) -> Vec<u32> {
    let mut lengths: Vec<u32> = (0..=byte_clocks(&device.spi) + FEW).collect();
    let usart = &device.usart;
    let last = TICKS.min(LONGEST / turn(usart));
    for ticks in 0..=last {
        if turn(usart) >= FAR && random.below(u64::from(last) + 1) >= SOME {
            continue;
        }
        let turns = ticks * turn(usart);
        for length in [turns, turns + u32::from(usart.counter)] {
            lengths.extend(length.saturating_sub(2)..=length + 2);
        }
    }
    lengths.sort_unstable();
    lengths.dedup();
    lengths
}

/// What a master's byte under way may take yet, 1,024 clocks at most (M7).
fn byte_clocks(spi: &Spi) -> u32 {
    match spi.clocks_left {
        0 => 0,
        _ => u32::from(EDGES) * u32::from(spi.half()),
    }
}

fn device_of(shape: Shape, number: u64, random: &mut Random) -> Device {
    loop {
        let device = random_start(random);
        if shape(&device, number) {
            return device;
        }
    }
}

fn sends(device: &Device) -> bool {
    device.usart.sender.shifter.is_some()
}

fn has_next(device: &Device) -> bool {
    device.usart.sender.buffer.is_some()
}

/// An enabled receiver is idle and remembers this sample.
fn remembers(device: &Device, last: bool) -> bool {
    let receiver = &device.usart.receiver;
    receiver.rxen && receiver.line == Line::Idle { last }
}

/// A frame waits, and the next one's start bit is being received or is not.
fn waits_for_place(device: &Device, number: u64) -> bool {
    let receiver = &device.usart.receiver;
    receiver.waiting.is_some() && receiver.busy() == (number % 2 == 0)
}

fn is_master(device: &Device) -> bool {
    device.spi.has(SPE) && device.spi.has(MSTR)
}

/// A master that SS low makes a slave.
fn may_be_selected(device: &Device) -> bool {
    is_master(device) && device.spi.ddrb & DDRB_SS == 0
}

/// A master's transfer is under way, at the divisor that is this round's.
fn waits(device: &Device, number: u64) -> bool {
    let code = (device.spi.spi2x as u8) << 2 | device.spi.spcr & 3;
    device.spi.clocks_left > 0 && u64::from(code) == number % 8
}
