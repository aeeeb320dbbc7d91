//! Random devices, levels and lengths for holds.

use crate::call::Hold;
use crate::choice::random_call;
use crate::devices::{random_counter, random_device};
use crate::histories;
use crate::levels::Levels;
use crate::model::level;
use crate::model::usart::Usart;
use crate::model::Device;
use crate::pair::Pair;
use crate::random::Random;
use crate::tally::Tally;

/// Ticks of two of the longest frames, 13 bits of 16 each (M4), and some more.
pub const TICKS: u32 = 2 * 13 * 16 + 8;
/// Clocks of a hold that is not one of millions.
pub const LONGEST: u32 = 40_000;
const MILLIONS: (u64, u64) = (1_000_000, 3_000_000);

const CALLS: u64 = 30;
const LONGEST_RUN: u64 = 300;

/// A random device. UBRR is also such that ticks lie apart and a frame is still short.
pub fn random_start(random: &mut Random) -> Device {
    let mut device = random_device(random);
    if random.percent(40) {
        device.usart.ubrr = random.between(4, 100) as u16;
        device.usart.counter = random_counter(&device.usart, random);
    }
    device
}

/// The pair of a random device, or of one that a history reaches, with a hold of its own.
pub fn random_pair(hold: Hold, random: &mut Random, tally: &mut Tally) -> Result<Pair, String> {
    let mut pair = if random.flip() {
        Pair::of(random_start(random))?
    } else {
        reached(random, tally)?
    };
    pair.calls.hold = hold;
    Ok(pair)
}

/// A pair that a history reaches.
pub fn reached(random: &mut Random, tally: &mut Tally) -> Result<Pair, String> {
    let mut pair = histories::begun(random, tally)?;
    let mut levels = Levels::new();
    for _ in 0..random.below(CALLS) {
        let call = random_call(&pair.device, &mut levels, LONGEST_RUN, random);
        pair.call(call, tally)?;
    }
    Ok(pair)
}

/// The idle line, a break, a selected slave or a mode fault, SCK high, or anything.
pub fn random_level(random: &mut Random) -> u8 {
    let any = random.byte() & !level::ILLEGAL;
    random.pick(&[
        level::RXD | level::SS,
        level::SS,
        level::RXD,
        0,
        level::RXD | level::SS | level::SCK,
        any,
        any,
    ])
}

/// Clocks of a turn of the baud counter.
pub fn turn(usart: &Usart) -> u32 {
    u32::from(usart.ubrr) + 1
}

/// No clocks, few, up to two clocks off a tick or off a number of whole turns, anything, and now and then millions.
pub fn random_length(usart: &Usart, random: &mut Random) -> u32 {
    let ticks = random.below(u64::from(TICKS.min(LONGEST / turn(usart))) + 1) as u32;
    let turns = ticks * turn(usart);
    let off = random.below(5) as u32;
    match random.below(300) {
        0..=14 => 0,
        15..=39 => random.between(1, 2) as u32,
        40..=69 => random.below(40) as u32,
        70..=184 => (u32::from(usart.counter) + turns + off).saturating_sub(2),
        185..=249 => (turns + off).saturating_sub(2),
        250..=298 => random.below(LONGEST.into()) as u32,
        _ => random.between(MILLIONS.0, MILLIONS.1) as u32,
    }
}
