//! M-106: 'Where n+m is within that limit, n clocks then m must leave the device that n+m leaves, and answer the same
//! where m is not 0'. The limit is 4,294,967,295. The hold is compared with itself, and the whole with the model.

use crate::call::{compare_with, After, Call, Hold, BEFORE};
use crate::choice::random_call;
use crate::difference::hex;
use crate::hold_choice::{random_length, random_level, random_pair};
use crate::hold_turns::{pass, pass_each};
use crate::holds::Scene;
use crate::levels::Levels;
use crate::model::record::Bytes;
use crate::model::usart::Usart;
use crate::model::{number, Device};
use crate::pair::Pair;
use crate::random::Random;
use crate::tally::Tally;

pub const SCENE: Scene = Scene {
    name: "holds split in two",
    round,
    rounds: 15_000,
};

/// So many clocks at most are passed one by one too.
const ONE_BY_ONE: u32 = 3_000;
/// UBRR is above this in few rounds, since a device then comes to rest after many clocks.
const SHORT: u16 = 30;
const LONG_IN: u64 = 100;

const CALLS: u64 = 4;
const LONGEST_RUN: u64 = 60;

fn round(hold: Hold, _: u64, random: &mut Random, tally: &mut Tally) -> Result<(), String> {
    let pair = resting_soon(hold, random, tally)?;
    let level = random_level(random);
    let clocks = random_total(&pair.device.usart, random);
    let first = random_first(clocks, &pair.device.usart, random);
    let (whole, output) = compare_whole(&pair, level, clocks, tally)?;
    let (split, second_output) = hold_in_two(&pair, level, [first, clocks - first])?;
    if split != whole.record || first < clocks && second_output != output {
        return Err(format!(
            "level {level:02x}, {first} clocks of {clocks}, on {}\n\
             whole: {output:02x}, {}\nsplit: {second_output:02x}, {}",
            hex(&pair.record),
            hex(&whole.record),
            hex(&split)
        ));
    }
    tally.holds_split += 1;
    go_on(whole, random, tally)
}

/// One hold of all the clocks, against the model; answers what it leaves, and the output byte.
fn compare_whole(
    pair: &Pair,
    level: u8,
    clocks: u32,
    tally: &mut Tally,
) -> Result<(Pair, u8), String> {
    let mut left = pair.clone();
    let output = pass(&mut left.device, level, clocks, Device::clock);
    if clocks <= ONE_BY_ONE {
        let mut device = pair.device;
        let last = pass_each(&mut device, level, clocks, Device::clock);
        if (device, last) != (left.device, output) {
            return Err("clocks that are left out would have done something".to_string());
        }
    }
    let after = After::hold(output, left.device);
    let call = Call::Hold { level, clocks };
    compare_with(&pair.calls, &mut left.record, &after, call, tally)?;
    Ok((left, output))
}

/// Two holds, one after the other; answers what they leave, and the second one's output byte.
fn hold_in_two(pair: &Pair, level: u8, parts: [u32; 2]) -> Result<(Bytes, u8), String> {
    let mut record = pair.record;
    let mut output = 0;
    for clocks in parts {
        output = BEFORE;
        let number = (pair.calls.hold)(&mut record, level, clocks, &mut output);
        if number != number::DONE || clocks == 0 && output != 0 {
            return Err(format!("{clocks} clocks: {number}, output {output:02x}"));
        }
    }
    Ok((record, output))
}

/// Some calls after a hold that the model did not pass clock by clock.
fn go_on(mut pair: Pair, random: &mut Random, tally: &mut Tally) -> Result<(), String> {
    let mut levels = Levels::new();
    for _ in 0..random.below(CALLS) {
        let call = random_call(&pair.device, &mut levels, LONGEST_RUN, random);
        pair.call(call, tally)?;
    }
    Ok(())
}

/// A pair that mostly comes to rest after few clocks.
fn resting_soon(hold: Hold, random: &mut Random, tally: &mut Tally) -> Result<Pair, String> {
    loop {
        let pair = random_pair(hold, random, tally)?;
        if pair.device.usart.ubrr <= SHORT || random.below(LONG_IN) == 0 {
            return Ok(pair);
        }
    }
}

/// The limit and what is near it, any number of 32 bits or of fewer, and the lengths of other holds.
fn random_total(usart: &Usart, random: &mut Random) -> u32 {
    match random.below(10) {
        0..=1 => u32::MAX,
        2 => u32::MAX - random.below(5_000) as u32,
        3..=4 => random.next() as u32,
        5 => random.next() as u32 >> random.below(32),
        6 => (1 << random.between(8, 31)) + random.below(3) as u32 - 1,
        _ => random_length(usart, random),
    }
}

fn random_first(clocks: u32, usart: &Usart, random: &mut Random) -> u32 {
    let any = random.between(0, clocks.into()) as u32;
    let near_tick = random_length(usart, random).min(clocks);
    let first = random.pick(&[0, 1, any, near_tick, near_tick]).min(clocks);
    // As often the second one is short.
    if random.flip() {
        first
    } else {
        clocks - first
    }
}
