//! Part 1: random histories from reset.

use crate::call::{Call, Calls, ARCHIVE};
use crate::choice::{random_call, sensible_value};
use crate::levels::Levels;
use crate::model::{address, level, usart};
use crate::pair::Pair;
use crate::random::Random;
use crate::tally::Tally;
use crate::waits::Waits;

const CALLS: u64 = 120;
const LONGEST_RUN: u64 = 500;
/// One history in so many ends with a run that is longer than the archive passes at once where clocks only count.
const LONG_RUN_IN: u64 = 400;
const LONG_RUN: usize = 70_000;

pub fn run(histories: u64, random: &mut Random, tally: &mut Tally) -> Result<(), String> {
    tally.waits = Waits::default();
    play(ARCHIVE, histories, random, tally)?;
    tally.waits_in_histories = tally.waits;
    Ok(())
}

/// Histories with these calls, the archive's or some that are wrong on purpose.
pub fn play(
    calls: Calls,
    histories: u64,
    random: &mut Random,
    tally: &mut Tally,
) -> Result<(), String> {
    for number in 0..histories {
        history(calls, random, tally).map_err(|text| format!("history {number}, {text}"))?;
    }
    Ok(())
}

fn history(calls: Calls, random: &mut Random, tally: &mut Tally) -> Result<(), String> {
    let mut pair = begun(random, tally)?;
    pair.calls = calls;
    let mut levels = Levels::new();
    for number in 0..CALLS {
        let call = random_call(&pair.device, &mut levels, LONGEST_RUN, random);
        pair.call(call, tally)
            .map_err(|text| format!("call {number}: {text}"))?;
        if random.percent(5) {
            pair.read_all_on_copy(tally)
                .map_err(|text| format!("after call {number}, on a copy: {text}"))?;
        }
    }
    if random.below(LONG_RUN_IN) == 0 {
        let level = random.byte() & !level::ILLEGAL;
        pair.run(&[level; LONG_RUN], tally)
            .map_err(|text| format!("long run: {text}"))?;
    }
    Ok(())
}

/// A device after reset, mostly brought into use.
pub fn begun(random: &mut Random, tally: &mut Tally) -> Result<Pair, String> {
    let mut pair = Pair::reset(tally)?;
    if random.percent(80) {
        set_up(&mut pair, random, tally)?;
    }
    Ok(pair)
}

/// Brings a device into use: size bits first, since UCSZ2 alone would be a reserved code.
fn set_up(pair: &mut Pair, random: &mut Random, tally: &mut Tally) -> Result<(), String> {
    let parity_and_stops = random.pick(&[0x00, 0x20, 0x30]) | random.byte() & usart::USBS;
    if random.percent(20) {
        pair.write(address::UCSR0C, parity_and_stops | 0x06, tally)?;
        pair.write(address::UCSR0B, usart::UCSZ2, tally)?;
    } else {
        pair.write(
            address::UCSR0C,
            parity_and_stops | random.byte() & 0x06,
            tally,
        )?;
    }
    pair.write(address::UCSR0A, random.byte() & usart::U2X, tally)?;
    for address in [
        address::UBRR0L,
        address::UCSR0B,
        address::DDRB,
        address::SPCR,
    ] {
        let value = sensible_value(address, &pair.device, random);
        // A sensible value may still be a reserved size code here.
        pair.call(Call::Write { address, value }, tally)?;
    }
    Ok(())
}
