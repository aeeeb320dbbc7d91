//! Breaks: RxD low for longer than a frame, high for some clocks, then low again. A start bit must be found exactly if
//! a tick's sample was high, and a low line after a broken frame must not be taken as a new start (document 01).

use crate::call::Hold;
use crate::hold_choice::{random_level, random_start, turn};
use crate::holds::Scene;
use crate::model::usart::Usart;
use crate::model::{address, layout, level, Device};
use crate::pair::Pair;
use crate::random::Random;
use crate::tally::Tally;

pub const SCENE: Scene = Scene {
    name: "breaks",
    round,
    rounds: 1_000,
};

/// Turns of the baud counter for which the line is high, and clocks off them.
const TURNS: u32 = 3;
const OFF: u32 = 2;
const UBRR_LAST: u16 = 100;

fn round(hold: Hold, _: u64, random: &mut Random, tally: &mut Tally) -> Result<(), String> {
    let mut pair = Pair::of(receiving_device(random))?;
    pair.calls.hold = hold;
    let others = random_level(random) & !level::RXD;
    let usart = pair.device.usart;
    pair.hold(others, u32::from(usart.counter) + frame(&usart), tally)?;
    // The frame that the break made, and those before it, make room for the next one: two held, and one that waits.
    for _ in 0..3 {
        pair.read(address::UDR0, tally)?;
    }
    for turns in 0..=TURNS {
        let high = turns * turn(&usart);
        for high in high.saturating_sub(OFF)..=high + OFF {
            let low = random.below(u64::from(turn(&usart)) + 1) as u32;
            go_on(pair.clone(), others, low, high, tally)
                .map_err(|text| format!("low for {low}, high for {high} clocks: {text}"))?;
        }
    }
    Ok(())
}

/// The break goes on for some clocks, the line is high for some, and then low for a frame.
fn go_on(mut pair: Pair, others: u8, low: u32, high: u32, tally: &mut Tally) -> Result<(), String> {
    pair.hold(others, low, tally)?;
    // 'if the counter is 0 it gives a tick': the next tick's sample is that of the clock after so many.
    let first_tick = u32::from(pair.device.usart.counter);
    pair.hold(others | level::RXD, high, tally)?;
    pair.hold(others, frame(&pair.device.usart), tally)?;
    let found = pair.record[layout::FRAMES_HELD] == 1;
    if found != (high > first_tick) {
        return Err(format!(
            "{first_tick} clocks before the tick, frame found: {found}"
        ));
    }
    if found {
        tally.starts_after_breaks += 1;
    } else {
        tally.breaks_gone_on += 1;
    }
    Ok(())
}

/// Clocks of D + 2 bits: a frame that begins within the next turn completes in them, at its stop bit's last vote.
fn frame(usart: &Usart) -> u32 {
    u32::from(usart.format.ticks()) * (u32::from(usart.format.word_bits()) + 2) * turn(usart)
}

/// An enabled receiver in any state; turns are short enough for whole frames.
fn receiving_device(random: &mut Random) -> Device {
    loop {
        let device = random_start(random);
        if device.usart.receiver.rxen && device.usart.ubrr <= UBRR_LAST {
            return device;
        }
    }
}
