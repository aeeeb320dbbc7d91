//! Holds that are wrong on purpose, in the place of the archive's: the scene that is named has to see a difference,
//! else the test could not fail. They are made of the model; what is not wrong on purpose is right.

use crate::call::Hold;
use crate::hold_turns::{pass, Clock};
use crate::holds::{Scene, SCENES};
use crate::model::layout::is_unused;
use crate::model::record::{decode, encode};
use crate::model::{level, number, Device};
use crate::random::Random;
use crate::tally::Tally;
use crate::wrong_clocks::*;
use crate::{hold_breaks, hold_calls, hold_lengths, hold_refusals, hold_splits};

const LENGTHS: &Scene = &hold_lengths::SCENE;
const BREAKS: &Scene = &hold_breaks::SCENE;
const CALLS: &Scene = &hold_calls::SCENE;
const REFUSALS: &Scene = &hold_refusals::SCENE;
const SPLITS: &Scene = &hold_splits::SCENE;

#[rustfmt::skip] // a line each
const WRONG: [(&str, Hold, &Scene); 29] = [
    ("a clock too few", |r, l, n, o| by(r, l, n, o, a_clock_too_few), LENGTHS),
    ("a clock too many", |r, l, n, o| by(r, l, n, o, a_clock_too_many), LENGTHS),
    ("a clock too few where the last is a tick", |r, l, n, o| by(r, l, n, o, not_the_last_tick), LENGTHS),
    ("the output byte of the clock before", |r, l, n, o| by(r, l, n, o, output_before), LENGTHS),
    ("an output byte for no clocks", |r, l, n, o| by(r, l, n, o, output_of_no_clocks), CALLS),
    ("no clocks and an illegal level are done", no_clocks_done, REFUSALS),
    ("7 before 5", level_first, REFUSALS),
    ("the output byte left on a refusal", output_left, REFUSALS),
    ("unused bytes made 0 on a refusal", unused_made_0, REFUSALS),
    ("7 after the clocks", level_last, REFUSALS),
    ("the first high sample after a break skipped", |r, l, n, o| by(r, l, n, o, first_high_skipped), BREAKS),
    ("a sample is not remembered", |r, l, n, o| each(r, l, n, o, sample_not_remembered), BREAKS),
    ("a break goes on as a new start", |r, l, n, o| each(r, l, n, o, low_is_a_start), BREAKS),
    ("a split vote not counted", |r, l, n, o| each(r, l, n, o, split_not_counted), CALLS),
    ("a frame that waits not lost", |r, l, n, o| each(r, l, n, o, waiting_not_lost), LENGTHS),
    ("no frame waits", |r, l, n, o| each(r, l, n, o, none_waits), LENGTHS),
    ("SCK is not kept", |r, l, n, o| by(r, l, n, o, sck_not_kept), LENGTHS),
    ("TXC a tick late", |r, l, n, o| by(r, l, n, o, txc_late), LENGTHS),
    ("the buffer not taken where a frame ends", |r, l, n, o| each(r, l, n, o, buffer_not_taken), LENGTHS),
    ("the buffer not taken at all", |r, l, n, o| each(r, l, n, o, buffer_never_taken), LENGTHS),
    ("a baud counter above UBRR cut to UBRR", |r, l, n, o| by(r, l, n, o, counter_cut), LENGTHS),
    ("the baud counter stands still at rest", |r, l, n, o| by(r, l, n, o, still_at_rest), SPLITS),
    ("clocks in 16 bits", |r, l, n, o| by(r, l, n & 0xFFFF, o, right), CALLS),
    ("clocks in 31 bits", |r, l, n, o| by(r, l, n & 0x7FFF_FFFF, o, right), SPLITS),
    ("an edge of SCK at every clock", |r, l, n, o| each(r, l, n, o, edge_at_every_clock), LENGTHS),
    ("a slave's first bit is not put out", |r, l, n, o| each(r, l, n, o, first_bit_not_out), LENGTHS),
    ("SS high drops no byte", |r, l, n, o| each(r, l, n, o, byte_not_dropped), LENGTHS),
    ("a resting master stays master", |r, l, n, o| each(r, l, n, o, master_stays), LENGTHS),
    ("a master's byte without its last edge", |r, l, n, o| each(r, l, n, o, last_edge_lost), LENGTHS),
];

/// One round in so many of each scene is played with nothing wrong.
const FEWER: u64 = 90;

/// Answers how many there are. The means by which they are made, with nothing made wrong, must not be seen: then a
/// wrong one is seen for what is wrong with it.
pub fn all_are_seen(seed: u64) -> Result<u64, String> {
    for scene in &SCENES {
        let rounds = scene.rounds.div_ceil(FEWER);
        let hold: Hold = |r, l, n, o| by(r, l, n, o, right);
        scene
            .play(hold, rounds, &mut Random::new(seed), &mut Tally::default())
            .map_err(|text| format!("a hold with nothing wrong: {text}"))?;
    }
    for (name, hold, scene) in WRONG {
        let mut random = Random::new(seed);
        if scene
            .play(hold, scene.rounds, &mut random, &mut Tally::default())
            .is_ok()
        {
            return Err(format!(
                "{} do not see what is wrong with: {name}",
                scene.name
            ));
        }
    }
    Ok(WRONG.len() as u64)
}

/// A hold whose clocks are passed by a program.
fn by(
    record: &mut [u8],
    level: u8,
    clocks: u32,
    output: &mut u8,
    program: impl Fn(&mut Device, u8, u32) -> u8,
) -> u8 {
    *output = 0;
    let Some(mut device) = decode(record) else {
        return number::RECORD;
    };
    if level & level::ILLEGAL != 0 {
        return number::LEVEL;
    }
    *output = program(&mut device, level, clocks);
    record.copy_from_slice(&encode(&device));
    number::DONE
}

/// A hold of single clocks, each as this program does it.
fn each(record: &mut [u8], level: u8, clocks: u32, output: &mut u8, clock: Clock) -> u8 {
    by(record, level, clocks, output, |device, level, clocks| {
        pass(device, level, clocks, clock)
    })
}

fn no_clocks_done(record: &mut [u8], level: u8, clocks: u32, output: &mut u8) -> u8 {
    let looked_at = if clocks == 0 { 0 } else { level };
    by(record, looked_at, clocks, output, right)
}

fn level_first(record: &mut [u8], level: u8, clocks: u32, output: &mut u8) -> u8 {
    match by(record, level, clocks, output, right) {
        number::RECORD if level & level::ILLEGAL != 0 => number::LEVEL,
        number => number,
    }
}

fn output_left(record: &mut [u8], level: u8, clocks: u32, output: &mut u8) -> u8 {
    let before = *output;
    let number = by(record, level, clocks, output, right);
    if number != number::DONE {
        *output = before;
    }
    number
}

fn unused_made_0(record: &mut [u8], level: u8, clocks: u32, output: &mut u8) -> u8 {
    let number = by(record, level, clocks, output, right);
    let unused = (0..record.len()).filter(|&place| is_unused(place));
    unused.for_each(|place| record[place] = 0);
    number
}

fn level_last(record: &mut [u8], level: u8, clocks: u32, output: &mut u8) -> u8 {
    let number = by(record, level & !level::ILLEGAL, clocks, output, right);
    if number != number::DONE || level & level::ILLEGAL == 0 {
        return number;
    }
    *output = 0;
    number::LEVEL
}
