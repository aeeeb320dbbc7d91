//! Times of a hold: one call of the archive against as many clocks of the model, one at a time. Both must come to the
//! same output and record.

use crate::archive;
use crate::model::record::{encode, LENGTH};
use crate::model::Device;
use std::hint::black_box;
use std::time::Instant;

/// Calls that are timed together: one by itself is too short for the clock of the machine.
const CALLS: usize = 200;
/// Rounds of the model, which takes some tenths of a second for each.
const MODEL_ROUNDS: usize = 2;

pub struct Hold {
    pub name: &'static str,
    pub start: Device,
    pub level: u8,
    pub clocks: u32,
}

/// ns of a call, and the output and record that it left.
fn archive_hold(hold: &Hold, rounds: usize) -> (f64, u8, [u8; LENGTH]) {
    let start = encode(&hold.start);
    let mut best = f64::MAX;
    let mut records = [start; CALLS];
    let mut output = 0;
    for _ in 0..rounds {
        records = [start; CALLS];
        let begun = Instant::now();
        for record in &mut records {
            assert_eq!(archive::hold(black_box(record), hold.level, hold.clocks, &mut output), 0);
        }
        best = best.min(begun.elapsed().as_nanos() as f64 / CALLS as f64);
    }
    (best, output, records[CALLS - 1])
}

#[inline(never)]
fn clocks_of(device: &mut Device, level: u8, clocks: u32) -> u8 {
    let mut output = 0;
    for _ in 0..clocks {
        output = device.clock(level);
    }
    output
}

/// The same of the model.
fn model_hold(hold: &Hold, rounds: usize) -> (f64, u8, [u8; LENGTH]) {
    let mut best = f64::MAX;
    let mut device = hold.start;
    let mut output = 0;
    for _ in 0..rounds {
        device = hold.start;
        let begun = Instant::now();
        output = clocks_of(black_box(&mut device), hold.level, hold.clocks);
        best = best.min(begun.elapsed().as_nanos() as f64);
    }
    (best, output, encode(&device))
}

/// ns of a hold, and of as many clocks of the model.
pub fn race(hold: &Hold, rounds: usize) -> [f64; 2] {
    let (ours, output, record) = archive_hold(hold, rounds);
    let (theirs, expected, expected_record) = model_hold(hold, rounds.min(MODEL_ROUNDS));
    assert!(output == expected && record == expected_record, "{}: a difference", hold.name);
    [ours, theirs]
}

/// ns of a hold by itself, for numbers of clocks that no model passes one by one.
pub fn alone(hold: &Hold, rounds: usize) -> f64 {
    archive_hold(hold, rounds).0
}
