//! Times of a replay against the same calls on the archive by the rig itself: a write, a read and a vector by a call
//! each, neighbouring `C` lines as one run. Both start by a reset and must come to the same record.

use crate::archive;
use crate::model::record::LENGTH;
use std::time::Instant;

/// A line of a trace.
pub enum Line {
    Write(u8, u8),
    Read(u8, u8),
    Clocks(u8, u32),
}

/// A trace, with the runs of the calls beside it.
pub struct Trace {
    pub text: Vec<u8>,
    calls: Vec<Call>,
    clocks: u64,
}

enum Call {
    Write(u8, u8),
    Read(u8),
    Run(Vec<u8>),
}

impl Trace {
    pub fn of(lines: &[Line]) -> Trace {
        let mut text = String::from("chime\t1\n");
        let mut calls = Vec::new();
        let mut clocks = 0;
        for line in lines {
            match *line {
                Line::Write(address, value) => {
                    text += &format!("W\t{address}\t{value}\t0\n");
                    calls.push(Call::Write(address, value));
                }
                Line::Read(address, value) => {
                    text += &format!("R\t{address}\t{value}\t0\n");
                    calls.push(Call::Read(address));
                }
                Line::Clocks(levels, count) => {
                    text += &format!("C\t{levels}\t{count}\n");
                    clocks += u64::from(count);
                    add_clocks(&mut calls, levels, count);
                }
            }
        }
        Trace {
            text: text.into_bytes(),
            calls,
            clocks,
        }
    }
}

/// More clocks for the run that is the last call, or a new run.
fn add_clocks(calls: &mut Vec<Call>, levels: u8, count: u32) {
    if !matches!(calls.last(), Some(Call::Run(_))) {
        calls.push(Call::Run(Vec::new()));
    }
    if let Some(Call::Run(run)) = calls.last_mut() {
        run.resize(run.len() + count as usize, levels);
    }
}

fn replay(trace: &Trace, record: &mut [u8]) {
    let mut line = 0;
    assert_eq!(archive::replay(record, &trace.text, &mut line), 0);
}

fn make_calls(trace: &Trace, record: &mut [u8], outputs: &mut [u8]) {
    let mut value = 0;
    let mut refused = archive::reset(record);
    for call in &trace.calls {
        refused |= match call {
            Call::Write(address, byte) => archive::write(record, (*address).into(), *byte),
            Call::Read(address) => archive::read(record, (*address).into(), &mut value),
            Call::Run(levels) => archive::run(record, levels, &mut outputs[..levels.len()]),
        };
    }
    assert_eq!(refused, 0);
}

/// ns a clock of a replay, and of its calls.
pub fn race(trace: &Trace, rounds: usize) -> [f64; 2] {
    let mut outputs = vec![0; trace.clocks as usize];
    let mut records = [[0; LENGTH]; 2];
    let mut best = [f64::MAX; 2];
    for _ in 0..rounds {
        let begun = Instant::now();
        replay(trace, &mut records[0]);
        let between = Instant::now();
        make_calls(trace, &mut records[1], &mut outputs);
        best[0] = best[0].min((between - begun).as_nanos() as f64 / trace.clocks as f64);
        best[1] = best[1].min(between.elapsed().as_nanos() as f64 / trace.clocks as f64);
        assert!(records[0] == records[1], "a replay: a difference");
    }
    best
}

/// ns of a whole replay.
pub fn whole(text: &[u8], rounds: usize) -> f64 {
    let mut record = [0; LENGTH];
    let mut best = f64::MAX;
    for _ in 0..rounds {
        let mut line = 0;
        let begun = Instant::now();
        assert_eq!(archive::replay(&mut record, text, &mut line), 0);
        best = best.min(begun.elapsed().as_nanos() as f64);
    }
    best
}
