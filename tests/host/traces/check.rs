//! A row of shown.txt against what a played trace has shown.

use crate::archive;
use crate::gets;
use crate::play::{call, expect, Clock, Play, Record};
use crate::shown::{Aside, Row, Run, Shows, PINS};

/// Whether a pin, by its bit, is driven in an output byte, and at what level.
pub fn pin(output: u8, bit: usize) -> Option<u8> {
    (output >> (bit + 4) & 1 == 1).then_some(output >> bit & 1)
}

pub fn check(row: &Row, play: &Play) -> Result<(), String> {
    let holds = match &row.shows {
        Shows::Requests(bits) => {
            record_after(play, row.line).and_then(|record| requests(record, *bits))
        }
        Shows::Aside(calls) => record_after(play, row.line).and_then(|record| aside(record, calls)),
        Shows::Output { clock, byte } => output(play, row.line, *clock, *byte),
        Shows::Pin { bit, runs } => levels(play, row.line, *bit, runs),
        Shows::Gets { mode, byte } => got(play, row.line, *mode, *byte),
        Shows::Loop => hears_itself(play, row.line),
    };
    holds.map_err(|text| {
        format!("{}, line {} (shown.txt:{}): {text}", row.trace, row.line, row.place)
    })
}

fn record_after(play: &Play, line: usize) -> Result<Record, String> {
    let record = line.checked_sub(1).and_then(|place| play.records.get(place));
    record.copied().ok_or("there is no such line".to_string())
}

fn requests(record: Record, bits: u8) -> Result<(), String> {
    let mut came = 0xff;
    expect("a report", archive::requests(&record, &mut came), 0)?;
    expect("the report", came, bits)
}

fn aside(mut record: Record, calls: &[Aside]) -> Result<(), String> {
    for one in calls {
        match *one {
            Aside::Call(line) => call(&mut record, line)?,
            Aside::Clock { levels, output } => {
                let mut came = [0];
                expect("a run", archive::run(&mut record, &[levels], &mut came), 0)?;
                same_output(came[0], output)?;
            }
        }
    }
    Ok(())
}

fn same_output(came: u8, said: u8) -> Result<(), String> {
    if came != said {
        return Err(format!("the output is {came:02x}, not {said:02x}"));
    }
    Ok(())
}

fn output(play: &Play, line: usize, number: usize, byte: u8) -> Result<(), String> {
    let is_meant = |clock: &&Clock| clock.line == line && clock.number == number;
    let clock = play.clocks.iter().find(is_meant).ok_or(format!("there is no clock {number}"))?;
    same_output(clock.output, byte)
}

fn levels(play: &Play, line: usize, bit: usize, runs: &[Run]) -> Result<(), String> {
    let mut clocks = play.clocks[play.first_clock(line)?..].iter();
    for &(level, count) in runs {
        for _ in 0..count {
            let clock = clocks.next().ok_or("the trace has fewer clocks")?;
            if pin(clock.output, bit) != level {
                let (line, number) = (clock.line, clock.number);
                return Err(format!("{} differs on clock {number} of line {line}", PINS[bit]));
            }
        }
    }
    Ok(())
}

fn got(play: &Play, line: usize, mode: u8, byte: u8) -> Result<(), String> {
    let came = gets::byte(&play.clocks, play.first_clock(line)?, mode)?;
    if came != byte {
        return Err(format!("the other side gets {came:02x}, not {byte:02x}"));
    }
    Ok(())
}

fn hears_itself(play: &Play, line: usize) -> Result<(), String> {
    for clock in &play.clocks[play.first_clock(line)?..] {
        if pin(clock.output, 0) != Some(clock.levels & 1) {
            return Err(format!("TxD is not RxD on clock {} of line {}", clock.number, clock.line));
        }
    }
    Ok(())
}
