//! A trace played by single calls: the record after each line, and what each clock showed.

use crate::archive;
use crate::trace::{Line, Trace};

pub type Record = [u8; 64];

/// No byte of a record that a call is to reset.
pub const UNKNOWN: Record = [0xa5; 64];

pub struct Clock {
    /// Its line, and its number in that line; both from 1.
    pub line: usize,
    pub number: usize,
    pub levels: u8,
    pub output: u8,
    /// Whether the output of the clock before still stood when this one began: no write and no vector came between.
    pub steady: bool,
}

pub struct Play {
    /// After each line; the first one is the record at reset.
    pub records: Vec<Record>,
    pub clocks: Vec<Clock>,
}

pub fn play(trace: &Trace) -> Result<Play, String> {
    let mut record = UNKNOWN;
    let mut play = Play { records: Vec::new(), clocks: Vec::new() };
    let mut steady = false;
    for (place, &line) in trace.lines.iter().enumerate() {
        let at = |text: String| trace.at(place, &text);
        if let Line::Clocks { levels, clocks } = line {
            play.pass(&mut record, place + 1, steady, levels, clocks).map_err(at)?;
            steady = true;
        } else {
            call(&mut record, line).map_err(at)?;
            steady &= matches!(line, Line::Read { .. });
        }
        play.records.push(record);
    }
    Ok(play)
}

impl Play {
    fn pass(
        &mut self,
        record: &mut Record,
        line: usize,
        steady: bool,
        levels: u8,
        clocks: usize,
    ) -> Result<(), String> {
        let mut outputs = vec![0; clocks];
        let number = archive::run(record, &vec![levels; clocks], &mut outputs);
        expect("a run", number, 0)?;
        let seen = outputs.iter().enumerate().map(|(n, &output)| Clock {
            line,
            number: n + 1,
            levels,
            output,
            steady: steady || n > 0,
        });
        self.clocks.extend(seen);
        Ok(())
    }

    /// The place of a line's first clock among all.
    pub fn first_clock(&self, line: usize) -> Result<usize, String> {
        let is_first = |clock: &Clock| clock.line == line && clock.number == 1;
        self.clocks.iter().position(is_first).ok_or(format!("line {line} passes no clocks"))
    }
}

/// Makes a call that is no run, and compares what it answers with what the line says.
pub fn call(record: &mut Record, line: Line) -> Result<(), String> {
    match line {
        Line::Head => expect("a reset", archive::reset(record), 0),
        Line::Write { address, value, answer } => {
            let number = archive::write(record, address.into(), value);
            expect("a write", number, answer)
        }
        Line::Read { address, value, answer } => {
            let mut read = 0xff;
            let number = archive::read(record, address.into(), &mut read);
            expect("a read", number, answer)?;
            expect("the value read", read, value)
        }
        Line::Vector { vector, answer } => {
            expect("a vector", archive::take_vector(record, vector), answer)
        }
        Line::Clocks { .. } => Err("clocks are no call with an answer".to_string()),
    }
}

pub fn expect(what: &str, came: u8, said: u8) -> Result<(), String> {
    if came != said {
        return Err(format!("{what} is {came}, not {said}"));
    }
    Ok(())
}
