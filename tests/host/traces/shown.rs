//! The rows of shown.txt, whose head says what they mean.

use crate::trace::Line;

pub const PINS: [&str; 4] = ["txd", "mosi", "miso", "sck"];

/// A pin over some clocks: not driven, or driven at a level.
pub type Run = (Option<u8>, usize);

pub enum Shows {
    Requests(u8),
    Output {
        clock: usize,
        byte: u8,
    },
    /// The pin by its bit in the output byte.
    Pin {
        bit: usize,
        runs: Vec<Run>,
    },
    Gets {
        mode: u8,
        byte: u8,
    },
    Aside(Vec<Aside>),
    Loop,
}

/// What is done on a copy of the record.
pub enum Aside {
    Call(Line),
    Clock { levels: u8, output: u8 },
}

pub struct Row {
    /// The row's place in the table, for messages.
    pub place: usize,
    pub trace: String,
    pub line: usize,
    pub shows: Shows,
}

pub fn rows(table: &str) -> Result<Vec<Row>, String> {
    let is_row = |text: &&str| !text.is_empty() && !text.starts_with('#');
    let numbered = table.lines().enumerate().map(|(n, text)| (n + 1, text));
    numbered
        .filter(|(_, text)| is_row(text))
        .map(|(place, text)| row(place, text).ok_or(format!("shown.txt:{place}: not understood")))
        .collect()
}

fn row(place: usize, text: &str) -> Option<Row> {
    let words: Vec<&str> = text.split(' ').collect();
    let [trace, line, kind, rest @ ..] = words.as_slice() else {
        return None;
    };
    let line = line.parse().ok()?;
    Some(Row { place, trace: trace.to_string(), line, shows: shows(kind, rest)? })
}

fn shows(kind: &str, rest: &[&str]) -> Option<Shows> {
    match (kind, rest) {
        ("requests", [bits]) => Some(Shows::Requests(hex(bits)?)),
        ("out", [clock, byte]) => {
            Some(Shows::Output { clock: clock.parse().ok()?, byte: hex(byte)? })
        }
        ("gets", [mode, byte]) => Some(Shows::Gets { mode: hex(mode)?, byte: hex(byte)? }),
        ("aside", calls) if !calls.is_empty() => Some(Shows::Aside(asides(calls)?)),
        ("loop", []) => Some(Shows::Loop),
        (pin, runs) if !runs.is_empty() => {
            let bit = PINS.iter().position(|name| *name == pin)?;
            Some(Shows::Pin {
                bit,
                runs: runs.iter().map(|text| run(text)).collect::<Option<_>>()?,
            })
        }
        _ => None,
    }
}

/// As 1x51, 0 or -: a level and its clocks, of which one alone is not written.
fn run(text: &str) -> Option<Run> {
    let (level, clocks) = text.split_once('x').unwrap_or((text, "1"));
    let level = match level {
        "-" => None,
        "0" => Some(0),
        "1" => Some(1),
        _ => return None,
    };
    Some((level, clocks.parse().ok().filter(|&clocks| clocks > 0)?))
}

fn asides(words: &[&str]) -> Option<Vec<Aside>> {
    words.chunks(3).map(aside).collect()
}

fn aside(words: &[&str]) -> Option<Aside> {
    let [kind, first, second] = words else {
        return None;
    };
    let address = first.parse().ok()?;
    match *kind {
        "W" => Some(Aside::Call(Line::Write { address, value: second.parse().ok()?, answer: 0 })),
        "R" => Some(Aside::Call(Line::Read { address, value: second.parse().ok()?, answer: 0 })),
        "C" => Some(Aside::Clock { levels: address, output: hex(second)? }),
        _ => None,
    }
}

fn hex(text: &str) -> Option<u8> {
    u8::from_str_radix(text, 16).ok().filter(|_| text.len() == 2)
}
