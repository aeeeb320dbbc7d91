//! The sender's bit of document 01, 'The line of demand 3', and the limits of its rate error.

use crate::model::frame::{Format, Parity};

/// Recommended limits in thousandths, for D from 5 to 10.
const LIMITS_16: [u64; 6] = [30, 25, 20, 20, 15, 15];
const LIMITS_8: [u64; 6] = [25, 20, 15, 15, 15, 10];

/// The sender's bit: P/Q clocks.
#[derive(Clone, Copy, Debug)]
pub struct Bit {
    pub p: u64,
    pub q: u64,
}

impl Bit {
    /// Clocks of the sender's frame up to the end of its first stop bit: the first t with t * Q >= (D + 2) * P.
    pub fn frame_clocks(&self, format: &Format) -> u64 {
        ((format.word_bits() as u64 + 2) * self.p).div_ceil(self.q)
    }

    /// The level that the frame of a word shows t clocks after its start.
    pub fn level(&self, word: u16, format: &Format, t: u64) -> bool {
        let bits = word << 1 | 1 << (format.word_bits() + 1);
        bits >> (t * self.q / self.p) & 1 == 1
    }
}

/// The limit of the rate error for a format.
pub fn rate_limit(format: &Format) -> u64 {
    let limits = if format.double_speed {
        LIMITS_8
    } else {
        LIMITS_16
    };
    limits[format.word_bits() as usize - 5]
}

/// The shortest and the longest bit within the limit: |N - P| * 1000 <= r * P.
pub fn bits_at_limit(format: &Format, ubrr: u16, q: u64) -> [Bit; 2] {
    let n = format.ticks() as u64 * (ubrr as u64 + 1) * q;
    let r = rate_limit(format);
    let shortest = (1000 * n).div_ceil(1000 + r);
    let longest = 1000 * n / (1000 - r);
    [Bit { p: shortest, q }, Bit { p: longest, q }]
}

/// Marked case M9: 1,577 and 1,624 are the outermost P within the limit.
pub fn check_m9() -> Result<(), String> {
    let format = Format {
        data_bits: 9,
        ..Format::RESET
    };
    match bits_at_limit(&format, 0, 100) {
        [Bit { p: 1577, .. }, Bit { p: 1624, .. }] => Ok(()),
        other => Err(format!("M9: limits are {other:?}")),
    }
}

/// The thirty formats at both speeds.
pub fn all_formats() -> Vec<Format> {
    let mut formats = Vec::new();
    for data_bits in 5..=9 {
        for parity in [Parity::Off, Parity::Even, Parity::Odd] {
            for (two_stops, double_speed) in
                [(false, false), (false, true), (true, false), (true, true)]
            {
                formats.push(Format {
                    data_bits,
                    parity,
                    two_stops,
                    double_speed,
                });
            }
        }
    }
    formats
}
