//! What was done in all parts together, and the table at the end.

use crate::allowed_tally::AllowedTally;
use crate::model::number;
use crate::tally::{print_row, Tally, KINDS};

/// Refusals of calls that stand between the clocks of a line.
const REFUSALS: [u8; 6] = [
    number::UNKNOWN,
    number::RESERVED,
    number::UNMODELLED,
    number::UNDER_WAY,
    number::LEVEL,
    number::UNREQUESTED,
];

#[derive(Default)]
pub struct Totals {
    /// What is counted as in the comparison.
    pub tally: Tally,
    pub allowed: AllowedTally,
    pub wrong_receivers: u64,
}

impl Totals {
    /// Allowed noise must have been met at every vote of every kind of bit, frames that wait, and every refusal that
    /// may stand between the clocks of a line.
    pub fn complete(&self) -> Result<(), String> {
        self.allowed.complete()?;
        self.tally.waits.complete_allowed()?;
        match self.refusals().iter().find(|(_, count)| *count == 0) {
            Some((number, _)) => Err(format!("number {number} was never given")),
            None => Ok(()),
        }
    }

    fn refusals(&self) -> [(u8, u64); 6] {
        REFUSALS.map(|number| (number, self.tally.numbers[number as usize]))
    }

    pub fn print(&self) {
        let tally = &self.tally;
        for (kind, calls) in KINDS.iter().zip(tally.calls) {
            print_row(&format!("calls, {kind}"), calls);
        }
        let rows = [
            ("clocks", tally.clocks),
            ("frames received", tally.frames_received),
            ("frames sent", tally.frames_sent),
            ("SPI bytes", tally.spi_bytes),
            ("wrong counts seen", tally.wrong_counts),
            ("wrong receivers of noise seen", self.wrong_receivers),
            ("two votes turned over, seen", tally.noise.two_turned_over),
        ];
        for (name, count) in rows {
            print_row(name, count);
        }
        tally.waits.print_allowed();
        self.allowed.print();
        for (number, count) in self.refusals() {
            print_row(&format!("refusals with {number}"), count);
        }
    }
}
