//! What was done in all parts together, and the table at the end.

use crate::call::Call;
use crate::late_tally::LateTally;
use crate::model::{level, spi, Device};
use crate::votes::{NoiseTally, Votes};
use crate::waits::Waits;

pub const KINDS: [&str; 8] = [
    "reset",
    "write",
    "read",
    "take vector",
    "run",
    "requests",
    "hold",
    "split votes",
];

#[derive(Default)]
pub struct Tally {
    pub calls: [u64; 8],
    pub clocks: u64,
    pub frames_received: u64,
    pub frames_sent: u64,
    pub spi_bytes: u64,
    /// By number; 0 is not a refusal.
    pub numbers: [u64; 9],
    pub damaged_refused: u64,
    pub damaged_accepted: u64,
    /// The least count over the bytes of the record: refusals, and acceptances, with that byte alone damaged.
    pub least_refused: u64,
    pub least_accepted: u64,
    pub line_frames: u64,
    /// Those of them that waited for a place.
    pub line_frames_waited: u64,
    pub wire_frames: u64,
    pub wire_bytes: u64,
    pub rules_broken: u64,
    pub broken_records: u64,
    pub lengths_held: u64,
    /// High clocks after a break: with a high sample among them, and without one.
    pub starts_after_breaks: u64,
    pub breaks_gone_on: u64,
    pub holds_refused: u64,
    pub holds_split: u64,
    pub wrong_holds: u64,
    pub votes: Votes,
    pub noise: NoiseTally,
    pub wrong_counts: u64,
    /// Of frames that wait: in the part under way, and in all random histories.
    pub waits: Waits,
    pub waits_in_histories: Waits,
    pub late: LateTally,
    pub wrong_waits: u64,
}

impl Tally {
    pub fn count_call(&mut self, call: &Call, number: u8) {
        self.calls[call.kind()] += 1;
        self.numbers[number as usize] += 1;
    }

    /// Counts what one clock of the model brought.
    pub fn count_clock(&mut self, before: &Device, after: &Device, level: u8) {
        self.clocks += 1;
        let (old, new) = (&before.usart.receiver, &after.usart.receiver);
        // A clock puts at most one frame to those held and waiting; a frame that moves in later does so by a read.
        let completed = old.oldest.is_none() && new.oldest.is_some()
            || old.second.is_none() && new.second.is_some()
            || old.waiting.is_none() && new.waiting.is_some();
        self.frames_received += completed as u64;
        self.waits.count_clock(old, new);
        // A buffer emptied by a clock has moved to the shifter.
        self.frames_sent +=
            (before.usart.sender.buffer.is_some() && after.usart.sender.buffer.is_none()) as u64;
        // After edge 15 the count goes back to 0 by edge 16, or by SS, or because a master became a slave.
        let master = before.spi.spcr & spi::MSTR != 0;
        let stayed = after.spi.spcr == before.spi.spcr && (master || level & level::SS == 0);
        self.spi_bytes += (before.spi.edges == 15 && after.spi.edges == 0 && stayed) as u64;
        self.votes
            .count_clock(&before.usart, level & level::RXD != 0);
    }

    /// Every refusal must have been met, both ends of a break, split votes of every kind and number, and frames that
    /// wait with all that can become of them.
    pub fn complete(&self) -> Result<(), String> {
        self.votes.complete()?;
        self.noise.complete()?;
        self.waits_in_histories.complete()?;
        self.late.complete()?;
        if self.line_frames_waited == 0 {
            return Err("no frame waited on lines at the limits".to_string());
        }
        if self.starts_after_breaks == 0 || self.breaks_gone_on == 0 {
            return Err("breaks ended all alike".to_string());
        }
        match (1..=8).find(|&number| self.numbers[number] == 0) {
            Some(number) => Err(format!(
                "number {number} was never given: the histories are too short"
            )),
            None => Ok(()),
        }
    }

    pub fn print(&self) {
        for (kind, calls) in KINDS.iter().zip(self.calls) {
            print_row(&format!("calls, {kind}"), calls);
        }
        let rows = [
            ("clocks", self.clocks),
            ("frames received", self.frames_received),
            ("frames sent", self.frames_sent),
            ("SPI bytes", self.spi_bytes),
            ("damaged records refused", self.damaged_refused),
            ("damaged records accepted", self.damaged_accepted),
            ("least refused by one byte alone", self.least_refused),
            ("least accepted by one byte alone", self.least_accepted),
            ("frames on lines at the limits", self.line_frames),
            (".. that waited for a place", self.line_frames_waited),
            ("frames from device to device", self.wire_frames),
            ("SPI bytes from device to device", self.wire_bytes),
            ("rules broken one at a time", self.rules_broken),
            ("records that break one rule", self.broken_records),
            ("lengths held of one device each", self.lengths_held),
            ("starts found after a break", self.starts_after_breaks),
            ("breaks that went on", self.breaks_gone_on),
            ("holds refused", self.holds_refused),
            ("holds split in two", self.holds_split),
            ("wrong holds seen", self.wrong_holds),
            ("wrong counts seen", self.wrong_counts),
            ("wrong waits seen", self.wrong_waits),
        ];
        for (name, count) in rows {
            print_row(name, count);
        }
        self.votes.print();
        self.noise.print();
        self.waits_in_histories.print();
        self.late.print();
        for number in 1..=8 {
            print_row(&format!("refusals with {number}"), self.numbers[number]);
        }
    }
}

pub fn print_row(name: &str, count: u64) {
    println!("{name:34}{count:>12}");
}
