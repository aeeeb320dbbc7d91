//! What was seen of frames that wait (document 02, M-103), and the rows of the table that tell it. Each frame is
//! counted once where it begins to wait, and at most once for what becomes of it.

use crate::model::number;
use crate::model::receiver::{Received, Receiver};
use crate::model::usart::Usart;
use crate::tally::print_row;

/// Random histories must have had more frames that waited.
const LEAST: u64 = 10_000;

/// What a frame that waits can carry.
const MARKS: [&str; 4] = ["FE", "UPE", "DOR", "split votes"];

#[derive(Default, Clone, Copy)]
pub struct Waits {
    /// Frames that completed with both places full, and those of them that carried each mark.
    pub waited: u64,
    with: [u64; 4],
    /// What became of them: moved in by a read, lost at an accepted start, dropped by RXEN.
    pub moved_in: u64,
    lost: u64,
    dropped: u64,
    /// Moved in by a read between the first low sample and the last vote of the next start.
    moved_in_start: u64,
    /// Start bits voted high while a frame waited.
    false_starts: u64,
    /// UBRR or format changed while a frame waited.
    settings: u64,
}

impl Waits {
    /// Counts what one clock of the model brought.
    #[inline]
    pub fn count_clock(&mut self, before: &Receiver, after: &Receiver) {
        match (&before.waiting, &after.waiting) {
            (None, None) => (),
            (None, Some(frame)) => self.count_waiting(frame),
            (Some(_), None) => self.lost += 1,
            // No frame completes while one waits, so what ends is a start bit.
            (Some(_), Some(_)) => self.false_starts += (before.busy() && !after.busy()) as u64,
        }
    }

    fn count_waiting(&mut self, frame: &Received) {
        self.waited += 1;
        let carries = [frame.fe, frame.upe, frame.dor, frame.split_votes > 0];
        for (count, carries) in self.with.iter_mut().zip(carries) {
            *count += carries as u64;
        }
    }

    /// Counts what a write or read of the model brought, by its number.
    pub fn count_call(&mut self, before: &Usart, after: &Usart, number: u8) {
        if before.receiver.waiting.is_none() || number != number::DONE {
            return;
        }
        let is_set = before.format != after.format || before.ubrr != after.ubrr;
        self.settings += is_set as u64;
        if after.receiver.waiting.is_some() {
            return;
        }
        if !after.receiver.rxen {
            self.dropped += 1;
            return;
        }
        self.moved_in += 1;
        self.moved_in_start += before.receiver.busy() as u64;
    }

    pub fn rows(&self) -> [(String, u64); 11] {
        let [fe, upe, dor, split_votes] = MARKS.map(|mark| format!("waiting frames with {mark}"));
        let [with_fe, with_upe, with_dor, with_split_votes] = self.with;
        [
            ("frames that waited".to_string(), self.waited),
            (fe, with_fe),
            (upe, with_upe),
            (dor, with_dor),
            (split_votes, with_split_votes),
            (
                "waiting frames moved in by a read".to_string(),
                self.moved_in,
            ),
            (".. in the next start bit".to_string(), self.moved_in_start),
            ("waiting frames lost at a start".to_string(), self.lost),
            ("waiting frames dropped by RXEN".to_string(), self.dropped),
            (
                "false starts while a frame waited".to_string(),
                self.false_starts,
            ),
            (
                "settings changed while one waited".to_string(),
                self.settings,
            ),
        ]
    }

    /// All must have been met, and so many frames have waited; none may be counted for two ends.
    pub fn complete(&self) -> Result<(), String> {
        if let Some((name, _)) = self.rows().iter().find(|(_, count)| *count == 0) {
            return Err(format!("random histories had none of these: {name}"));
        }
        if self.waited <= LEAST {
            return Err(format!(
                "in random histories only {} frames waited",
                self.waited
            ));
        }
        let ended = self.moved_in + self.lost + self.dropped;
        if ended > self.waited || self.moved_in_start > self.moved_in {
            return Err(format!(
                "{} frames waited, and {ended} ended to",
                self.waited
            ));
        }
        Ok(())
    }

    pub fn print(&self) {
        for (name, count) in self.rows() {
            print_row(&name, count);
        }
    }
}
