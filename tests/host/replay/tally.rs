//! What was done in all parts together, and how much of it there has to be.

use crate::history::Seen;
use crate::model::number;
use crate::replay::{After, MALFORMED, OTHERWISE};

/// Texts by their answer.
#[derive(Default, Clone, Copy)]
pub struct Answers {
    pub done: u64,
    pub record: u64,
    pub malformed: u64,
    pub otherwise: u64,
}

#[derive(Default)]
pub struct Tally {
    pub all: Answers,
    pub damaged: Answers,
    /// Damaged texts, malformed at the first line, at the last, and between the two.
    pub malformed_first: u64,
    pub malformed_last: u64,
    pub malformed_between: u64,
    pub recorded: u64,
    pub changed: u64,
    pub seen: Seen,
}

impl Answers {
    pub fn count(&mut self, answer: &After) {
        match answer.number {
            number::DONE => self.done += 1,
            number::RECORD => self.record += 1,
            MALFORMED => self.malformed += 1,
            OTHERWISE => self.otherwise += 1,
            other => unreachable!("the model answers {other}"),
        }
    }

    pub fn sum(&self) -> u64 {
        self.done + self.record + self.malformed + self.otherwise
    }
}

impl Tally {
    pub fn count(&mut self, answer: &After) {
        self.all.count(answer);
    }

    pub fn count_damaged(&mut self, answer: &After, text: &[u8]) {
        self.damaged.count(answer);
        if answer.number != MALFORMED {
            return;
        }
        match answer.line {
            1 => self.malformed_first += 1,
            line if line == lines(text) => self.malformed_last += 1,
            _ => self.malformed_between += 1,
        }
    }

    /// Fails where so little was met that the test would say nothing.
    pub fn complete(&self) -> Result<(), String> {
        let least = [
            ("damaged texts", self.damaged.sum(), 1_000_000),
            ("damaged texts done", self.damaged.done, 150_000),
            ("damaged texts of 9", self.damaged.malformed, 500_000),
            ("damaged texts of 10", self.damaged.otherwise, 150_000),
            ("of 9 at line 1", self.malformed_first, 80_000),
            ("of 9 at the last line", self.malformed_last, 100_000),
            ("of 9 between", self.malformed_between, 200_000),
            ("texts of 5", self.all.record, 1_990),
            ("recorded traces", self.recorded, 12_000),
            ("answers changed", self.changed, 20_000),
            ("frames received", self.seen.frames_received, 10_000),
            ("frames that waited", self.seen.frames_waited, 2_000),
            ("frames moved in", self.seen.frames_moved_in, 500),
            ("frames lost", self.seen.frames_lost, 500),
            ("frames sent", self.seen.frames_sent, 8_000),
            ("SPI bytes", self.seen.spi_bytes, 7_000),
        ];
        for (name, count, least) in least {
            if count < least {
                return Err(format!("{name}: {count}, fewer than {least}"));
            }
        }
        let given = [0, 1, 2, 3, 4, 8];
        match given.iter().find(|&&n| self.seen.numbers[n] < 500) {
            Some(number) => Err(format!("number {number} is in too few recorded traces")),
            None => Ok(()),
        }
    }

    /// So many wrong programs were seen too.
    pub fn print(&self, wrong: usize) {
        let (all, damaged) = (&self.all, &self.damaged);
        println!(
            "replay: {} texts ({} done, {} of 9, {} of 10, {} of 5), of them {} damaged ({} done, {} of 9, {} of 10), \
             {} recorded ({} clocks, {} frames received, of which {} waited, {} moved in and {} were lost, {} sent, \
             {} SPI bytes), {} with an answer changed: no difference; {wrong} wrong programs seen",
            all.sum(),
            all.done,
            all.malformed,
            all.otherwise,
            all.record,
            damaged.sum(),
            damaged.done,
            damaged.malformed,
            damaged.otherwise,
            self.recorded,
            self.seen.clocks,
            self.seen.frames_received,
            self.seen.frames_waited,
            self.seen.frames_moved_in,
            self.seen.frames_lost,
            self.seen.frames_sent,
            self.seen.spi_bytes,
            self.changed
        );
    }
}

fn lines(text: &[u8]) -> usize {
    text.split_inclusive(|&byte| byte == b'\n').count()
}
