//! What was done in all parts together, and how much of it there has to be.

use crate::calls::Call;
use crate::pieces::{pieces, Piece};
use crate::shrinking::FULL;
use crate::trace::Item;
use crate::writing::{Answer, DONE, MALFORMED, ROOM};

/// Calls by their answer.
#[derive(Default)]
pub struct Answers {
    pub done: u64,
    pub malformed: u64,
    pub room: u64,
}

/// Damaged inputs, by what the model says of them.
#[derive(Default)]
pub struct Damaged {
    pub well_formed: u64,
    pub malformed: u64,
}

#[derive(Default)]
pub struct Tally {
    pub writes: Answers,
    pub shrinks: Answers,
    pub damaged_texts: Damaged,
    pub damaged_lists: Damaged,
    pub items: u64,
    /// Inputs tried with a buffer of every size, and those of 9 tried so.
    pub sizes: u64,
    pub refused_at_every_size: u64,
    pub nulls: u64,
    /// Random lists, and those whose text a shrink makes shorter.
    pub lists: u64,
    pub lists_shorter: u64,
    /// Their sums of clocks past a full line; of these those of full lines alone, and with one clock more or fewer.
    pub sums: u64,
    pub sums_full: u64,
    pub sums_one_more: u64,
    pub sums_one_fewer: u64,
    pub laws: u64,
    pub least: u64,
    pub long: u64,
    /// Replays as recorded, with an answer changed, and with more clocks at the end than a line holds; of them those of
    /// a text that a shrink makes shorter.
    pub replays_done: u64,
    pub replays_different: u64,
    pub replays_long: u64,
    pub replays_shorter: u64,
}

impl Answers {
    fn count(&mut self, answer: &Answer) {
        match answer.number {
            DONE => self.done += 1,
            MALFORMED => self.malformed += 1,
            ROOM => self.room += 1,
            other => unreachable!("the model answers {other}"),
        }
    }

    fn sum(&self) -> u64 {
        self.done + self.malformed + self.room
    }
}

impl Damaged {
    pub fn count(&mut self, is_well_formed: bool) {
        match is_well_formed {
            true => self.well_formed += 1,
            false => self.malformed += 1,
        }
    }

    fn sum(&self) -> u64 {
        self.well_formed + self.malformed
    }
}

impl Tally {
    pub fn count(&mut self, call: Call, answer: &Answer) {
        match call {
            Call::Write => self.writes.count(answer),
            Call::Shrink => self.shrinks.count(answer),
        }
    }

    /// A random list, and the lengths of its text and of what a shrink leaves of that.
    pub fn count_list(&mut self, items: &[Item], text: usize, shrunk: usize) {
        self.lists += 1;
        self.lists_shorter += (shrunk < text) as u64;
        for piece in pieces(items) {
            match piece {
                Piece::Clocks { sum, .. } if sum > FULL.into() => self.count_sum(sum),
                _ => (),
            }
        }
    }

    fn count_sum(&mut self, sum: u128) {
        let rest = (sum % u128::from(FULL)) as u32;
        self.sums += 1;
        self.sums_full += (rest == 0) as u64;
        self.sums_one_more += (rest == 1) as u64;
        self.sums_one_fewer += (rest == FULL - 1) as u64;
    }

    /// Fails where so little was met that the test would say nothing.
    pub fn complete(&self) -> Result<(), String> {
        let least = self.least();
        match least.iter().find(|(_, count, least)| count < least) {
            Some((name, count, least)) => Err(format!("{name}: {count}, fewer than {least}")),
            None => Ok(()),
        }
    }

    /// What was counted, and how much of it there has to be.
    #[rustfmt::skip] // a line each
    fn least(&self) -> [(&'static str, u64, u64); 25] {
        [
            ("writes done", self.writes.done, 500_000),
            ("writes of 9", self.writes.malformed, 1_500_000),
            ("writes of 12", self.writes.room, 400_000),
            ("shrinks done", self.shrinks.done, 500_000),
            ("shrinks of 9", self.shrinks.malformed, 1_000_000),
            ("shrinks of 12", self.shrinks.room, 400_000),
            ("damaged texts well-formed", self.damaged_texts.well_formed, 300_000),
            ("damaged texts of 9", self.damaged_texts.malformed, 700_000),
            ("damaged lists in range", self.damaged_lists.well_formed, 300_000),
            ("damaged lists of 9", self.damaged_lists.malformed, 700_000),
            ("single items", self.items, 500_000),
            ("inputs at every size", self.sizes, 8_000),
            ("inputs of 9 at every size", self.refused_at_every_size, 8_000),
            ("null pointers", self.nulls, 500),
            ("lists made shorter", self.lists_shorter, 40_000),
            ("sums of full lines", self.sums_full, 12_000),
            ("sums of one more", self.sums_one_more, 6_000),
            ("sums of one fewer", self.sums_one_fewer, 4_000),
            ("texts read back", self.laws, 30_000),
            ("least lengths", self.least, 20_000),
            ("long texts", self.long, 71),
            ("replays as recorded", self.replays_done, 13_000),
            ("replays of 10", self.replays_different, 13_000),
            ("long replays", self.replays_long, 1_500),
            ("replays of texts made shorter", self.replays_shorter, 20_000),
        ]
    }

    /// So many wrong programs were seen too.
    pub fn print(&self, wrong: usize) {
        self.print_calls();
        self.print_inputs();
        println!(
            "writing: {} texts read back and shrunk twice, {} of the least length, {} replayed as recorded, {} with an \
             answer changed, {} with more clocks than a line holds ({} made shorter): no difference; {wrong} wrong \
             programs seen",
            self.laws,
            self.least,
            self.replays_done,
            self.replays_different,
            self.replays_long,
            self.replays_shorter
        );
    }

    fn print_calls(&self) {
        let (writes, shrinks) = (&self.writes, &self.shrinks);
        println!(
            "writing: {} writes ({} done, {} of 9, {} of 12), {} shrinks ({} done, {} of 9, {} of 12)",
            writes.sum(),
            writes.done,
            writes.malformed,
            writes.room,
            shrinks.sum(),
            shrinks.done,
            shrinks.malformed,
            shrinks.room
        );
    }

    fn print_inputs(&self) {
        println!(
            "writing: {} single items, {} inputs with a buffer of every size ({} of 9), {} null pointers, {} lists ({} \
             made shorter, {} sums past a full line), {} damaged texts ({} of 9), {} damaged lists ({} of 9), {} long",
            self.items,
            self.sizes + self.refused_at_every_size,
            self.refused_at_every_size,
            self.nulls,
            self.lists,
            self.lists_shorter,
            self.sums,
            self.damaged_texts.sum(),
            self.damaged_texts.malformed,
            self.damaged_lists.sum(),
            self.damaged_lists.malformed,
            self.long
        );
    }
}
