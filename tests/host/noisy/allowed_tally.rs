//! What was done on lines with allowed noise (allowed_noise.rs), and with more than that, and the rows of the table
//! that tell it.

use crate::allowed_lines::AllowedLine;
use crate::playing::Played;
use crate::tally::print_row;
use crate::votes::{kind_of, BITS, COUNTS, STOP};

/// Numbers that must be reached: frames in all, those with each number of bits hit, those of each speed and D with all
/// bits hit, hits of each vote of each kind of bit at each speed, stop bits hit right before a start, frames that
/// waited, votes watched and hits among them, calls between clocks, and bits of each kind broken by one hit more at
/// each speed.
const FRAMES: u64 = 100_000;
const WITH_EACH_NUMBER: u64 = 2_000;
const WITH_ALL: u64 = 500;
const HITS: u64 = 2_000;
const BEFORE_STARTS: u64 = 100;
const WAITED: u64 = 5_000;
const VOTES_WATCHED: u64 = 50_000;
const HITS_WATCHED: u64 = 5_000;
const OTHER_CALLS: u64 = 10_000;
const BROKEN: u64 = 60;

/// Normal and double speed.
const SPEEDS: usize = 2;
/// D is 5 to 10.
const LEAST_D: usize = 5;
const DS: usize = 6;

/// What one hit more breaks, by the kind of bit.
const BROKEN_AS: [&str; 4] = [
    "two votes, start bit: dropped",
    "two votes, data bit: other data",
    "two votes, parity bit: UPE",
    "two votes, stop bit: FE",
];

#[derive(Default)]
pub struct AllowedTally {
    /// Frames by the number of bits hit, and by speed and D those with all of them hit.
    frames: [u64; COUNTS],
    with_all: [[u64; DS]; SPEEDS],
    /// By speed, kind of bit and vote.
    hits: [[[u64; 3]; 4]; SPEEDS],
    /// Stop bits hit whose last vote is the last sample before the next frame's first one.
    before_starts: u64,
    waited: u64,
    /// Lines with more frames than those of all formats, and lines with a larger UBRR.
    pub long_lines: u64,
    pub larger_ubrr: u64,
    pub votes_watched: u64,
    pub hits_watched: u64,
    /// Calls that stood between clocks, beside reads and looks.
    pub other_calls: u64,
    /// Bits with one hit more, by speed and kind of bit: each broke its frame as it had to.
    pub broken: [[u64; 4]; SPEEDS],
    /// The last vote of a stop bit turned over: the next frame was lost, or another was found within it, or it came out
    /// since a tick came before its start.
    pub stop_votes_lost: u64,
    pub stop_votes_garbled: u64,
    pub stop_votes_harmless: u64,
}

impl AllowedTally {
    /// Counts a line and what came out of it.
    pub fn count(&mut self, line: &AllowedLine, played: &Played) {
        let format = &line.noisy.format;
        let speed = format.double_speed as usize;
        for chosen in &line.chosen {
            self.frames[chosen.hits.len()] += 1;
            let is_all = chosen.hits.len() as u64 == line.noisy.voted_bits();
            self.with_all[speed][format.word_bits() as usize - LEAST_D] += is_all as u64;
            for hit in &chosen.hits {
                self.hits[speed][kind_of(hit.bit as u8, format)][hit.vote] += 1;
            }
        }
        self.before_starts += line.stop_bits_hit_before_starts();
        self.waited += played.waited;
    }

    fn all_frames(&self) -> u64 {
        self.frames.iter().sum()
    }

    fn hits_of(&self, kind: usize, vote: usize) -> [u64; SPEEDS] {
        self.hits.map(|hits| hits[kind][vote])
    }

    /// The least of each kind of numbers, and what it has to reach.
    fn leasts(&self) -> [(&str, u64, u64); 15] {
        let votes = (0..BITS.len()).flat_map(|kind| (0..3).map(move |vote| (kind, vote)));
        let allowed = votes.filter(|&place| place != (STOP, 2));
        let hits = allowed.flat_map(|(kind, vote)| self.hits_of(kind, vote));
        [
            ("frames", self.all_frames(), FRAMES),
            ("with a number", least(self.frames), WITH_EACH_NUMBER),
            ("with all bits hit", least(self.with_all.concat()), WITH_ALL),
            ("hits of a vote", least(hits), HITS),
            ("before starts", self.before_starts, BEFORE_STARTS),
            ("frames that waited", self.waited, WAITED),
            ("long lines", self.long_lines, 1),
            ("lines with a larger UBRR", self.larger_ubrr, 1),
            ("votes watched", self.votes_watched, VOTES_WATCHED),
            ("hits watched", self.hits_watched, HITS_WATCHED),
            ("other calls", self.other_calls, OTHER_CALLS),
            ("bits broken", least(self.broken.concat()), BROKEN),
            ("lost by a stop bit", self.stop_votes_lost, 1),
            ("garbled by a stop bit", self.stop_votes_garbled, 1),
            ("not by a stop bit", self.stop_votes_harmless, 1),
        ]
    }

    pub fn complete(&self) -> Result<(), String> {
        if self.hits_of(STOP, 2) != [0; SPEEDS] {
            return Err("the last vote of a stop bit was turned over".to_string());
        }
        let leasts = self.leasts();
        match leasts.iter().find(|(_, count, enough)| count < enough) {
            Some((name, count, _)) => Err(format!("allowed noise, {name}: only {count}")),
            None => Ok(()),
        }
    }

    pub fn print(&self) {
        print_row("frames with allowed noise", self.all_frames());
        for (hits, &count) in self.frames.iter().enumerate() {
            print_row(&format!(".. in {hits} bits"), count);
        }
        print_row(".. in all bits", self.with_all.concat().iter().sum());
        print_row(".. that waited", self.waited);
        for (kind, name) in BITS.iter().enumerate() {
            for vote in 0..3 {
                let name = format!("allowed noise, {name} bit, vote {}", vote + 1);
                print_row(&name, self.hits_of(kind, vote).iter().sum());
            }
        }
        print_row("stop bits hit, no tick to a start", self.before_starts);
        for (kind, name) in BROKEN_AS.iter().enumerate() {
            print_row(name, self.broken.iter().map(|broken| broken[kind]).sum());
        }
        let rows = [
            ("long lines with allowed noise", self.long_lines),
            ("lines with a larger UBRR", self.larger_ubrr),
            ("votes seen in the record", self.votes_watched),
            (".. turned over", self.hits_watched),
            ("calls between clocks with noise", self.other_calls),
            ("stop's last vote: next frame lost", self.stop_votes_lost),
            (".. another found within it", self.stop_votes_garbled),
            (".. no harm, a tick between", self.stop_votes_harmless),
        ];
        for (name, count) in rows {
            print_row(name, count);
        }
    }
}

fn least(counts: impl IntoIterator<Item = u64>) -> u64 {
    counts.into_iter().min().unwrap_or(0)
}
