//! What was done on lines whose frames are read late (late_reads.rs), and the rows of the table that tell it.

use crate::frames::Frame;
use crate::tally::print_row;

#[derive(Default)]
pub struct LateTally {
    pub lines: u64,
    /// Frames on them, and those held or waiting at first.
    pub frames: u64,
    /// Those that waited.
    pub waited: u64,
    /// Those of them that a read moved in, and of these those with each mark: FE, UPE, DOR, split votes.
    moved_in: u64,
    with: [u64; 4],
    /// Moved in between the first low sample and the last vote of the next start bit, or right before that vote.
    pub saved_in_start: u64,
    pub saved_at_last_clock: u64,
    /// Those lost, and of these the ones with a read right after the vote.
    lost: u64,
    too_late: u64,
    pub false_starts: u64,
}

impl LateTally {
    pub fn count_lost(&mut self, is_too_late: bool) {
        self.lost += 1;
        self.too_late += is_too_late as u64;
    }

    pub fn count_moved_in(&mut self, frame: &Frame) {
        self.moved_in += 1;
        let carries = [frame.fe, frame.upe, frame.dor, frame.split_votes > 0];
        for (count, carries) in self.with.iter_mut().zip(carries) {
            *count += carries as u64;
        }
    }

    fn rows(&self) -> [(&str, u64); 13] {
        let [fe, upe, dor, split_votes] = self.with;
        [
            ("lines read late", self.lines),
            ("frames of lines read late", self.frames),
            (".. that waited", self.waited),
            (".. and were moved in", self.moved_in),
            (".. with FE", fe),
            (".. with UPE", upe),
            (".. with DOR", dor),
            (".. with split votes", split_votes),
            (".. in the next start bit", self.saved_in_start),
            (".. a clock before its last vote", self.saved_at_last_clock),
            (".. and were lost", self.lost),
            (".. with a read right after the vote", self.too_late),
            ("false starts on lines read late", self.false_starts),
        ]
    }

    /// All must have been met.
    pub fn complete(&self) -> Result<(), String> {
        match self.rows().iter().find(|(_, count)| *count == 0) {
            Some((name, _)) => Err(format!("none of these: {name}")),
            None => Ok(()),
        }
    }

    pub fn print(&self) {
        for (name, count) in self.rows() {
            print_row(name, count);
        }
    }
}
