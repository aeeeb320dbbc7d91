//! What reads of UDR0 have to find on a line (document 02, M-103), by counting alone. A time is a number of clocks that
//! have passed. A frame is there from its completion on, and it is lost exactly if, when the next start is accepted,
//! two frames before it are unread: then both places are full, and it still waits. The reads take the frames that are
//! not lost one after the other, each if it is there. A frame carries DOR exactly if the one before it is lost, or a
//! loss was pending at first.

use crate::frames::Frame;
use crate::late_tally::LateTally;
use crate::noisy_lines::Sent;

/// 'The buffer holds two frames' (document 01).
const PLACES: usize = 2;

/// A frame, and the times from which on its first low sample is taken, its start is accepted, and it is there.
pub struct Due {
    frame: Frame,
    begun: usize,
    accepted: usize,
    there: usize,
}

impl Due {
    /// One that is held, or waits, at first.
    pub fn at_first(frame: Frame) -> Due {
        Due {
            frame,
            begun: 0,
            accepted: 0,
            there: 0,
        }
    }

    /// A clock with a number, from 0, has passed from the next number of clocks on.
    pub fn of(sent: &Sent) -> Due {
        Due {
            frame: sent.frame,
            begun: sent.first as usize + 1,
            accepted: sent.accepted + 1,
            there: sent.completes + 1,
        }
    }
}

pub struct Reckoning {
    dues: Vec<Due>,
    /// The times of the reads, in order.
    pub reads: Vec<usize>,
    /// The numbers of the frames that are not lost, in order.
    kept: Vec<usize>,
}

impl Reckoning {
    pub fn new(dues: Vec<Due>, reads: Vec<usize>, lost_at_first: bool) -> Reckoning {
        let mut reckoning = Reckoning {
            dues,
            reads,
            kept: Vec::new(),
        };
        reckoning.keep();
        reckoning.mark(lost_at_first);
        reckoning
    }

    /// 'an accepted start bit (its last vote) while one waits loses that one'.
    fn keep(&mut self) {
        for number in 0..self.dues.len() {
            self.kept.push(number);
            // Those at first are all held, or wait, before any start.
            let next = self.dues.get(number + 1).filter(|next| next.accepted > 0);
            if next.is_some_and(|next| self.unread_before_last(next.accepted) >= PLACES) {
                self.kept.pop();
            }
        }
    }

    /// 'and the next frame that completes carries DOR'.
    fn mark(&mut self, lost_at_first: bool) {
        for number in 0..self.dues.len() {
            let is_first = self.dues[number].accepted > 0 && self.at_first() == number;
            let is_after_loss = number > 0 && !self.kept.contains(&(number - 1));
            self.dues[number].frame.dor |= is_after_loss || is_first && lost_at_first;
        }
    }

    /// How many frames there are at first.
    fn at_first(&self) -> usize {
        self.dues.iter().filter(|due| due.accepted == 0).count()
    }

    /// How many kept frames are there at a time.
    fn there(&self, time: usize) -> usize {
        self.kept
            .iter()
            .filter(|&&number| self.dues[number].there <= time)
            .count()
    }

    /// How many of the reads have taken a frame: each takes one if there is one that no read before it took.
    fn taken_by(&self, reads: &[usize]) -> usize {
        reads.iter().fold(0, |taken, &read| {
            taken + (self.there(read) > taken) as usize
        })
    }

    fn reads_before(&self, time: usize) -> &[usize] {
        &self.reads[..self.reads.partition_point(|&read| read < time)]
    }

    /// Of the kept frames before the last, those that no read before this time has taken.
    fn unread_before_last(&self, time: usize) -> usize {
        let taken = self.taken_by(self.reads_before(time));
        (self.kept.len() - 1).saturating_sub(taken)
    }

    /// The oldest frame at a time, after so many reads.
    pub fn oldest(&self, time: usize, reads: usize) -> Option<Frame> {
        let taken = self.taken_by(&self.reads[..reads]);
        let number = *self.kept[..self.there(time)].get(taken)?;
        Some(self.dues[number].frame)
    }

    /// Counts what became of each frame.
    pub fn count(&self, late: &mut LateTally) {
        late.lines += 1;
        for (number, due) in self.dues.iter().enumerate() {
            late.frames += 1;
            let before = self.kept.iter().filter(|&&kept| kept < number).count();
            let unread = |time| before - self.taken_by(self.reads_before(time)).min(before);
            if unread(due.there) < PLACES {
                continue;
            }
            late.waited += 1;
            let next = self.dues.get(number + 1).filter(|next| next.accepted > 0);
            match self.kept.contains(&number) {
                false => late.count_lost(self.is_read_at(next.map(|next| next.accepted))),
                true => late.count_moved_in(&due.frame),
            }
            let Some(next) = next.filter(|next| unread(next.accepted) < PLACES) else {
                continue;
            };
            // The frame was saved before the next start was accepted; how late, the reads before tell.
            late.saved_in_start += (unread(next.begun) >= PLACES) as u64;
            late.saved_at_last_clock += (unread(next.accepted - 1) >= PLACES) as u64;
        }
    }

    /// A read comes right at this time.
    fn is_read_at(&self, time: Option<usize>) -> bool {
        time.is_some_and(|time| self.reads.contains(&time))
    }
}
