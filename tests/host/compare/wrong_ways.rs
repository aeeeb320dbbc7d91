//! Ways to count split votes (wrong_counts.rs): the right one, and what is wrong on purpose in the others.

use crate::counter::{Ended, Vote, Way};
use crate::model::layout::held::SPLIT_VOTES_LAST;

pub const RIGHT: Way = Way {
    begin: |_| 0,
    vote: counted,
    enter: enter_in_order,
    accept: lose_waiting,
    take: take_oldest,
    answer: |held, _| oldest(held),
};

pub fn oldest(held: &[u8]) -> u8 {
    held.first().map_or(0, |count| *count)
}

pub fn newest(held: &[u8]) -> u8 {
    held.last().map_or(0, |count| *count)
}

pub fn oldest_or(held: &[u8], under_way: Option<u8>) -> u8 {
    held.first().copied().or(under_way).unwrap_or(0)
}

/// One more where these samples of the bit are not all alike.
fn among(samples: &[bool], vote: &Vote) -> u8 {
    vote.count + samples.iter().any(|sample| *sample != samples[0]) as u8
}

fn votes<'a>(vote: &Vote<'a>) -> &'a [bool] {
    &vote.samples[vote.samples.len() - 3..]
}

pub fn counted(vote: &Vote) -> u8 {
    among(votes(vote), vote)
}

pub fn all_but(kind: usize, vote: &Vote) -> u8 {
    if vote.kind == kind {
        vote.count
    } else {
        counted(vote)
    }
}

/// Two of the votes alone, 0 to 2, are looked at.
pub fn of_two([one, other]: [usize; 2], vote: &Vote) -> u8 {
    among(&[votes(vote)[one], votes(vote)[other]], vote)
}

pub fn all_samples(vote: &Vote) -> u8 {
    among(vote.samples, vote)
}

pub fn four_samples(vote: &Vote) -> u8 {
    among(&vote.samples[vote.samples.len() - 4..], vote)
}

pub fn unlike_the_first(vote: &Vote) -> u8 {
    let unlike = |sample: &&bool| **sample != votes(vote)[0];
    vote.count + votes(vote).iter().filter(unlike).count() as u8
}

/// Only bits that are voted to this level are counted.
pub fn voted(high: bool, vote: &Vote) -> u8 {
    let highs = votes(vote).iter().filter(|sample| **sample).count();
    if (highs >= 2) == high {
        counted(vote)
    } else {
        vote.count
    }
}

pub fn after_any(ended: Ended) -> u8 {
    match ended {
        Ended::Completed(count) | Ended::Dropped(count) => count,
    }
}

pub fn after_dropped(ended: Ended) -> u8 {
    match ended {
        Ended::Dropped(count) => count,
        _ => 0,
    }
}

/// M-103: 'with both places full a completed frame waits', behind the two.
pub fn enter_in_order(held: &mut Vec<u8>, count: u8, _: bool) {
    held.push(count);
}

/// The count of a frame that waits takes the second one's place, too.
pub fn enter_over_second(held: &mut Vec<u8>, count: u8, _: bool) {
    held.push(count);
    if held.len() > 2 {
        held[1] = count;
    }
}

pub fn enter_without_waiting(held: &mut Vec<u8>, count: u8, _: bool) {
    held.push(if held.len() < 2 { count } else { 0 });
}

/// M-103: 'an accepted start bit (its last vote) while one waits loses that one'.
fn lose_waiting(held: &mut Vec<u8>, count: u8) -> u8 {
    held.truncate(2);
    count
}

/// The lost frame's count goes to the next one, within the most that there can be.
pub fn hand_on(held: &mut Vec<u8>, count: u8) -> u8 {
    let lost = held.get(2).map_or(0, |count| *count);
    (lose_waiting(held, count) + lost).min(SPLIT_VOTES_LAST)
}

/// The count of the frame that waits takes the second one's place.
pub fn lose_second(held: &mut Vec<u8>, count: u8) -> u8 {
    if held.len() > 2 {
        held.remove(1);
    }
    count
}

pub fn enter_without_dor(held: &mut Vec<u8>, count: u8, dor: bool) {
    enter_in_order(held, if dor { 0 } else { count }, dor);
}

fn take_oldest(held: &mut Vec<u8>) {
    if !held.is_empty() {
        held.remove(0);
    }
}

pub fn take_newest(held: &mut Vec<u8>) {
    held.pop();
}
