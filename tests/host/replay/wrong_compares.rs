//! Replays that compare an answer wrongly, each with the part that has to see it.

use crate::calls::Before;
use crate::model::number::DONE;
use crate::model::Device;
use crate::replay::{replay, After, OTHERWISE};
use crate::trace::{self, Item};
use crate::wrong::Wrong;
use crate::wrong_walks::{is_read, play, walk};
use crate::{changed, examples};

#[rustfmt::skip] // a line each
pub const WRONG_COMPARES: [Wrong; 14] = [
    ("R's value is not compared", |b, t| agreeing(b, t, |_, given, due| given.0 == due.0), changed::PART),
    ("R's number is not compared", |b, t| agreeing(b, t, |i, given, due|
        is_read(i) && given.1 == due.1 || given == due),
        examples::PART),
    ("R's value or number will do", |b, t| agreeing(b, t, |i, given, due|
        is_read(i) && (given.0 == due.0 || given.1 == due.1) || given == due), changed::PART),
    ("a refused R may have any value", |b, t| agreeing(b, t, |_, given, due|
        given.0 == due.0 && (given.0 != DONE || given.1 == due.1)), changed::PART),
    ("an R recorded as refused is not compared", |b, t| agreeing(b, t, |i, given, due|
        is_read(i) && due.0 != DONE || given == due), changed::PART),
    ("W's answer is not compared", |b, t| agreeing(b, t, |i, given, due|
        matches!(i, Item::Write { .. }) || given == due), changed::PART),
    ("A's answer is not compared", |b, t| agreeing(b, t, |i, given, due|
        matches!(i, Item::Vector { .. }) || given == due), changed::PART),
    ("any refusal is like another", |b, t| agreeing(b, t, |_, given, due|
        (given.0 == DONE) == (due.0 == DONE) && given.1 == due.1), changed::PART),
    ("what no call answers is not compared", |b, t| agreeing(b, t, |_, given, due| due.0 > 10 || given == due),
        changed::PART),
    ("answers compared in four bits", |b, t| agreeing(b, t, |_, given, due| given.0 == due.0 & 15 && given.1 == due.1),
        changed::PART),
    ("a refused call is 10", |b, t| agreeing(b, t, |_, given, due| given.0 == DONE && given == due), examples::PART),
    ("nothing is compared after a refused call", |b, t| until(b, t, |number| number != DONE), changed::PART),
    ("nothing is compared after an 8", |b, t| until(b, t, |number| number == 8), changed::PART),
    ("10 gives the last such line", |b, t| last_otherwise(b, t), changed::PART),
];

/// Answers are compared by another rule.
fn agreeing(before: &Before, text: &[u8], agree: fn(&Item, (u8, u8), (u8, u8)) -> bool) -> After {
    walk(before, text, Device::reset(), |item, device| {
        match (play(item, device), item.recorded()) {
            (Some(given), Some(due)) => agree(item, given, due),
            _ => true,
        }
    })
}

/// Nothing is compared after a call with such a number.
fn until(before: &Before, text: &[u8], ends: fn(u8) -> bool) -> After {
    let mut is_over = false;
    walk(before, text, Device::reset(), |item, device| {
        let given = play(item, device);
        let agrees = given == item.recorded() || is_over;
        is_over |= given.is_some_and(|(number, _)| ends(number));
        agrees
    })
}

fn last_otherwise(before: &Before, text: &[u8]) -> After {
    let right = replay(&before.record, text);
    if right.number != OTHERWISE {
        return right;
    }
    let mut device = Device::reset();
    let items = trace::read(text).unwrap_or_default();
    let line = (2..)
        .zip(&items)
        .filter(|(_, item)| play(item, &mut device) != item.recorded())
        .map(|(line, _)| line)
        .last();
    After {
        line: line.unwrap_or(right.line),
        ..right
    }
}
