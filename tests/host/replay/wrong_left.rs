//! Replays whose 9 or 10 leaves another device, or comes too early, each with the part that has to see it.

use crate::calls::Before;
use crate::model::record::encode;
use crate::model::Device;
use crate::replay::{replay, After, MALFORMED, OTHERWISE};
use crate::trace;
use crate::wrong::Wrong;
use crate::wrong_walks::{by, play, up_to};
use crate::{changed, damage, records};

#[rustfmt::skip] // a line each
pub const WRONG_LEFT: [Wrong; 7] = [
    ("10 leaves the device before the call", |b, t| left(b, t, |played| played.before), changed::PART),
    ("10 leaves the device as at reset", |b, t| left(b, t, |_| Device::reset()), changed::PART),
    ("10 leaves the device at the end", |b, t| left(b, t, |played| played.at_end), changed::PART),
    ("10 leaves the record", |b, t| kept(b, t, OTHERWISE), records::PART),
    ("9 leaves the record", |b, t| kept(b, t, MALFORMED), records::PART),
    ("9 has played the lines before", |b, t| played_up_to_9(b, t), damage::PART),
    ("10 before a malformed line behind it", |b, t| as_it_reads(b, t), damage::PART),
];

/// The devices before the first call answered otherwise, and at the trace's end.
struct Played {
    before: Device,
    at_end: Device,
}

/// 10 leaves another device.
fn left(before: &Before, text: &[u8], choose: fn(&Played) -> Device) -> After {
    let right = replay(&before.record, text);
    if right.number != OTHERWISE {
        return right;
    }
    let mut device = Device::reset();
    let mut played = Played {
        before: device,
        at_end: device,
    };
    for (line, item) in (2..).zip(trace::read(text).unwrap_or_default()) {
        if line == right.line {
            played.before = device;
        }
        play(&item, &mut device);
    }
    played.at_end = device;
    After {
        record: encode(&choose(&played)).to_vec(),
        ..right
    }
}

/// A number that leaves the record, as other refusals do.
fn kept(before: &Before, text: &[u8], number: u8) -> After {
    let right = replay(&before.record, text);
    if right.number == number {
        After {
            record: before.record.clone(),
            ..right
        }
    } else {
        right
    }
}

fn played_up_to_9(before: &Before, text: &[u8]) -> After {
    let right = replay(&before.record, text);
    if right.number != MALFORMED {
        return right;
    }
    let played = by(before, up_to(text, right.line), play);
    After {
        record: played.record,
        ..right
    }
}

fn as_it_reads(before: &Before, text: &[u8]) -> After {
    let right = replay(&before.record, text);
    if right.number != MALFORMED {
        return right;
    }
    let played = by(before, up_to(text, right.line), play);
    if played.number == OTHERWISE {
        played
    } else {
        right
    }
}
