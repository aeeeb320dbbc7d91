//! Calls for the split votes that are wrong on purpose, in the place of the archive's: on random devices' records, and
//! on damaged ones, each has to be seen.

use crate::call::{compare_by, Call, Calls, SplitVotes, ARCHIVE};
use crate::damage::damaged;
use crate::devices::random_device;
use crate::model::layout::{self, held::SPLIT_VOTES_LAST};
use crate::model::number;
use crate::model::record::{decode, Bytes};
use crate::pair::Pair;
use crate::random::Random;
use crate::tally::Tally;

const WRONG: [(&str, SplitVotes); 12] = [
    ("the count left as it was on a refusal", left_on_refusal),
    ("no refusal", no_refusal),
    ("another number", other_number),
    ("12 refused", twelve_refused),
    ("13 taken as 12", |record, count| {
        thirteen_taken(layout::OLDEST_SPLIT_VOTES, record, count)
    }),
    ("13 of one that waits taken", |record, count| {
        thirteen_taken(layout::WAITING_SPLIT_VOTES, record, count)
    }),
    ("those of one that waits", of_waiting),
    ("a frame held bound by the format", bound_by_format),
    ("more than the bits decided taken", more_than_decided_taken),
    ("a count without its frame taken", without_frame_taken),
    (
        "a count without one that waits taken",
        without_waiting_taken,
    ),
    (
        "one that waits taken with fewer than two held",
        waiting_without_two_taken,
    ),
];

/// Records of which each must be asked.
const ASKS: u64 = 20_000;

/// Answers how many there are; a right one must not be seen.
pub fn all_are_seen(seed: u64) -> Result<u64, String> {
    ask(right, seed).map_err(|text| format!("a call with nothing wrong: {text}"))?;
    for (name, call) in WRONG {
        if ask(call, seed).is_ok() {
            return Err(format!("asks do not see what is wrong with: {name}"));
        }
    }
    Ok(WRONG.len() as u64)
}

fn ask(split_votes: SplitVotes, seed: u64) -> Result<(), String> {
    let mut random = Random::new(seed);
    let calls = Calls {
        split_votes,
        ..ARCHIVE
    };
    for _ in 0..ASKS {
        let pair = Pair::of(random_device(&mut random))?;
        let mut bytes = if random.flip() {
            damaged(&pair, &mut random)
        } else {
            pair.record.to_vec()
        };
        let mut device = decode(&bytes);
        compare_by(
            &calls,
            &mut bytes,
            &mut device,
            Call::SplitVotes,
            &mut Tally::default(),
        )?;
    }
    Ok(())
}

fn right(record: &[u8], count: &mut u8) -> u8 {
    let device = decode(record);
    *count = device.map_or(0, |device| device.split_votes());
    match device {
        Some(_) => number::DONE,
        None => number::RECORD,
    }
}

fn left_on_refusal(record: &[u8], count: &mut u8) -> u8 {
    match decode(record) {
        Some(_) => right(record, count),
        None => number::RECORD,
    }
}

fn no_refusal(record: &[u8], count: &mut u8) -> u8 {
    right(record, count);
    number::DONE
}

fn other_number(record: &[u8], count: &mut u8) -> u8 {
    match right(record, count) {
        number::RECORD => number::UNKNOWN,
        number => number,
    }
}

fn twelve_refused(record: &[u8], count: &mut u8) -> u8 {
    refused_where(|count, _| count == SPLIT_VOTES_LAST, record, count)
}

fn bound_by_format(record: &[u8], count: &mut u8) -> u8 {
    refused_where(|count, voted_bits| count > voted_bits, record, count)
}

/// Refused where this holds of the count and the voted bits of a frame, D + 2.
fn refused_where(holds: fn(u8, u8) -> bool, record: &[u8], count: &mut u8) -> u8 {
    let number = right(record, count);
    let voted_bits = decode(record).map(|device| device.usart.format.word_bits() + 2);
    match voted_bits {
        Some(voted_bits) if holds(*count, voted_bits) => {
            *count = 0;
            number::RECORD
        }
        _ => number,
    }
}

/// The answer on a record that is changed before it is looked at.
fn changed(change: impl Fn(&mut Bytes), record: &[u8], count: &mut u8) -> u8 {
    match Bytes::try_from(record) {
        Ok(mut bytes) => {
            change(&mut bytes);
            right(&bytes, count)
        }
        Err(_) => right(record, count),
    }
}

fn thirteen_taken(place: usize, record: &[u8], count: &mut u8) -> u8 {
    let cut = |byte: &mut u8| *byte -= (*byte == SPLIT_VOTES_LAST + 1) as u8;
    let change = |bytes: &mut Bytes| cut(&mut bytes[place]);
    changed(change, record, count)
}

fn of_waiting(record: &[u8], count: &mut u8) -> u8 {
    let number = right(record, count);
    let waiting = decode(record).and_then(|device| device.usart.receiver.waiting);
    *count = waiting.map_or(*count, |frame| frame.split_votes);
    number
}

fn more_than_decided_taken(record: &[u8], count: &mut u8) -> u8 {
    let change = |bytes: &mut Bytes| {
        if bytes[layout::RECEIVING] == 1 {
            bytes[layout::SPLIT_VOTES] = 0;
        }
    };
    changed(change, record, count)
}

fn without_frame_taken(record: &[u8], count: &mut u8) -> u8 {
    let change = |bytes: &mut Bytes| {
        if bytes[layout::FRAMES_HELD] < 2 {
            bytes[layout::SECOND_SPLIT_VOTES] = 0;
        }
    };
    changed(change, record, count)
}

fn without_waiting_taken(record: &[u8], count: &mut u8) -> u8 {
    let change = |bytes: &mut Bytes| {
        if bytes[layout::FRAME_WAITS] == 0 {
            bytes[layout::WAITING_SPLIT_VOTES] = 0;
        }
    };
    changed(change, record, count)
}

fn waiting_without_two_taken(record: &[u8], count: &mut u8) -> u8 {
    let change = |bytes: &mut Bytes| {
        if bytes[layout::FRAMES_HELD] < 2 && bytes[layout::FRAME_WAITS] == 1 {
            bytes[layout::FRAME_WAITS] = 0;
            bytes[layout::WAITING_DATA..=layout::WAITING_SPLIT_VOTES].fill(0);
        }
    };
    changed(change, record, count)
}
