//! Rules of docs/RECORD.md on a frame that waits (document 02, M-103), each of which is broken by itself (broken.rs):
//! two are held then, the next start bit is not decided yet, and the bytes are those of a frame, or 0 where none waits.

use crate::broken::{holds_one, receives, Rule};
use crate::model::layout::{self, held};
use crate::model::record::Bytes;
use crate::model::usart::RXEN;
use crate::model::Device;
use crate::random::Random;

pub const RULES: [Rule; 13] = [
    Rule {
        broken_by: "a frame that waits with one held",
        shape: |device| holds_one(device) && !is_accepted(device),
        damage: put_waiting,
    },
    Rule {
        broken_by: "a frame that waits with none held",
        shape: |device| {
            let receiver = &device.usart.receiver;
            receiver.rxen && receiver.oldest.is_none() && !is_accepted(device)
        },
        damage: put_waiting,
    },
    Rule {
        broken_by: "a frame that waits with the receiver disabled, which holds none",
        shape: |device| waits(device) && !device.usart.receiver.busy(),
        damage: disable,
    },
    Rule {
        broken_by: "a frame that waits past the last vote of the start bit being received",
        shape: |device| waits(device) && device.usart.receiver.busy(),
        damage: |device, bytes, random| {
            let format = &device.usart.format;
            let any = random.between(format.last_vote().into(), format.ticks() as u64 - 1) as u8;
            // As often as not at the last vote itself.
            bytes[layout::SAMPLES] = random.pick(&[format.last_vote(), any]);
            bytes[layout::FIRST_VOTE] = 0;
            bytes[layout::SECOND_VOTE] = 0;
        },
    },
    Rule {
        broken_by: "a frame that waits while a bit behind the start bit is being received",
        shape: |device| waits(device) && device.usart.receiver.busy(),
        damage: |device, bytes, random| {
            let stop_bit = device.usart.format.word_bits() + 1;
            bytes[layout::SAMPLED_BIT] = random.between(1, stop_bit.into()) as u8;
        },
    },
    Rule {
        broken_by: "a frame that waits put behind an accepted start bit",
        shape: |device| device.usart.receiver.second.is_some() && is_accepted(device),
        damage: put_waiting,
    },
    Rule {
        broken_by: "2 frames that wait, or more",
        shape: waits,
        damage: |_, bytes, random| put_above(bytes, layout::FRAME_WAITS, 2, random),
    },
    Rule {
        broken_by: "more marks of a frame that waits than there are",
        shape: waits,
        damage: |_, bytes, random| put_above(bytes, layout::WAITING_FLAGS, held::LIMIT, random),
    },
    Rule {
        broken_by: "13 split votes of a frame that waits, or more",
        shape: waits,
        damage: |_, bytes, random| {
            let least = held::SPLIT_VOTES_LAST + 1;
            put_above(bytes, layout::WAITING_SPLIT_VOTES, least, random)
        },
    },
    Rule {
        broken_by: "data of a frame that waits while none does",
        shape: |device| !waits(device),
        damage: |_, bytes, random| put_up_to(bytes, layout::WAITING_DATA, 255, random),
    },
    Rule {
        broken_by: "marks of a frame that waits while none does",
        shape: |device| !waits(device),
        damage: |_, bytes, random| put_up_to(bytes, layout::WAITING_FLAGS, held::LIMIT - 1, random),
    },
    Rule {
        broken_by: "split votes of a frame that waits while none does",
        shape: |device| !waits(device),
        damage: |_, bytes, random| {
            put_up_to(
                bytes,
                layout::WAITING_SPLIT_VOTES,
                held::SPLIT_VOTES_LAST,
                random,
            )
        },
    },
    Rule {
        broken_by: "one held of three, the second left out",
        shape: waits,
        damage: |_, bytes, _| {
            bytes[layout::FRAMES_HELD] = 1;
            for place in [
                layout::SECOND_DATA,
                layout::SECOND_FLAGS,
                layout::SECOND_SPLIT_VOTES,
            ] {
                bytes[place] = 0;
            }
        },
    },
];

fn waits(device: &Device) -> bool {
    device.usart.receiver.waiting.is_some()
}

/// A frame is being received whose start bit is decided.
fn is_accepted(device: &Device) -> bool {
    let last_vote = device.usart.format.last_vote();
    receives(device, |frame| frame.bit > 0 || frame.samples >= last_vote)
}

/// Puts a frame that waits, all of its bytes within their ranges.
fn put_waiting(_: &Device, bytes: &mut Bytes, random: &mut Random) {
    bytes[layout::FRAME_WAITS] = 1;
    bytes[layout::WAITING_DATA] = random.byte();
    bytes[layout::WAITING_FLAGS] = random.below(held::LIMIT.into()) as u8;
    bytes[layout::WAITING_SPLIT_VOTES] = random.between(0, held::SPLIT_VOTES_LAST.into()) as u8;
}

/// Clears RXEN and what it makes 0, but for the frame that waits.
fn disable(_: &Device, bytes: &mut Bytes, _: &mut Random) {
    bytes[layout::UCSR0B] &= !RXEN;
    for place in layout::RECEIVING..layout::WAITING_DATA {
        if place != layout::FRAME_WAITS {
            bytes[place] = 0;
        }
    }
}

/// Puts this value or one above it; as often as not the least.
fn put_above(bytes: &mut Bytes, place: usize, least: u8, random: &mut Random) {
    let any = random.between(least.into(), 255) as u8;
    bytes[place] = random.pick(&[least, any]);
}

/// Puts a value that is not 0, and at most this one.
fn put_up_to(bytes: &mut Bytes, place: usize, most: u8, random: &mut Random) {
    bytes[place] = random.between(1, most.into()) as u8;
}
