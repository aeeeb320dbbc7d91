//! Records with a frame that waits that are taken or refused, wrongly, on purpose (wrong_waits.rs).

use crate::model::layout::{self, held};
use crate::model::receiver::Receiver;
use crate::model::record::{decode, Bytes};
use crate::model::usart::RXEN;
use crate::model::Device;

/// A record that is changed before it is looked at.
pub fn decode_changed(record: &[u8], change: fn(&mut Bytes)) -> Option<Device> {
    let mut bytes = Bytes::try_from(record).ok()?;
    change(&mut bytes);
    decode(&bytes)
}

fn forget_waiting(bytes: &mut Bytes) {
    for place in [
        layout::FRAME_WAITS,
        layout::WAITING_DATA,
        layout::WAITING_FLAGS,
        layout::WAITING_SPLIT_VOTES,
    ] {
        bytes[place] = 0;
    }
}

pub fn forget_with_held(bytes: &mut Bytes, held: u8) {
    if bytes[layout::FRAMES_HELD] == held && bytes[layout::UCSR0B] & RXEN != 0 {
        forget_waiting(bytes);
    }
}

pub fn forget_with_receiver_off(bytes: &mut Bytes) {
    if bytes[layout::UCSR0B] & RXEN == 0 {
        forget_waiting(bytes);
    }
}

/// In the start bit being received, or in a bit behind it.
pub fn forget_in(bytes: &mut Bytes, is_start: bool) {
    let is_receiving = bytes[layout::RECEIVING] == 1;
    if is_receiving
        && bytes[layout::FRAMES_HELD] == 2
        && (bytes[layout::SAMPLED_BIT] == 0) == is_start
    {
        forget_waiting(bytes);
    }
}

pub fn cut_mark(bytes: &mut Bytes) {
    bytes[layout::FRAME_WAITS] = bytes[layout::FRAME_WAITS].min(1);
}

pub fn cut_flags(bytes: &mut Bytes) {
    bytes[layout::WAITING_FLAGS] %= held::LIMIT;
}

pub fn cut_split_votes(bytes: &mut Bytes) {
    let count = &mut bytes[layout::WAITING_SPLIT_VOTES];
    *count = (*count).min(held::SPLIT_VOTES_LAST);
}

/// A byte of a frame that waits is not looked at where none does.
pub fn forget_without(bytes: &mut Bytes, place: usize) {
    if bytes[layout::FRAME_WAITS] == 0 {
        bytes[place] = 0;
    }
}

/// Records of which this holds are refused, too.
pub fn decode_without(record: &[u8], refused: fn(&Receiver) -> bool) -> Option<Device> {
    decode(record).filter(|device| !refused(&device.usart.receiver))
}
