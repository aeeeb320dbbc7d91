//! Replays that play a line wrongly or on another device, each with the part that has to see it.

use crate::calls::Before;
use crate::model::record::decode;
use crate::model::Device;
use crate::replay::{replay, After, MALFORMED};
use crate::trace::Item;
use crate::wrong::Wrong;
use crate::wrong_walks::{by, is_read, play_clocks, up_to, walk, Answer};
use crate::{examples, recorded, records};

#[rustfmt::skip] // a line each
pub const WRONG_PLAYS: [Wrong; 14] = [
    ("the last line is not played", |b, t| without_last(b, t), examples::PART),
    ("it is not reset first", |b, t| on(b, t, decode(&b.record).unwrap_or(Device::reset())), records::PART),
    ("the SPI is not reset", |b, t| on(b, t, with_old_spi(b)), records::PART),
    ("a clock fewer", |b, t| by(b, t, |i, device| play_clocks(i, device, |n| n - 1)), recorded::PART),
    ("a clock more", |b, t| by(b, t, |i, device| play_clocks(i, device, |n| n + 1)), recorded::PART),
    ("clocks in 8 bits", |b, t| by(b, t, |i, device| play_clocks(i, device, |n| n & 255)), recorded::PART),
    ("clocks in 16 bits", |b, t| by(b, t, |i, device| play_clocks(i, device, |n| n & 65_535)), recorded::PART),
    ("65,535 clocks at most", |b, t| by(b, t, |i, device| play_clocks(i, device, |n| n.min(65_535))), recorded::PART),
    ("levels hold for one clock", |b, t| by(b, t, |i, device| levels_for_one_clock(i, device)), recorded::PART),
    ("SS is always high", |b, t| by(b, t, |i, device| with_levels(i, device, |levels| levels | 16)), recorded::PART),
    ("only RxD and SS are looked at", |b, t| by(b, t, |i, device| with_levels(i, device, |levels| levels & 17)),
        recorded::PART),
    ("R takes nothing away", |b, t| by(b, t, |i, device| on_copy(i, device, is_read(i))), recorded::PART),
    ("R reads twice", |b, t| by(b, t, |i, device| read_twice(i, device)), recorded::PART),
    ("A clears nothing", |b, t| by(b, t, |i, device| on_copy(i, device, matches!(i, Item::Vector { .. }))),
        recorded::PART),
];

/// Plays on another device than that at reset.
fn on(before: &Before, text: &[u8], device: Device) -> After {
    walk(before, text, device, |item, device| {
        item.play(device) == item.recorded()
    })
}

fn with_old_spi(before: &Before) -> Device {
    let old = decode(&before.record).unwrap_or(Device::reset());
    Device {
        spi: old.spi,
        ..Device::reset()
    }
}

/// Only the text before the last line is played.
fn without_last(before: &Before, text: &[u8]) -> After {
    let right = replay(&before.record, text);
    let lines = text.iter().filter(|&&byte| byte == b'\n').count();
    if right.number == MALFORMED || lines < 2 {
        return right;
    }
    replay(&before.record, up_to(text, lines))
}

fn with_levels(item: &Item, device: &mut Device, other: fn(u8) -> u8) -> Answer {
    match *item {
        Item::Clocks { levels, clocks } => Item::Clocks {
            levels: other(levels),
            clocks,
        },
        call => call,
    }
    .play(device)
}

fn levels_for_one_clock(item: &Item, device: &mut Device) -> Answer {
    if let Item::Clocks { levels, clocks } = *item {
        device.clock(levels);
        return Item::Clocks {
            levels: 0,
            clocks: clocks - 1,
        }
        .play(device);
    }
    item.play(device)
}

/// Once for the number and once for the value.
fn read_twice(item: &Item, device: &mut Device) -> Answer {
    let number = item.play(device)?.0;
    if is_read(item) {
        Some((number, item.play(device)?.1))
    } else {
        Some((number, 0))
    }
}

fn on_copy(item: &Item, device: &mut Device, is_copied: bool) -> Answer {
    let mut copy = *device;
    item.play(if is_copied { &mut copy } else { device })
}
