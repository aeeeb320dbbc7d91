//! What wrong replays share: a loop of their own over the items that the right reader gives.

use crate::calls::Before;
use crate::model::number::DONE;
use crate::model::record::{encode, LENGTH};
use crate::model::Device;
use crate::replay::{replay, After, OTHERWISE};
use crate::trace::{self, Item};

/// A wrong program passes no more clocks at a line, since it may go on where the right one stops.
const MOST: u32 = 100_000;

/// Number and value of a call; none for clocks.
pub type Answer = Option<(u8, u8)>;

/// The replay of a text that is well-formed, on 64 bytes, by a loop of its own; any other is the right one's.
pub fn walk(
    before: &Before,
    text: &[u8],
    mut device: Device,
    mut plays: impl FnMut(&Item, &mut Device) -> bool,
) -> After {
    let right = || replay(&before.record, text);
    let Ok(items) = trace::read(text) else {
        return right();
    };
    if before.record.len() != LENGTH {
        return right();
    }
    for (line, item) in (2..).zip(&items) {
        if !plays(item, &mut device) {
            return After {
                number: OTHERWISE,
                line,
                record: encode(&device).to_vec(),
            };
        }
    }
    After {
        number: DONE,
        line: 0,
        record: encode(&device).to_vec(),
    }
}

/// Items are played by another rule.
pub fn by(before: &Before, text: &[u8], play: fn(&Item, &mut Device) -> Answer) -> After {
    walk(before, text, Device::reset(), |item, device| {
        play(item, device) == item.recorded()
    })
}

/// Plays as the right one does, but for clocks without end.
pub fn play(item: &Item, device: &mut Device) -> Answer {
    play_clocks(item, device, |clocks| clocks)
}

/// Plays an item with other clocks.
pub fn play_clocks(item: &Item, device: &mut Device, other: fn(u32) -> u32) -> Answer {
    match *item {
        Item::Clocks { levels, clocks } => Item::Clocks {
            levels,
            clocks: other(clocks.min(MOST)),
        },
        call => call,
    }
    .play(device)
}

/// The lines before a line.
pub fn up_to(text: &[u8], line: usize) -> &[u8] {
    let lines = text.split_inclusive(|&byte| byte == b'\n');
    &text[..lines.take(line - 1).map(<[u8]>::len).sum()]
}

pub fn is_read(item: &Item) -> bool {
    matches!(item, Item::Read { .. })
}
