//! The model passes one clock at a time, so a damaged text may have its clocks, but not too many of them.

use crate::model::Device;
use crate::trace::{self, Item};

const SHORT: usize = 200;

/// Whether a replay passes no more than so many clocks: none for a malformed text, and none behind the first call
/// answered otherwise.
pub fn is_cheap(text: &[u8], most: u64) -> bool {
    let most_digits = text
        .split(|byte| !byte.is_ascii_digit())
        .map(<[u8]>::len)
        .max();
    // A short text whose numbers have up to three digits need not be read for this.
    most_digits < Some(4) && text.len() < SHORT
        || trace::read(text).map_or(true, |items| plays_cheaply(&items, most))
}

fn plays_cheaply(items: &[Item], most: u64) -> bool {
    let mut device = Device::reset();
    let mut sum = 0;
    for item in items {
        if let Item::Clocks { clocks, .. } = item {
            sum += u64::from(*clocks);
            if sum > most {
                return false;
            }
        }
        if item.play(&mut device) != item.recorded() {
            break;
        }
    }
    true
}
