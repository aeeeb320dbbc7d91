//! What stands in record and line before a call: a replay starts by a reset, so none of it may matter.

use crate::calls::Before;
use crate::model::record::{encode, LENGTH};
use crate::model::{address, Device};
use crate::random::Random;

/// Writes that a random valid record has behind it.
const WRITES: u64 = 4;

/// 64 bytes of any kind, and a line that no short text has.
pub fn random_before(random: &mut Random) -> Before {
    let any = random.next() as usize | 1 << 40;
    Before {
        record: random_record(random),
        line: random.pick(&[usize::MAX, any]),
    }
}

/// A valid record, one with a byte damaged, all bits set or clear, or anything.
fn random_record(random: &mut Random) -> Vec<u8> {
    match random.below(8) {
        0 => vec![0xFF; LENGTH],
        1 => vec![0; LENGTH],
        2 => (0..LENGTH).map(|_| random.byte()).collect(),
        3 | 4 => {
            let mut record = valid_record(random);
            record[random.below(LENGTH as u64) as usize] ^= 1 << random.below(8);
            record
        }
        _ => valid_record(random),
    }
}

/// Of a device with other settings than at reset; some of the writes may be refused.
fn valid_record(random: &mut Random) -> Vec<u8> {
    let mut device = Device::reset();
    device.write(address::DDRB, random.byte() | 1);
    for _ in 0..WRITES {
        device.write(random.pick(&address::ALL), random.byte());
    }
    encode(&device).to_vec()
}
