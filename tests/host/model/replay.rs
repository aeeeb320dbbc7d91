//! Replay of a bench trace on the model's device, from the words of document 02, M-100, alone.

use crate::model::record::{encode, LENGTH};
use crate::model::{number, Device};
use crate::trace::{self, Item};

/// 'Add new numbers: 9, text malformed ..; 10, a `W`, `R` or `A` answered otherwise than recorded.'
pub const MALFORMED: u8 = 9;
pub const OTHERWISE: u8 = 10;

/// What a replay answers, and the record's bytes after it.
#[derive(Clone, PartialEq, Debug)]
pub struct After {
    pub number: u8,
    pub line: usize,
    pub record: Vec<u8>,
}

/// 'here (for a wrong length alone, as at reset) .. 5 comes first, and what a refusal is not said to answer is 0'; it
/// leaves the bytes, since 9 and 10 are the only refusals that change them. 'Replay starts by a reset'; 'the whole file
/// looked at first'; '9 as at reset'; 'the line of a done replay' is 0.
pub fn replay(record: &[u8], text: &[u8]) -> After {
    if record.len() != LENGTH {
        return After {
            number: number::RECORD,
            line: 0,
            record: record.to_vec(),
        };
    }
    let mut device = Device::reset();
    let (number, line) = match trace::read(text) {
        Err(line) => (MALFORMED, line),
        Ok(items) => match first_otherwise(&mut device, &items) {
            Some(line) => (OTHERWISE, line),
            None => (number::DONE, 0),
        },
    };
    After {
        number,
        line,
        record: encode(&device).to_vec(),
    }
}

/// Plays up to the first line answered otherwise than recorded: '10 leaves the device as after that call'. The items
/// begin at line 2.
fn first_otherwise(device: &mut Device, items: &[Item]) -> Option<usize> {
    (2..)
        .zip(items)
        .find(|(_, item)| item.play(device) != item.recorded())
        .map(|(line, _)| line)
}

impl Item {
    /// Makes the call, or passes the clocks with these levels. Answers number and value: a write and a vector have no
    /// value, clocks have no answer.
    pub fn play(&self, device: &mut Device) -> Option<(u8, u8)> {
        match *self {
            Item::Write { address, value, .. } => Some((device.write(address.into(), value), 0)),
            Item::Read { address, .. } => Some(device.read(address.into())),
            Item::Vector { vector, .. } => Some((device.take_vector(vector), 0)),
            Item::Clocks { levels, clocks } => {
                for _ in 0..clocks {
                    device.clock(levels);
                }
                None
            }
        }
    }

    /// The answer that the bench wrote down. A read is answered by its number and its value, so both have to be those
    /// recorded; 'a refused read .. answers 0'.
    pub fn recorded(&self) -> Option<(u8, u8)> {
        match *self {
            Item::Write { answer, .. } | Item::Vector { answer, .. } => Some((answer, 0)),
            Item::Read { value, answer, .. } => Some((answer, value)),
            Item::Clocks { .. } => None,
        }
    }
}
