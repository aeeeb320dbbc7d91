//! Calls of a trace with another answer than was recorded.

use crate::random::Random;
use crate::trace::Item;

/// The call with another answer, or another value, or both.
pub fn otherwise(item: Item, random: &mut Random) -> Item {
    match item {
        Item::Write {
            address,
            value,
            answer,
        } => Item::Write {
            address,
            value,
            answer: other(answer, random),
        },
        Item::Vector { vector, answer } => Item::Vector {
            vector,
            answer: other(answer, random),
        },
        Item::Read {
            address,
            value,
            answer,
        } => {
            let changed = random.below(5);
            Item::Read {
                address,
                value: if changed > 1 {
                    other(value, random)
                } else {
                    value
                },
                answer: if changed < 3 {
                    other(answer, random)
                } else {
                    answer
                },
            }
        }
        clocks => clocks,
    }
}

/// Another byte: also what no call answers, and what differs in one bit.
fn other(byte: u8, random: &mut Random) -> u8 {
    let near = byte ^ 1 << random.below(8);
    let given = random.below(11) as u8;
    let any = random.byte();
    let other = random.pick(&[near, given, given, 0, 200, 255, any]);
    if other == byte {
        near
    } else {
        other
    }
}
