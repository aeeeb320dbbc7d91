//! The list of a trace's calls and answers, as include/warpmagpie.h has it: 'a list of items, eight bytes each, in
//! their order'. The form is the header's ('the list's form is yours'), the ranges are those of document 02, M-100.

use crate::trace::Item;

/// WARPMAGPIE_TRACE_ITEM_LEN.
pub const ITEM_LEN: usize = 8;

/// 'for 'C' the level byte, 0 to 31'.
const LAST_LEVELS: u8 = 31;

/// The items of a list, or none: 'Answers 9 if items_len is no multiple of eight, or a byte of an item is other than is
/// said here.'
pub fn items(list: &[u8]) -> Option<Vec<Item>> {
    let pieces = list.chunks_exact(ITEM_LEN);
    if !pieces.remainder().is_empty() {
        return None;
    }
    pieces.map(item).collect()
}

/// 'byte 0: 'W', 'R', 'A' or 'C''; 'byte 1: the number that was answered; for 'C' the level byte'; 'bytes 2, 3: the
/// address or the vector, 0 to 255, low byte first; for 'C' 0'; 'bytes 4 to 7: the value, 0 to 255, or the clocks, 1 to
/// 4,294,967,295, low byte first; for 'A' 0'.
fn item(bytes: &[u8]) -> Option<Item> {
    let byte_1 = bytes[1];
    let bytes_2_3 = u16::from_le_bytes([bytes[2], bytes[3]]);
    let bytes_4_to_7 = u32::from_le_bytes([bytes[4], bytes[5], bytes[6], bytes[7]]);
    match bytes[0] {
        b'W' => Some(Item::Write {
            address: u8::try_from(bytes_2_3).ok()?,
            value: u8::try_from(bytes_4_to_7).ok()?,
            answer: byte_1,
        }),
        b'R' => Some(Item::Read {
            address: u8::try_from(bytes_2_3).ok()?,
            value: u8::try_from(bytes_4_to_7).ok()?,
            answer: byte_1,
        }),
        b'A' if bytes_4_to_7 == 0 => Some(Item::Vector {
            vector: u8::try_from(bytes_2_3).ok()?,
            answer: byte_1,
        }),
        b'C' if byte_1 <= LAST_LEVELS && bytes_2_3 == 0 && bytes_4_to_7 >= 1 => {
            Some(Item::Clocks {
                levels: byte_1,
                clocks: bytes_4_to_7,
            })
        }
        _ => None,
    }
}

pub fn list(items: &[Item]) -> Vec<u8> {
    items.iter().flat_map(bytes).collect()
}

fn bytes(item: &Item) -> [u8; ITEM_LEN] {
    match *item {
        Item::Write {
            address,
            value,
            answer,
        } => [b'W', answer, address, 0, value, 0, 0, 0],
        Item::Read {
            address,
            value,
            answer,
        } => [b'R', answer, address, 0, value, 0, 0, 0],
        Item::Vector { vector, answer } => [b'A', answer, vector, 0, 0, 0, 0, 0],
        Item::Clocks { levels, clocks } => {
            let [first, second, third, fourth] = clocks.to_le_bytes();
            [b'C', levels, 0, 0, first, second, third, fourth]
        }
    }
}
