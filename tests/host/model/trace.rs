//! The text of a bench trace, from the words of document 02, M-100, alone. A line is taken whole, its fields are pieces
//! of it, and a decimal is what its number is written as.

use std::ops::RangeInclusive;

/// 'The first line is `chime`, tab, `1`, to be compared byte for byte.'
pub const HEADER: &[u8] = b"chime\t1";

/// 'with 1 to 4,294,967,295 clocks'; 'A level byte above 31 .. another number above 255 .. is 9'.
const CLOCKS: RangeInclusive<u64> = 1..=4_294_967_295;
const LEVELS: RangeInclusive<u64> = 0..=31;
const BYTES: RangeInclusive<u64> = 0..=255;

/// A line after the first.
#[derive(Clone, Copy, PartialEq, Debug)]
pub enum Item {
    Write { address: u8, value: u8, answer: u8 },
    Read { address: u8, value: u8, answer: u8 },
    Vector { vector: u8, answer: u8 },
    Clocks { levels: u8, clocks: u32 },
}

/// The items of a text, that of line 2 first, or the first malformed line, from 1. An empty text has no first line, so
/// that its first malformed line is 1, as M-100 says.
pub fn read(text: &[u8]) -> Result<Vec<Item>, usize> {
    let lines: Vec<&[u8]> = text.split_inclusive(|&byte| byte == b'\n').collect();
    if lines.first().and_then(|line| without_lf(line)) != Some(HEADER) {
        return Err(1);
    }
    (2..)
        .zip(&lines[1..])
        .map(|(number, line)| without_lf(line).and_then(item).ok_or(number))
        .collect()
}

/// 'LF after each line'.
fn without_lf(line: &[u8]) -> Option<&[u8]> {
    line.strip_suffix(b"\n")
}

/// '`W` address value answer; `R` address value answer; `A` vector answer; `C` levels clocks'; 'fields parted by one
/// tab'.
fn item(line: &[u8]) -> Option<Item> {
    let fields: Vec<&[u8]> = line.split(|&byte| byte == b'\t').collect();
    match fields[..] {
        [b"W", address, value, answer] => Some(Item::Write {
            address: byte(address)?,
            value: byte(value)?,
            answer: byte(answer)?,
        }),
        [b"R", address, value, answer] => Some(Item::Read {
            address: byte(address)?,
            value: byte(value)?,
            answer: byte(answer)?,
        }),
        [b"A", vector, answer] => Some(Item::Vector {
            vector: byte(vector)?,
            answer: byte(answer)?,
        }),
        [b"C", levels, clocks] => Some(Item::Clocks {
            levels: decimal(levels, LEVELS)? as u8,
            clocks: decimal(clocks, CLOCKS)? as u32,
        }),
        _ => None,
    }
}

fn byte(field: &[u8]) -> Option<u8> {
    decimal(field, BYTES).map(|number| number as u8)
}

/// 'decimals without leading zeros': written again, the number has the very same bytes.
fn decimal(field: &[u8], range: RangeInclusive<u64>) -> Option<u64> {
    let field = std::str::from_utf8(field).ok()?;
    let number: u64 = field.parse().ok()?;
    (number.to_string() == field && range.contains(&number)).then_some(number)
}
