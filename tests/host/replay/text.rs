//! The text of a trace from its items, as M-100 describes it.

use crate::trace::{Item, HEADER};

/// A call that is always answered as recorded and changes nothing: there is no register 0.
pub const NEUTRAL: &[u8] = b"R\t0\t0\t1";
/// A call that is always answered otherwise than recorded, and changes nothing: there is no vector 2.
pub const OTHERWISE: &[u8] = b"A\t2\t200";

pub fn write(items: &[Item]) -> Vec<u8> {
    let mut text = [HEADER, b"\n"].concat();
    for item in items {
        text.extend(line(item).into_bytes());
    }
    text
}

pub fn line(item: &Item) -> String {
    match item {
        Item::Write {
            address,
            value,
            answer,
        } => format!("W\t{address}\t{value}\t{answer}\n"),
        Item::Read {
            address,
            value,
            answer,
        } => format!("R\t{address}\t{value}\t{answer}\n"),
        Item::Vector { vector, answer } => format!("A\t{vector}\t{answer}\n"),
        Item::Clocks { levels, clocks } => format!("C\t{levels}\t{clocks}\n"),
    }
}

/// A text of whole lines, given without their LF.
pub fn of_lines(lines: &[&[u8]]) -> Vec<u8> {
    let mut text = Vec::new();
    for line in lines {
        text.extend_from_slice(line);
        text.push(b'\n');
    }
    text
}
