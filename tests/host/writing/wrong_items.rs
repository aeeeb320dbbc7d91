//! Writers that are wrong about what a list's items are, each with the part that has to see it.

use crate::means::{raw, takes, Raw, Writer, WRITER};
use crate::wrong::WrongWriter;
use crate::{damaged_lists, examples, item_bytes, laws, lists, long};

#[rustfmt::skip] // a line each
pub const WRONG_ITEMS: [WrongWriter; 34] = [
    ("a part of an item at the end is passed over", of_list(|list| first(list, list.len() / 8)), examples::PART),
    ("a part of an item is filled up", of_list(|list| first(list, list.len().div_ceil(8))), item_bytes::PART),
    ("an item need not have its last byte", of_list(|list| first(list, (list.len() + 1) / 8)), item_bytes::PART),
    ("an empty list is 9", of_list(|list| whole(list).filter(|raws| !raws.is_empty())), examples::PART),
    ("a list's length in 16 bits", of_list(|list| whole(&list[..list.len() & 65_535])), long::PART),
    ("items counted in 8 bits", of_list(|list| whole(&list[..list.len() & 2_047])), long::PART),
    ("the last item is left out", of_list(|list| whole(&list[..list.len().saturating_sub(8)])), laws::PART),
    ("an item with no letter is passed over", of_list(with_letters), examples::PART),
    ("clocks are joined", of_list(joined), examples::PART),
    ("only the first item is looked at", taking(|raws| raws.first().is_none_or(takes)), damaged_lists::PART),
    ("only the last item is looked at", taking(|raws| raws.last().is_none_or(takes)), damaged_lists::PART),
    ("clocks of 0", taking(|raws| raws.iter().all(|raw| takes(raw) || has_no_clocks(raw))), examples::PART),
    ("level 32", taking(|raws| raws.iter().all(|raw| takes(raw) || has_level_32(raw))), examples::PART),
    ("address from its low byte alone", with(|raw| of(b"WR", raw, short(raw, raw.short & 255))), examples::PART),
    ("vector from its low byte alone", with(|raw| of(b"A", raw, short(raw, raw.short & 255))), examples::PART),
    ("address high byte first", with(|raw| of(b"WRA", raw, short(raw, raw.short.swap_bytes()))), examples::PART),
    ("addresses up to 254", with(|raw| of(b"WR", raw, short(raw, raw.short + u16::from(raw.short == 255)))),
        item_bytes::PART),
    ("value from its low byte alone", with(|raw| of(b"WR", raw, long(raw, raw.long & 255))), examples::PART),
    ("R's value from its low byte alone", with(|raw| of(b"R", raw, long(raw, raw.long & 255))), examples::PART),
    ("value from its low two bytes", with(|raw| of(b"WR", raw, long(raw, raw.long & 65_535))), examples::PART),
    ("value without its last byte", with(|raw| of(b"W", raw, long(raw, raw.long & 0xFF_FFFF))), item_bytes::PART),
    ("A with a value that is not 0", with(|raw| of(b"A", raw, long(raw, 0))), examples::PART),
    ("A with a value of one byte", with(|raw| of(b"A", raw, long(raw, raw.long & !255))), item_bytes::PART),
    ("C with an address that is not 0", with(|raw| of(b"C", raw, short(raw, 0))), examples::PART),
    ("C with an address of one byte", with(|raw| of(b"C", raw, short(raw, raw.short & !255))), item_bytes::PART),
    ("clocks in 16 bits", with(|raw| of(b"C", raw, long(raw, raw.long & 65_535))), lists::PART),
    ("clocks high byte first", with(|raw| of(b"C", raw, long(raw, raw.long.swap_bytes()))), lists::PART),
    ("clocks up to 2147483647", with(|raw| of(b"C", raw, long(raw, up_to(raw.long, 2_147_483_647)))), lists::PART),
    ("clocks up to 4294967294", with(|raw| of(b"C", raw, long(raw, up_to(raw.long, 4_294_967_294)))), examples::PART),
    ("levels cut to five bits", with(|raw| of(b"C", raw, Raw { byte: raw.byte & 31, ..raw })), examples::PART),
    ("levels up to 30", with(|raw| of(b"C", raw, Raw { byte: up_to_30(raw.byte), ..raw })), item_bytes::PART),
    ("answers up to 12 only", with(|raw| of(b"WRA", raw, Raw { letter: known(raw), ..raw })), laws::PART),
    ("small letters", with(|raw| Raw { letter: raw.letter.to_ascii_uppercase(), ..raw }), damaged_lists::PART),
    ("letters without bit 7", with(|raw| Raw { letter: raw.letter & 127, ..raw }), item_bytes::PART),
];

const fn of_list(raws: fn(&[u8]) -> Option<Vec<Raw>>) -> Writer {
    Writer { raws, ..WRITER }
}

const fn taking(takes: fn(&[Raw]) -> bool) -> Writer {
    Writer { takes, ..WRITER }
}

const fn with(taken_for: fn(Raw) -> Raw) -> Writer {
    Writer {
        taken_for,
        ..WRITER
    }
}

/// So many items; what is missing of the last one is 0.
fn first(list: &[u8], count: usize) -> Option<Vec<Raw>> {
    Some(list.chunks(8).take(count).map(raw).collect())
}

fn whole(list: &[u8]) -> Option<Vec<Raw>> {
    (WRITER.raws)(list)
}

fn with_letters(list: &[u8]) -> Option<Vec<Raw>> {
    let mut raws = whole(list)?;
    raws.retain(|raw| b"WRAC".contains(&raw.letter));
    Some(raws)
}

/// As a shrink does, where the sum goes into one line.
fn joined(list: &[u8]) -> Option<Vec<Raw>> {
    let mut all: Vec<Raw> = Vec::new();
    for raw in whole(list)? {
        let levels = |raw: &Raw| (raw.letter, raw.byte, raw.short);
        match all.last_mut() {
            Some(last) if raw.letter == b'C' && levels(last) == levels(&raw) => {
                last.long = last.long.saturating_add(raw.long)
            }
            _ => all.push(raw),
        }
    }
    Some(all)
}

fn has_no_clocks(raw: &Raw) -> bool {
    takes(&long(*raw, 1)) && raw.letter == b'C' && raw.long == 0
}

fn has_level_32(raw: &Raw) -> bool {
    takes(&Raw { byte: 0, ..*raw }) && raw.letter == b'C' && raw.byte == 32
}

/// An item of these letters is taken for the other one.
fn of(letters: &[u8], raw: Raw, other: Raw) -> Raw {
    if letters.contains(&raw.letter) {
        other
    } else {
        raw
    }
}

fn short(raw: Raw, short: u16) -> Raw {
    Raw { short, ..raw }
}

fn long(raw: Raw, long: u32) -> Raw {
    Raw { long, ..raw }
}

/// 0, which is refused, where it is more.
fn up_to(clocks: u32, last: u32) -> u32 {
    if clocks > last {
        0
    } else {
        clocks
    }
}

/// 32, which is refused, for 31.
fn up_to_30(levels: u8) -> u8 {
    if levels == 31 {
        32
    } else {
        levels
    }
}

/// No letter, where the answer is no number of the rig's.
fn known(raw: Raw) -> u8 {
    if raw.byte > 12 {
        0
    } else {
        raw.letter
    }
}
