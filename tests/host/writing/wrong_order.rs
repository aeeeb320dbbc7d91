//! Writers and shrinks that write, or see that the room is too short, as they go along their input, each with the part
//! that has to see it.

use crate::means::{put, refused, Put, Shrinker, Writer, SHRINKER, WRITER};
use crate::memory::{After, Before};
use crate::shrinking::shrunk;
use crate::writing::written;
use crate::wrong::{WrongShrinker, WrongWriter};
use crate::wrong_reads::up_to_malformed;
use crate::{examples, order, sizes};

#[rustfmt::skip] // a line each
pub const WRONG_WRITE_ORDERS: [WrongWriter; 3] = [
    ("12 before 9 as it goes along the items", write_by(|b, t| room_first(b, t, &of_items_before(b))), order::PART),
    ("9 has written the items before", write_by(|b, t| on(b, t, 9, of_items_before)), order::PART),
    ("12 has written the lines that go", write_by(|b, t| on(b, t, 12, |b| whole_lines(b, t))), sizes::PART),
];

#[rustfmt::skip] // a line each
pub const WRONG_SHRINK_ORDERS: [WrongShrinker; 5] = [
    ("12 before 9 as it goes along the lines", shrink_by(|b, t| room_first(b, t, &of_lines_before(b))), order::PART),
    ("9 has written the lines before", shrink_by(|b, t| on(b, t, 9, of_lines_before)), order::PART),
    ("12 has written the lines that go", shrink_by(|b, t| on(b, t, 12, |b| whole_lines(b, t))), sizes::PART),
    ("12 where the buffer is shorter than the text before", shrink_by(as_long_as_before), examples::PART),
    ("the text before is left past the shrunk one", shrink_by(over_the_text_before), sizes::PART),
];

const fn write_by(put: Put) -> Writer {
    Writer { put, ..WRITER }
}

const fn shrink_by(put: Put) -> Shrinker {
    Shrinker { put, ..SHRINKER }
}

/// The text of the items before the first one that is refused.
fn of_items_before(before: &Before) -> Vec<u8> {
    let list = before.input();
    let lengths = (0..=list.len() / 8).rev();
    let mut texts = lengths.filter_map(|items| written(&list[..8 * items]));
    texts.next().unwrap_or_default()
}

/// The shrunk text of the lines before the first malformed one.
fn of_lines_before(before: &Before) -> Vec<u8> {
    shrunk(up_to_malformed(before.input())).unwrap_or_default()
}

/// As much of a text as goes into the buffer in whole lines.
fn whole_lines(before: &Before, text: Option<&[u8]>) -> Vec<u8> {
    let text = text.unwrap_or_default();
    let cut = &text[..text.len().min(before.lent.len())];
    let end = cut.iter().rposition(|&byte| byte == b'\n');
    cut[..end.map_or(0, |end| end + 1)].to_vec()
}

fn room_first(before: &Before, text: Option<&[u8]>, so_far: &[u8]) -> After {
    match so_far.len() > before.lent.len() {
        true => refused(before, 12),
        false => put(before, text),
    }
}

/// Something is written, if it goes into the buffer, where this number is answered.
fn on(
    before: &Before,
    text: Option<&[u8]>,
    number: u8,
    written: impl Fn(&Before) -> Vec<u8>,
) -> After {
    let right = put(before, text);
    let written = written(before);
    match right.number == number && written.len() <= before.lent.len() {
        true => After {
            memory: before.with(&written),
            ..right
        },
        false => right,
    }
}

fn as_long_as_before(before: &Before, text: Option<&[u8]>) -> After {
    match text {
        Some(_) if before.lent.len() < before.input.len() => refused(before, 12),
        _ => put(before, text),
    }
}

/// The text is copied, if it goes into the buffer, and then shrunk there.
fn over_the_text_before(before: &Before, text: Option<&[u8]>) -> After {
    let right = put(before, text);
    let is_copied = right.number == 0 && before.input.len() <= before.lent.len();
    let shrunk = text.unwrap_or_default();
    match is_copied {
        true => After {
            memory: before.with(&[shrunk, &before.input()[shrunk.len()..]].concat()),
            ..right
        },
        false => right,
    }
}
