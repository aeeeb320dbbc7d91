//! Ways to lend a text that are wrong about buffer, number or length, each with the part that has to see it. Writer and
//! shrink get each of them.

use crate::means::{done, put, refused};
use crate::memory::{After, Before};
use crate::wrong::WrongPut;
use crate::{examples, long, nulls, order, sizes};

const FIRST_LINE: &[u8] = b"chime\t1\n";

#[rustfmt::skip] // a line each
pub const WRONG_PUTS: [WrongPut; 28] = [
    ("12 where the text is just as long as the buffer", |b, t| full_is_refused(b, t), examples::PART),
    ("12 only where it is two bytes too long", |b, t| one_more(b, t), sizes::PART),
    ("12 before 9 where the first line has no room", |b, t| room_first(b, t, FIRST_LINE.len()), order::PART),
    ("12 before 9 where there is no buffer", |b, t| room_first(b, t, 1), nulls::PART),
    ("a buffer of no bytes is done", |b, t| no_buffer_is_done(b, t), nulls::PART),
    ("12 has written what goes in", |b, t| on(b, t, 12, |b, t| cut(b, t)), sizes::PART),
    ("12 has written the first line", |b, t| on(b, t, 12, |b, _| first_line(b)), sizes::PART),
    ("12 has written one byte", |b, t| on(b, t, 12, |b, t| cut(b, &t[..1])), sizes::PART),
    ("12 has cleared the buffer", |b, t| on(b, t, 12, |b, _| b.with(&vec![0; b.lent.len()])), sizes::PART),
    ("9 has written the first line", |b, t| on(b, t, 9, |b, _| first_line(b)), order::PART),
    ("9 has cleared the buffer", |b, t| on(b, t, 9, |b, _| b.with(&vec![0; b.lent.len()])), order::PART),
    ("length is left on 9", |b, t| length(b, t, |b, _, number| (number == 9).then_some(b.length)), order::PART),
    ("length is left on 12", |b, t| length(b, t, |b, _, number| (number == 12).then_some(b.length)), sizes::PART),
    ("12 answers the text's length", |b, t| length(b, t, |_, t, number| (number == 12).then_some(t)), sizes::PART),
    ("12 answers the buffer's", |b, t| length(b, t, |b, _, n| (n == 12).then_some(b.lent.len())), sizes::PART),
    ("9 answers the first line's length", |b, t| length(b, t, |_, _, number| (number == 9).then_some(8)), order::PART),
    ("a length that is too short by one", |b, t| length(b, t, |_, t, n| (n == 0).then(|| t - 1)), examples::PART),
    ("a length that is too long by one", |b, t| length(b, t, |_, t, n| (n == 0).then(|| t + 1)), examples::PART),
    ("a length in 16 bits", |b, t| length(b, t, |_, t, n| (n == 0).then_some(t & 65_535)), long::PART),
    ("the last byte is not written", |b, t| on(b, t, 0, |b, t| b.with(&t[..t.len() - 1])), examples::PART),
    ("a NUL past the text", |b, t| on(b, t, 0, |b, t| b.with(&[t, b"\0"].concat())), examples::PART),
    ("a NUL past the text, where it has room", |b, t| on(b, t, 0, |b, t| cut(b, &[t, b"\0"].concat())), sizes::PART),
    ("an LF past the text, where it has room", |b, t| on(b, t, 0, |b, t| cut(b, &[t, b"\n"].concat())), sizes::PART),
    ("the buffer past the text is cleared", |b, t| on(b, t, 0, |b, t| rest_cleared(b, t)), sizes::PART),
    ("the text stands at the buffer's end", |b, t| on(b, t, 0, |b, t| at_the_end(b, t)), sizes::PART),
    ("the input is changed", |b, t| input_changed(b, t), examples::PART),
    ("12 is answered as 9", |b, t| number(b, t, 12, 9), sizes::PART),
    ("9 is answered as 10", |b, t| number(b, t, 9, 10), order::PART),
];

fn full_is_refused(before: &Before, text: Option<&[u8]>) -> After {
    match text {
        Some(text) if text.len() == before.lent.len() => refused(before, 12),
        _ => put(before, text),
    }
}

/// The bytes past the buffer are the caller's.
fn one_more(before: &Before, text: Option<&[u8]>) -> After {
    match text {
        Some(text) if text.len() == before.lent.len() + 1 => done(before, text),
        _ => put(before, text),
    }
}

fn room_first(before: &Before, text: Option<&[u8]>, least: usize) -> After {
    match before.lent.len() < least {
        true => refused(before, 12),
        false => put(before, text),
    }
}

fn no_buffer_is_done(before: &Before, text: Option<&[u8]>) -> After {
    match text {
        Some(_) if before.lent.is_empty() => refused(before, 0),
        _ => put(before, text),
    }
}

/// Another memory where this number is answered.
fn on(
    before: &Before,
    text: Option<&[u8]>,
    number: u8,
    memory: fn(&Before, &[u8]) -> Vec<u8>,
) -> After {
    let right = put(before, text);
    match right.number == number {
        true => After {
            memory: memory(before, text.unwrap_or_default()),
            ..right
        },
        false => right,
    }
}

/// Another length: of memory before, the text's length and the number.
fn length(
    before: &Before,
    text: Option<&[u8]>,
    other: fn(&Before, usize, u8) -> Option<usize>,
) -> After {
    let right = put(before, text);
    let length = other(before, text.map_or(0, <[u8]>::len), right.number);
    After {
        length: length.unwrap_or(right.length),
        ..right
    }
}

fn number(before: &Before, text: Option<&[u8]>, number: u8, other: u8) -> After {
    let right = put(before, text);
    match right.number == number {
        true => After {
            number: other,
            ..right
        },
        false => right,
    }
}

/// As much of the bytes as the buffer takes.
fn cut(before: &Before, bytes: &[u8]) -> Vec<u8> {
    before.with(&bytes[..bytes.len().min(before.lent.len())])
}

fn first_line(before: &Before) -> Vec<u8> {
    cut(before, FIRST_LINE)
}

fn rest_cleared(before: &Before, text: &[u8]) -> Vec<u8> {
    let mut buffer = text.to_vec();
    buffer.resize(before.lent.len(), 0);
    before.with(&buffer)
}

fn at_the_end(before: &Before, text: &[u8]) -> Vec<u8> {
    let rest = before.lent.len() - text.len();
    before.with(&[&before.lent()[..rest], text].concat())
}

fn input_changed(before: &Before, text: Option<&[u8]>) -> After {
    let mut after = put(before, text);
    if !before.input.is_empty() {
        after.memory[before.input.start] ^= 1;
    }
    after
}
