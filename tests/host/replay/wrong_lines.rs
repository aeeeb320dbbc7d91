//! Readers that are wrong about lines, fields and letters, each with the part that has to see it.

use crate::trace::HEADER;
use crate::wrong::Wrong;
use crate::wrong_texts::{of_fields, of_lines, of_text, passed_over, split};
use crate::{damage, examples, fields, prefixes, single_bytes};

#[rustfmt::skip] // a line each
pub const WRONG_LINES: [Wrong; 23] = [
    ("the last LF may be missing", |b, t| of_text(b, with_last_lf(t)), prefixes::PART),
    ("what stands after the last LF is passed over", |b, t| of_text(b, up_to_last_lf(t)), prefixes::PART),
    ("a text ends with a NUL", |b, t| of_text(b, split(t, 0).swap_remove(0)), damage::PART),
    ("CR before LF is taken", |b, t| of_lines(b, t, |line| strip(line, b"\r")), examples::PART),
    ("CR is a line's end too", |b, t| of_text(b, exchanged(t, b'\r', b'\n')), single_bytes::PART),
    ("an empty line is passed over", |b, t| of_lines(b, t, |line| passed_over(line, line.is_empty())), examples::PART),
    ("an empty last line is passed over", |b, t| of_text(b, without_empty_end(t)), single_bytes::PART),
    ("a line with # is passed over", |b, t| of_lines(b, t, |l| passed_over(l, l.first() == Some(&b'#'))), damage::PART),
    ("a first line again is passed over", |b, t| of_lines(b, t, |line| passed_over(line, line == HEADER)),
        damage::PART),
    ("an unknown letter is passed over", |b, t| of_lines(b, t, |line| passed_over(line, !is_known(line))),
        fields::PART),
    ("small letters are taken", |b, t| of_fields(b, t, |_, place, field| upper(place, field)), examples::PART),
    ("only a letter's first byte counts", |b, t| of_fields(b, t, |_, place, f| first_byte(place, f)), fields::PART),
    ("X is taken for C", |b, t| of_fields(b, t, |_, place, field| x_for_c(place, field)), single_bytes::PART),
    ("tabs may be doubled", |b, t| of_lines(b, t, |line| without_empty_fields(line)), examples::PART),
    ("a tab may end a line", |b, t| of_lines(b, t, |line| strip(line, b"\t")), examples::PART),
    ("a tab may begin a line", |b, t| of_lines(b, t, |l| l.strip_prefix(b"\t").unwrap_or(l).to_vec()),
        single_bytes::PART),
    ("spaces are tabs", |b, t| of_lines(b, t, |line| exchanged(line, b' ', b'\t')), examples::PART),
    ("a space may end a line", |b, t| of_lines(b, t, |line| strip(line, b" ")), single_bytes::PART),
    ("fields too many are passed over", |b, t| of_lines(b, t, |line| cut_to_fields(line)), damage::PART),
    ("a missing answer is 0", |b, t| of_lines(b, t, |line| with_answer(line)), damage::PART),
    ("missing clocks are 1", |b, t| of_lines(b, t, |line| with_clocks(line)), examples::PART),
    ("W may have no value", |b, t| of_lines(b, t, |line| passed_over(line, line == b"W")), damage::PART),
    ("commas are tabs", |b, t| of_lines(b, t, |line| exchanged(line, b',', b'\t')), single_bytes::PART),
];

fn with_last_lf(text: &[u8]) -> Vec<u8> {
    let mut text = text.to_vec();
    if text.last().is_some_and(|&byte| byte != b'\n') {
        text.push(b'\n');
    }
    text
}

fn up_to_last_lf(text: &[u8]) -> Vec<u8> {
    let end = text.iter().rposition(|&byte| byte == b'\n');
    text[..end.map_or(text.len(), |end| end + 1)].to_vec()
}

fn without_empty_end(text: &[u8]) -> Vec<u8> {
    let end = if text.ends_with(b"\n\n") {
        text.len() - 1
    } else {
        text.len()
    };
    text[..end].to_vec()
}

fn exchanged(text: &[u8], this: u8, that: u8) -> Vec<u8> {
    text.iter()
        .map(|&byte| if byte == this { that } else { byte })
        .collect()
}

fn strip(line: &[u8], end: &[u8]) -> Vec<u8> {
    line.strip_suffix(end).unwrap_or(line).to_vec()
}

fn is_known(line: &[u8]) -> bool {
    line.first().is_some_and(|byte| b"WRAC".contains(byte))
}

fn upper(place: usize, field: &[u8]) -> Vec<u8> {
    if place == 0 {
        field.to_ascii_uppercase()
    } else {
        field.to_vec()
    }
}

fn first_byte(place: usize, field: &[u8]) -> Vec<u8> {
    field[..if place == 0 {
        field.len().min(1)
    } else {
        field.len()
    }]
        .to_vec()
}

fn x_for_c(place: usize, field: &[u8]) -> Vec<u8> {
    if place == 0 && field == b"X" {
        b"C".to_vec()
    } else {
        field.to_vec()
    }
}

fn without_empty_fields(line: &[u8]) -> Vec<u8> {
    let mut fields = split(line, b'\t');
    let last = fields.len() - 1;
    let mut place = 0;
    fields.retain(|field| {
        place += 1;
        !field.is_empty() || place == 1 || place > last
    });
    fields.join(&b'\t')
}

/// Fields of a line by its letter, the letter among them.
fn fields_of(line: &[u8]) -> usize {
    match line.first() {
        Some(b'W' | b'R') => 4,
        _ => 3,
    }
}

fn cut_to_fields(line: &[u8]) -> Vec<u8> {
    let mut fields = split(line, b'\t');
    fields.truncate(fields_of(line));
    fields.join(&b'\t')
}

fn with_answer(line: &[u8]) -> Vec<u8> {
    let is_short = split(line, b'\t').len() + 1 == fields_of(line) && !line.starts_with(b"C");
    [line, if is_short { b"\t0" } else { b"" }].concat()
}

fn with_clocks(line: &[u8]) -> Vec<u8> {
    let is_short = split(line, b'\t').len() == 2 && line.starts_with(b"C\t");
    [line, if is_short { b"\t1" } else { b"" }].concat()
}
