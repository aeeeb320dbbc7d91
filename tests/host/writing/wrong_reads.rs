//! Shrinks that read their text wrongly, each with the part that has to see it.

use crate::means::{Shrinker, SHRINKER};
use crate::trace::{self, Item};
use crate::wrong::WrongShrinker;
use crate::{damaged_texts, examples, long, order, text_bytes};

#[rustfmt::skip] // a line each
pub const WRONG_READS: [WrongShrinker; 18] = [
    ("the last LF may be missing", read(|text| right(&with_lf(text))), examples::PART),
    ("an empty text is one of no lines", read(|text| right(if text.is_empty() { b"chime\t1\n" } else { text })),
        examples::PART),
    ("the first line may be anything", read(|text| right(&[b"chime\t1\n", after_first(text)].concat())),
        text_bytes::PART),
    ("the first line may be missing", read(|text| right(text).or_else(|| right(&[b"chime\t1\n", text].concat()))),
        examples::PART),
    ("a malformed line is passed over", read(|text| right(&lines(text, |line| is_well_formed(line)))), examples::PART),
    ("a malformed call is passed over", read(|text| right(&lines(text, |line|
        is_well_formed(line) || line.starts_with("C")))), examples::PART),
    ("an empty line is passed over", read(|text| right(&lines(text, |line| !line.is_empty()))), examples::PART),
    ("it ends at a malformed line", read(|text| right(up_to_malformed(text))), order::PART),
    ("clocks of 0 are passed over", read(|text| right(&lines(text, |line|
        !(line.starts_with("C\t") && line.ends_with("\t0"))))), examples::PART),
    ("clocks past the last are the last", read(|text| right(&fields(text, |field| most(field, 4_294_967_295)))),
        examples::PART),
    ("clocks cut to 32 bits", read(|text| right(&fields(text, cut_to_32_bits))), text_bytes::PART),
    ("numbers past 255 are 255", read(|text| right(&bytes(text, |field| most(field, 255)))), text_bytes::PART),
    ("levels past 31 are 31", read(|text| right(&levels(text, |field| most(field, 31)))), examples::PART),
    ("leading zeros are taken", read(|text| right(&fields(text, without_zeros))), examples::PART),
    ("a plus is taken", read(|text| right(&fields(text, |field| field.trim_start_matches('+').to_string()))),
        damaged_texts::PART),
    ("CR before LF is taken", read(|text| right(&fields(text, |field| field.trim_end_matches('\r').to_string()))),
        text_bytes::PART),
    ("a text above 65,536 bytes is 9", read(|text| right(text).filter(|_| text.len() <= 65_536)), long::PART),
    ("a text is 9 where its first line is alone", read(|text| right(text).filter(|items| !items.is_empty())),
        examples::PART),
];

const fn read(read: fn(&[u8]) -> Option<Vec<Item>>) -> Shrinker {
    Shrinker { read, ..SHRINKER }
}

fn right(text: &[u8]) -> Option<Vec<Item>> {
    trace::read(text).ok()
}

fn with_lf(text: &[u8]) -> Vec<u8> {
    let lf: &[u8] = if text.ends_with(b"\n") { b"" } else { b"\n" };
    [text, lf].concat()
}

fn after_first(text: &[u8]) -> &[u8] {
    let first = text.split_inclusive(|&byte| byte == b'\n').next();
    &text[first.map_or(0, <[u8]>::len)..]
}

fn is_well_formed(line: &str) -> bool {
    right(format!("chime\t1\n{line}\n").as_bytes()).is_some()
}

/// The first line, and those after it that are kept; a text that is no UTF-8 stays.
fn lines(text: &[u8], is_kept: fn(&str) -> bool) -> Vec<u8> {
    let Ok(string) = std::str::from_utf8(text) else {
        return text.to_vec();
    };
    let kept = string.split_inclusive('\n').enumerate();
    let kept = kept.filter(|(place, line)| {
        *place == 0 || !line.ends_with('\n') || is_kept(line.trim_end_matches('\n'))
    });
    kept.map(|(_, line)| line).collect::<String>().into_bytes()
}

/// The lines before the first malformed one.
pub fn up_to_malformed(text: &[u8]) -> &[u8] {
    let Err(line) = trace::read(text) else {
        return text;
    };
    let lines = text.split_inclusive(|&byte| byte == b'\n');
    &text[..lines.take(line - 1).map(<[u8]>::len).sum()]
}

/// Each field but those of the first line taken otherwise, by letter and place in its line.
fn by_place(text: &[u8], taken_for: impl Fn(&str, usize, &str) -> String) -> Vec<u8> {
    let Ok(string) = std::str::from_utf8(text) else {
        return text.to_vec();
    };
    let mut lines: Vec<String> = string.split('\n').map(str::to_string).collect();
    for line in lines.iter_mut().skip(1) {
        let fields: Vec<&str> = line.split('\t').collect();
        let fields = fields.iter().enumerate();
        let taken =
            fields.map(|(place, field)| taken_for(&line[..line.len().min(1)], place, field));
        *line = taken.collect::<Vec<String>>().join("\t");
    }
    lines.join("\n").into_bytes()
}

fn fields(text: &[u8], taken_for: fn(&str) -> String) -> Vec<u8> {
    by_place(text, |_, _, field| taken_for(field))
}

fn levels(text: &[u8], taken_for: fn(&str) -> String) -> Vec<u8> {
    by_place(text, |letter, place, field| match (letter, place) {
        ("C", 1) => taken_for(field),
        _ => field.to_string(),
    })
}

fn bytes(text: &[u8], taken_for: fn(&str) -> String) -> Vec<u8> {
    by_place(text, |letter, _, field| match letter {
        "C" => field.to_string(),
        _ => taken_for(field),
    })
}

fn most(field: &str, last: u128) -> String {
    match number(field) {
        Some(number) => number.min(last).to_string(),
        None => field.to_string(),
    }
}

fn cut_to_32_bits(field: &str) -> String {
    match number(field) {
        Some(number) => (number as u32).to_string(),
        None => field.to_string(),
    }
}

/// A decimal without leading zeros.
fn number(field: &str) -> Option<u128> {
    let number: u128 = field.parse().ok()?;
    (number.to_string() == field).then_some(number)
}

fn without_zeros(field: &str) -> String {
    let is_number = !field.is_empty() && field.bytes().all(|byte| byte.is_ascii_digit());
    let digits = field.trim_start_matches('0');
    match (is_number, digits) {
        (true, "") => "0".to_string(),
        (true, digits) => digits.to_string(),
        _ => field.to_string(),
    }
}
