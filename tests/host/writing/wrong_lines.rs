//! Writers that are wrong about the text of items in range, each with the part that has to see it.

use crate::means::{raw_line, Raw, Writer, WRITER};
use crate::wrong::WrongWriter;
use crate::{examples, item_bytes, laws, lists};

#[rustfmt::skip] // a line each
pub const WRONG_LINES: [WrongWriter; 21] = [
    ("no first line for an empty list", text(no_first_line_alone), examples::PART),
    ("no first line", text(|lines| lines.concat()), laws::PART),
    ("the first line without its LF", text(|lines| format!("chime\t1{}", lines.concat())), laws::PART),
    ("the last LF is missing", text(|lines| (WRITER.text)(lines).trim_end().to_string()), laws::PART),
    ("CR before LF", text(|lines| (WRITER.text)(lines).replace('\n', "\r\n")), laws::PART),
    ("spaces for tabs", text(|lines| (WRITER.text)(lines).replace('\t', " ")), laws::PART),
    ("equal neighbours are one", text(equal_are_one), examples::PART),
    ("the last item first", text(|lines| format!("chime\t1\n{}", lines.iter().rev().cloned().collect::<String>())),
        lists::PART),
    ("value and answer exchanged", line(|raw| format_call(raw, [raw.short.into(), raw.byte.into(), raw.long])),
        examples::PART),
    ("address and value exchanged", line(|raw| format_call(raw, [raw.long, raw.short.into(), raw.byte.into()])),
        examples::PART),
    ("vector and answer exchanged", line(|raw| of(b'A', raw, format!("A\t{}\t{}\n", raw.byte, raw.short))),
        examples::PART),
    ("levels and clocks exchanged", line(|raw| of(b'C', raw, format!("C\t{}\t{}\n", raw.long, raw.byte))),
        examples::PART),
    ("A with a value", line(|raw| of(b'A', raw, format!("A\t{}\t0\t{}\n", raw.short, raw.byte))), examples::PART),
    ("R is written as W", line(|raw| raw_line(raw).replace('R', "W")), examples::PART),
    ("leading zeros", line(|raw| with_numbers(raw, |number| format!("{number:0>2}"))), examples::PART),
    ("a 0 is left out", line(|raw| with_numbers(raw, |number| number.trim_start_matches('0').to_string())),
        examples::PART),
    ("zeros at the end are left out", line(|raw| with_numbers(raw, |number| without_zeros(&number))), item_bytes::PART),
    ("nine digits only", line(|raw| with_numbers(raw, |number| number[number.len().saturating_sub(9)..].to_string())),
        lists::PART),
    ("a power of ten has a digit fewer", line(|raw| with_numbers(raw, |number| power_of_ten(&number))), lists::PART),
    ("clocks in 31 bits and a sign", line(|raw| of(b'C', raw, format!("C\t{}\t{}\n", raw.byte, raw.long as i32))),
        lists::PART),
    ("clocks with the precision of 24 bits", line(|raw| with_numbers(raw, |number| rounded(&number))), lists::PART),
];

const fn text(text: fn(&[String]) -> String) -> Writer {
    Writer { text, ..WRITER }
}

const fn line(line: fn(&Raw) -> String) -> Writer {
    Writer { line, ..WRITER }
}

fn no_first_line_alone(lines: &[String]) -> String {
    if lines.is_empty() {
        return String::new();
    }
    (WRITER.text)(lines)
}

fn equal_are_one(lines: &[String]) -> String {
    let mut lines = lines.to_vec();
    lines.dedup();
    (WRITER.text)(&lines)
}

/// Another line for this letter.
fn of(letter: u8, raw: &Raw, other: String) -> String {
    if raw.letter == letter {
        other
    } else {
        raw_line(raw)
    }
}

/// A read or a write with its three numbers in this order.
fn format_call(raw: &Raw, [first, second, third]: [u32; 3]) -> String {
    let letter = char::from(raw.letter);
    match letter {
        'W' | 'R' => format!("{letter}\t{first}\t{second}\t{third}\n"),
        _ => raw_line(raw),
    }
}

/// Each number of the line written otherwise.
fn with_numbers(raw: &Raw, other: fn(String) -> String) -> String {
    let line = raw_line(raw);
    let mut fields = line.trim_end().split('\t');
    let letter = fields.next().unwrap_or_default().to_string();
    let numbers = fields.map(|number| format!("\t{}", other(number.to_string())));
    letter + &numbers.collect::<String>() + "\n"
}

fn without_zeros(number: &str) -> String {
    let digits = number.trim_end_matches('0');
    if digits.is_empty() { number } else { digits }.to_string()
}

/// As where the digits are counted by a comparison that should have been the other one.
fn power_of_ten(number: &str) -> String {
    match number.strip_prefix('1') {
        Some(zeros) if zeros.len() > 1 && zeros.bytes().all(|byte| byte == b'0') => {
            zeros.to_string()
        }
        _ => number.to_string(),
    }
}

fn rounded(number: &str) -> String {
    number
        .parse::<f32>()
        .map_or(String::new(), |number| (number as u64).to_string())
}
