//! Readers that are wrong about a number, each with the part that has to see it.

use crate::wrong::Wrong;
use crate::wrong_texts::{of_fields, of_lines, of_numbers, passed_over};
use crate::{damage, examples, fields, single_bytes};

const LAST_CLOCKS: u128 = 4_294_967_295;

#[rustfmt::skip] // a line each
pub const WRONG_NUMBERS: [Wrong; 29] = [
    ("leading zeros are taken", |b, t| of_fields(b, t, |_, _, field| without_zeros(field)), damage::PART),
    ("one leading zero is taken", |b, t| of_fields(b, t, |_, _, field| without_a_zero(field)), fields::PART),
    ("00 is taken for 0", |b, t| of_fields(b, t, |_, _, f| taken_for(f, b"00", b"0")), fields::PART),
    ("a plus is taken", |b, t| of_fields(b, t, |_, _, f| f.strip_prefix(b"+").unwrap_or(f).to_vec()), fields::PART),
    ("-0 is taken for 0", |b, t| of_fields(b, t, |_, _, f| taken_for(f, b"-0", b"0")), fields::PART),
    ("spaces are passed over", |b, t| of_fields(b, t, |_, _, field| without_spaces(field)), fields::PART),
    ("an empty field is 0", |b, t| of_fields(b, t, |_, _, field| taken_for(field, b"", b"0")), fields::PART),
    ("the colon is a digit", |b, t| of_fields(b, t, |_, place, field| with_colon(place, field)), single_bytes::PART),
    ("bit 7 of a byte is passed over", |b, t| of_fields(b, t, |_, _, f| without_bit_7(f)), single_bytes::PART),
    ("a byte ends at what is no digit", |b, t| of_fields(b, t, |_, place, f| up_to_no_digit(place, f)), fields::PART),
    ("clocks may be 0", |b, t| of_lines(b, t, |line| passed_over(line, has_no_clocks(line))), fields::PART),
    ("clocks of 0 are 1", |b, t| of_numbers(b, t, |letter, place, n| (is_clocks(letter, place) && n == 0).then_some(1)),
        examples::PART),
    ("clocks may be 4294967296", |b, t| of_numbers(b, t, |letter, place, n|
        (is_clocks(letter, place) && n == LAST_CLOCKS + 1).then_some(1)), examples::PART),
    ("clocks cut to 32 bits", |b, t| of_numbers(b, t, |letter, place, n|
        (is_clocks(letter, place) && n > LAST_CLOCKS).then_some(n & LAST_CLOCKS)), fields::PART),
    ("clocks up to 4294967294", |b, t| of_numbers(b, t, |letter, place, n|
        (is_clocks(letter, place) && n == LAST_CLOCKS).then_some(0)), examples::PART),
    ("clocks up to 2147483647", |b, t| of_numbers(b, t, |letter, place, n|
        (is_clocks(letter, place) && n >= 1 << 31).then_some(0)), fields::PART),
    ("clocks up to 65535", |b, t| of_numbers(b, t, |letter, place, n|
        (is_clocks(letter, place) && n >= 1 << 16).then_some(0)), damage::PART),
    ("numbers cut to 64 bits", |b, t| of_numbers(b, t, |_, _, n| Some(n & u128::from(u64::MAX))), fields::PART),
    ("a long number is the last one", |b, t| of_numbers(b, t, |letter, place, n|
        (!is_clocks(letter, place) && n > 255).then_some(255)), examples::PART),
    ("bytes cut to 8 bits", |b, t| of_numbers(b, t, |letter, place, n|
        (!is_clocks(letter, place)).then_some(n & 255)), damage::PART),
    ("256 as a value of W", |b, t| of_numbers(b, t, |letter, place, n|
        (letter == b'W' && place == 2 && n == 256).then_some(0)), fields::PART),
    ("256 as a value of R", |b, t| of_numbers(b, t, |letter, place, n|
        (letter == b'R' && place == 2 && n == 256).then_some(0)), fields::PART),
    ("256 as an answer", |b, t| of_numbers(b, t, |letter, place, n|
        (is_answer(letter, place) && n == 256).then_some(0)), fields::PART),
    ("addresses of 16 bits", |b, t| of_numbers(b, t, |letter, place, n|
        (is_address(letter, place) && n > 255 && n < 65_536).then_some(0)), examples::PART),
    ("a vector above 255", |b, t| of_numbers(b, t, |letter, place, n|
        (letter == b'A' && place == 1 && n > 255).then_some(255)), examples::PART),
    ("levels may be 32", |b, t| of_numbers(b, t, |letter, place, n|
        (letter == b'C' && place == 1 && n == 32).then_some(0)), examples::PART),
    ("levels cut to five bits", |b, t| of_numbers(b, t, |letter, place, n|
        (letter == b'C' && place == 1 && n < 256).then_some(n & 31)), damage::PART),
    ("answers up to 10 only", |b, t| of_numbers(b, t, |letter, place, n|
        (is_answer(letter, place) && n > 10).then_some(1_000)), examples::PART),
    ("addresses of registers only", |b, t| of_numbers(b, t, |letter, place, n|
        (is_address(letter, place) && n < 0x24).then_some(1_000)), examples::PART),
];

fn is_clocks(letter: u8, place: usize) -> bool {
    letter == b'C' && place == 2
}

fn is_address(letter: u8, place: usize) -> bool {
    matches!(letter, b'W' | b'R') && place == 1
}

fn is_answer(letter: u8, place: usize) -> bool {
    matches!((letter, place), (b'W' | b'R', 3) | (b'A', 2))
}

fn has_no_clocks(line: &[u8]) -> bool {
    line.starts_with(b"C\t") && line.ends_with(b"\t0")
}

fn taken_for(field: &[u8], this: &[u8], that: &[u8]) -> Vec<u8> {
    if field == this { that } else { field }.to_vec()
}

fn without_zeros(field: &[u8]) -> Vec<u8> {
    let zeros = field.iter().take_while(|&&byte| byte == b'0').count();
    let is_number = field.iter().all(u8::is_ascii_digit) && !field.is_empty();
    field[if is_number {
        zeros.min(field.len() - 1)
    } else {
        0
    }..]
        .to_vec()
}

fn without_a_zero(field: &[u8]) -> Vec<u8> {
    match field {
        [b'0', rest @ ..] if rest.first().is_some_and(u8::is_ascii_digit) => rest.to_vec(),
        _ => field.to_vec(),
    }
}

fn without_spaces(field: &[u8]) -> Vec<u8> {
    field.iter().copied().filter(|&byte| byte != b' ').collect()
}

fn without_bit_7(field: &[u8]) -> Vec<u8> {
    field.iter().map(|byte| byte & 0x7F).collect()
}

/// A test for digits that goes one too far: the colon is behind 9.
fn with_colon(place: usize, field: &[u8]) -> Vec<u8> {
    let is_number = field.iter().all(|byte| (b'0'..=b':').contains(byte));
    if place == 0 || !is_number || !field.contains(&b':') || field.len() > 9 {
        return field.to_vec();
    }
    let number = field
        .iter()
        .fold(0, |sum, byte| 10 * sum + u64::from(byte - b'0'));
    number.to_string().into_bytes()
}

fn up_to_no_digit(place: usize, field: &[u8]) -> Vec<u8> {
    let digits = field
        .iter()
        .take_while(|byte| byte.is_ascii_digit())
        .count();
    field[..if place > 0 && digits > 0 {
        digits
    } else {
        field.len()
    }]
        .to_vec()
}
