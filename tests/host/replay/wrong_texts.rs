//! How a wrong reader is made: the right one reads the text as the wrong one takes it.

use crate::calls::Before;
use crate::cost::is_cheap;
use crate::replay::{replay, After};
use crate::text::NEUTRAL;

/// Clocks that a wrong reader may pass: it may go on where the right one stops.
const MOST_CLOCKS: u64 = 1_000_000;

/// The right replay of a text that a wrong reader takes for the one given; of no lines, where it would not end soon.
pub fn of_text(before: &Before, text: impl AsRef<[u8]>) -> After {
    let is_cheap = is_cheap(text.as_ref(), MOST_CLOCKS);
    replay(
        &before.record,
        if is_cheap {
            text.as_ref()
        } else {
            b"chime\t1\n"
        },
    )
}

/// Each line but the first taken otherwise; what stands after the last LF stays.
pub fn of_lines(before: &Before, text: &[u8], take: impl Fn(&[u8]) -> Vec<u8>) -> After {
    let mut lines: Vec<Vec<u8>> = split(text, b'\n');
    let last = lines.len() - 1;
    for line in lines[..last].iter_mut().skip(1) {
        *line = take(line);
    }
    of_text(before, lines.join(&b'\n'))
}

/// Each field of each such line taken otherwise, by the line's letter and the field's place.
pub fn of_fields(
    before: &Before,
    text: &[u8],
    take: impl Fn(u8, usize, &[u8]) -> Vec<u8>,
) -> After {
    of_lines(before, text, |line| {
        let letter = line.first().copied().unwrap_or(0);
        let fields = line.split(|&byte| byte == b'\t').enumerate();
        let taken: Vec<Vec<u8>> = fields
            .map(|(place, field)| take(letter, place, field))
            .collect();
        taken.join(&b'\t')
    })
}

/// Each number taken for another one, where there is one.
pub fn of_numbers(
    before: &Before,
    text: &[u8],
    take: fn(u8, usize, u128) -> Option<u128>,
) -> After {
    of_fields(before, text, |letter, place, field| {
        number(field)
            .and_then(|number| take(letter, place, number))
            .map_or(field.to_vec(), |number| number.to_string().into_bytes())
    })
}

/// A line that does nothing, where it is passed over.
pub fn passed_over(line: &[u8], is_passed_over: bool) -> Vec<u8> {
    if is_passed_over { NEUTRAL } else { line }.to_vec()
}

pub fn split(text: &[u8], at: u8) -> Vec<Vec<u8>> {
    text.split(|&byte| byte == at).map(<[u8]>::to_vec).collect()
}

/// A decimal that has no leading zero.
fn number(field: &[u8]) -> Option<u128> {
    let text = std::str::from_utf8(field).ok()?;
    let number: u128 = text.parse().ok()?;
    (number.to_string() == text).then_some(number)
}
