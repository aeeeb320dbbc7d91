//! Replays whose number, line or record is wrong at the end, each with the part that has to see it.

use crate::calls::Before;
use crate::model::number::{DONE, RECORD};
use crate::model::record::{decode, encode, LENGTH};
use crate::model::Device;
use crate::replay::{replay, After, MALFORMED, OTHERWISE};
use crate::trace::{self, HEADER};
use crate::wrong::Wrong;
use crate::{changed, damage, examples, long, prefixes, records};

#[rustfmt::skip] // a line each
pub const WRONG_ANSWERS: [Wrong; 29] = [
    ("lines count from 0", |b, t| with_line(b, t, |_, line| line.saturating_sub(1)), examples::PART),
    ("lines count from 2", |b, t| with_line(b, t, |n, line| line + usize::from(n != DONE)), examples::PART),
    ("10 counts the calls", |b, t| with_line(b, t, |n, line| line - usize::from(n == OTHERWISE)), changed::PART),
    ("lines in 8 bits", |b, t| with_line(b, t, |_, line| line & 255), long::PART),
    ("lines in 16 bits", |b, t| with_line(b, t, |_, line| line & 65_535), long::PART),
    ("done leaves the line", |b, t| line_left(b, t, DONE), examples::PART),
    ("5 leaves the line", |b, t| line_left(b, t, RECORD), records::PART),
    ("9 leaves the line", |b, t| line_left(b, t, MALFORMED), examples::PART),
    ("10 leaves the line", |b, t| line_left(b, t, OTHERWISE), examples::PART),
    ("5 has line 1", |b, t| with_line(b, t, |n, line| line.max(usize::from(n == RECORD))), records::PART),
    ("done has the last line", |b, t| done_has_last_line(b, t), examples::PART),
    ("an empty text has line 0", |b, t| empty_has_line_0(b, t), examples::PART),
    ("without the last LF a line more", |b, t| without_lf(b, t, |_, line| line + 1), prefixes::PART),
    ("without the last LF line 1", |b, t| without_lf(b, t, |_, line| line.min(1)), prefixes::PART),
    ("9 has the last malformed line", |b, t| last_malformed(b, t), damage::PART),
    ("9 and 10 exchanged", |b, t| with_number(b, t, |n| if n > 8 { 19 - n } else { n }), examples::PART),
    ("10 is done", |b, t| with_number(b, t, |n| if n == OTHERWISE { DONE } else { n }), examples::PART),
    ("9 comes before 5", |b, t| before_5(b, t, MALFORMED), records::PART),
    ("10 comes before 5", |b, t| before_5(b, t, OTHERWISE), records::PART),
    ("a record that is not valid is 5", |b, t| valid_only(b, t), records::PART),
    ("longer records are taken", |b, t| longer(b, t), records::PART),
    ("one byte more is taken", |b, t| if b.record.len() == 65 { longer(b, t) } else { right(b, t) }, records::PART),
    ("one byte too few is taken", |b, t| if b.record.len() == 63 { shorter(b, t) } else { right(b, t) }, records::PART),
    ("5 clears the bytes", |b, t| cleared(b, t), records::PART),
    ("5 resets what there is", |b, t| reset_at_5(b, t), records::PART),
    ("all is refused with 9", |b, _| as_at_reset(b, MALFORMED, 1), examples::PART),
    ("all is done, nothing changed", |b, _| After { number: DONE, line: 0, record: b.record.clone() }, examples::PART),
    ("all is done, as at reset", |b, _| as_at_reset(b, DONE, 0), examples::PART),
    ("a text above 60 bytes is 9", |b, t| right(b, if t.len() > 60 { HEADER } else { t }), changed::PART),
];

fn right(before: &Before, text: &[u8]) -> After {
    replay(&before.record, text)
}

/// The same answer to every text, on 64 bytes.
fn as_at_reset(before: &Before, number: u8, line: usize) -> After {
    if before.record.len() != LENGTH {
        return right(before, b"");
    }
    After {
        number,
        line,
        record: encode(&Device::reset()).to_vec(),
    }
}

fn with_line(before: &Before, text: &[u8], line: fn(u8, usize) -> usize) -> After {
    let after = right(before, text);
    After {
        line: line(after.number, after.line),
        ..after
    }
}

fn empty_has_line_0(before: &Before, text: &[u8]) -> After {
    match text {
        b"" => with_line(before, text, |_, _| 0),
        _ => right(before, text),
    }
}

fn without_lf(before: &Before, text: &[u8], line: fn(u8, usize) -> usize) -> After {
    if text.ends_with(b"\n") {
        return right(before, text);
    }
    with_line(before, text, line)
}

fn with_number(before: &Before, text: &[u8], number: fn(u8) -> u8) -> After {
    let after = right(before, text);
    After {
        number: number(after.number),
        ..after
    }
}

fn line_left(before: &Before, text: &[u8], number: u8) -> After {
    match right(before, text) {
        after if after.number == number => After {
            line: before.line,
            ..after
        },
        after => after,
    }
}

fn done_has_last_line(before: &Before, text: &[u8]) -> After {
    match right(before, text) {
        after if after.number == DONE => After {
            line: text.split(|&byte| byte == b'\n').count() - 1,
            ..after
        },
        after => after,
    }
}

fn last_malformed(before: &Before, text: &[u8]) -> After {
    let after = right(before, text);
    if after.number != MALFORMED || after.line < 2 {
        return after;
    }
    let is_malformed = |line: &[u8]| trace::read(&[b"chime\t1\n", line].concat()).is_err();
    let last = (1..)
        .zip(text.split_inclusive(|&byte| byte == b'\n'))
        .filter(|(number, line)| *number > 1 && is_malformed(line))
        .map(|(number, _)| number)
        .last();
    After {
        line: last.unwrap_or(after.line),
        ..after
    }
}

/// The text's refusal is answered where the record has a wrong length.
fn before_5(before: &Before, text: &[u8], number: u8) -> After {
    match replay(&[0; LENGTH], text) {
        after if after.number == number && before.record.len() != LENGTH => After {
            record: before.record.clone(),
            ..after
        },
        _ => right(before, text),
    }
}

fn valid_only(before: &Before, text: &[u8]) -> After {
    match decode(&before.record) {
        Some(_) => right(before, text),
        None => After {
            number: RECORD,
            line: 0,
            record: before.record.clone(),
        },
    }
}

/// The first 64 bytes are the record.
fn longer(before: &Before, text: &[u8]) -> After {
    if before.record.len() < LENGTH {
        return right(before, text);
    }
    let (record, rest) = before.record.split_at(LENGTH);
    let after = replay(record, text);
    After {
        record: [&after.record[..], rest].concat(),
        ..after
    }
}

/// The bytes that there are.
fn shorter(before: &Before, text: &[u8]) -> After {
    let mut after = replay(&[0; LENGTH], text);
    after.record.truncate(before.record.len());
    after
}

fn cleared(before: &Before, text: &[u8]) -> After {
    match right(before, text) {
        after if after.number == RECORD => After {
            record: vec![0; after.record.len()],
            ..after
        },
        after => after,
    }
}

fn reset_at_5(before: &Before, text: &[u8]) -> After {
    let mut after = right(before, text);
    if after.number == RECORD {
        let reset = encode(&Device::reset());
        after
            .record
            .iter_mut()
            .zip(reset)
            .for_each(|(byte, reset)| *byte = reset);
    }
    after
}
