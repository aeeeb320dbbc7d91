//! Readers that are wrong about the first line or the whole text's length, each with the part that has to see it.

use crate::calls::Before;
use crate::model::number::DONE;
use crate::replay::{After, MALFORMED};
use crate::trace::HEADER;
use crate::wrong::Wrong;
use crate::wrong_texts::of_text;
use crate::{damage, examples, long, single_bytes};

#[rustfmt::skip] // a line each
pub const WRONG_FIRST_LINES: [Wrong; 17] = [
    ("its digit is not looked at", |b, t| also(b, t, |l| l.len() == 7 && l.starts_with(b"chime\t")), examples::PART),
    ("only its letters are looked at", |b, t| also(b, t, |l| l.starts_with(b"chime")), examples::PART),
    ("more may follow in it", |b, t| also(b, t, |l| l.starts_with(HEADER)), examples::PART),
    ("its tab is not looked at", |b, t| also(b, t, |l| l.starts_with(b"chime") && l.ends_with(b"1")), examples::PART),
    ("large letters are taken", |b, t| also(b, t, |l| l.eq_ignore_ascii_case(HEADER)), examples::PART),
    ("its length alone counts", |b, t| also(b, t, |l| l.len() == HEADER.len()), single_bytes::PART),
    ("it may be anything", |b, t| also(b, t, |_| true), damage::PART),
    ("it may end with CR", |b, t| also(b, t, |l| l == b"chime\t1\r"), examples::PART),
    ("it may have a mark of Unicode", |b, t| also(b, t, |l| l == b"\xEF\xBB\xBFchime\t1"), examples::PART),
    ("it may have a leading zero", |b, t| also(b, t, |l| l == b"chime\t01"), examples::PART),
    ("it may be without LF", |b, t| of_text(b, if t == HEADER { b"chime\t1\n" } else { t }), examples::PART),
    ("it may be missing", |b, t| without_first_line(b, t), damage::PART),
    ("it has to be followed by a line", |b, t| of_text(b, if t == b"chime\t1\n" { HEADER } else { t }), examples::PART),
    ("an empty text is done", |b, t| of_text(b, if t.is_empty() { b"chime\t1\n" } else { t }), examples::PART),
    ("only 65,536 bytes are looked at", |b, t| of_text(b, &t[..t.len().min(65_536)]), long::PART),
    ("a text above 65,536 bytes is 9", |b, t| of_text(b, if t.len() > 65_536 { b"" } else { t }), long::PART),
    ("a text above 65,536 bytes is done", |b, t| long_is_done(b, t), long::PART),
];

/// A first line that is like the right one is taken for it.
fn also(before: &Before, text: &[u8], is_like: fn(&[u8]) -> bool) -> After {
    let end = text.iter().position(|&byte| byte == b'\n');
    match end {
        Some(end) if is_like(&text[..end]) => of_text(before, [HEADER, &text[end..]].concat()),
        _ => of_text(before, text),
    }
}

/// Lines still count from 1.
fn without_first_line(before: &Before, text: &[u8]) -> After {
    let after = of_text(before, text);
    if (after.number, after.line) != (MALFORMED, 1) || text.is_empty() {
        return after;
    }
    let after = of_text(before, [b"chime\t1\n", text].concat());
    After {
        line: after.line.saturating_sub(1),
        ..after
    }
}

fn long_is_done(before: &Before, text: &[u8]) -> After {
    if text.len() <= 65_536 {
        return of_text(before, text);
    }
    After {
        number: DONE,
        line: 0,
        record: before.record.clone(),
    }
}
