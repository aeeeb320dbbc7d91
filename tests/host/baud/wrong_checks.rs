//! Checks that are wrong on purpose, each with the part that has to see it.

use crate::model::{Verdict, Wanted, DONE, LAST_UBRR, OUT_OF_RANGE};
use crate::wrong::WrongCheck;
use crate::{edges, examples, mixed, sweep, ties};

#[rustfmt::skip] // a line each
pub const WRONG_CHECKS: [WrongCheck; 18] = [
    ("yes to the planner's alone", |wanted, ubrr, _| verdict(wanted, ubrr == best(wanted)), ties::PART),
    ("yes to the first on a tie", |wanted, ubrr, _| verdict(wanted, is_first(wanted, ubrr)), ties::PART),
    ("yes to all up to 4,095", |wanted, ubrr, _| verdict(wanted, ubrr <= LAST_UBRR), examples::PART),
    ("yes to none", |wanted, _, _| verdict(wanted, false), examples::PART),
    ("UBRR cut to 16 bits", |wanted, ubrr, _| wanted.check(ubrr & 0xFFFF), examples::PART),
    ("UBRR cut to 12 bits", |wanted, ubrr, _| wanted.check(ubrr & 0x0FFF), examples::PART),
    ("UBRR above 4,095 is 11", |wanted, ubrr, _| above_is_11(wanted, ubrr), examples::PART),
    ("4,096 is a rival", |wanted, ubrr, _| verdict(wanted, without_4096(wanted, ubrr)), edges::PART),
    ("UBRR above 4,095 where better", |wanted, ubrr, _| verdict(wanted, better(wanted, ubrr)), edges::PART),
    ("the UBRR below is the only rival", |wanted, ubrr, _| verdict(wanted, not_above(wanted, ubrr)), examples::PART),
    ("the UBRR above is the only rival", |wanted, ubrr, _| verdict(wanted, not_below(wanted, ubrr)), examples::PART),
    ("figures compared, not errors", |wanted, ubrr, _| verdict(wanted, by_figure(wanted, ubrr)), mixed::PART),
    ("products cut to 64 bits", |wanted, ubrr, _| verdict(wanted, by_64_bits(wanted, ubrr)), sweep::PART),
    ("any byte but 0 for yes", |wanted, ubrr, _| yes_is_255(wanted.check(ubrr)), examples::PART),
    ("no is not stored", |wanted, ubrr, before| no_not_stored(wanted.check(ubrr), before), examples::PART),
    ("11 without a zero", |wanted, ubrr, before| refused_without_zero(wanted.check(ubrr), before), edges::PART),
    ("out of range is no", |wanted, ubrr, _| Verdict { number: DONE, ..wanted.check(ubrr) }, edges::PART),
    ("bit 0 of u2x alone", |wanted, ubrr, _| Wanted { u2x: wanted.u2x & 1, ..*wanted }.check(ubrr), edges::PART),
];

/// Yes or no within the ranges.
fn verdict(wanted: &Wanted, accepted: bool) -> Verdict {
    let refused = !wanted.in_range();
    Verdict {
        number: if refused { OUT_OF_RANGE } else { DONE },
        accepted: u8::from(accepted && !refused),
    }
}

fn best(wanted: &Wanted) -> u32 {
    wanted.plan().ubrr.into()
}

fn is_first(wanted: &Wanted, ubrr: u32) -> bool {
    wanted.accepts(ubrr) && !(0..ubrr).any(|other| wanted.accepts(other))
}

fn above_is_11(wanted: &Wanted, ubrr: u32) -> Verdict {
    if ubrr <= LAST_UBRR {
        return wanted.check(ubrr);
    }
    Verdict {
        number: OUT_OF_RANGE,
        accepted: 0,
    }
}

fn without_4096(wanted: &Wanted, ubrr: u32) -> bool {
    wanted.accepts(ubrr) && !wanted.is_smaller(LAST_UBRR + 1, ubrr)
}

fn better(wanted: &Wanted, ubrr: u32) -> bool {
    !wanted.is_smaller(best(wanted), ubrr)
}

fn not_above(wanted: &Wanted, ubrr: u32) -> bool {
    ubrr <= LAST_UBRR && !(ubrr > 0 && wanted.is_smaller(ubrr - 1, ubrr))
}

fn not_below(wanted: &Wanted, ubrr: u32) -> bool {
    ubrr <= LAST_UBRR && !(ubrr < LAST_UBRR && wanted.is_smaller(ubrr + 1, ubrr))
}

fn by_figure(wanted: &Wanted, ubrr: u32) -> bool {
    ubrr <= LAST_UBRR && wanted.tenths(ubrr).abs() == wanted.tenths(best(wanted)).abs()
}

fn by_64_bits(wanted: &Wanted, ubrr: u32) -> bool {
    let size = |one, other| {
        let ((over, _), (_, t)) = (wanted.error(one), wanted.error(other));
        (over.unsigned_abs() as u64).wrapping_mul(t as u64)
    };
    let is_rival = |other| size(other, ubrr) < size(ubrr, other);
    ubrr <= LAST_UBRR
        && !(ubrr > 0 && is_rival(ubrr - 1))
        && !(ubrr < LAST_UBRR && is_rival(ubrr + 1))
}

fn yes_is_255(verdict: Verdict) -> Verdict {
    Verdict {
        accepted: verdict.accepted * 255,
        ..verdict
    }
}

fn no_not_stored(verdict: Verdict, before: Verdict) -> Verdict {
    match verdict.accepted {
        0 => Verdict {
            accepted: before.accepted,
            ..verdict
        },
        _ => verdict,
    }
}

fn refused_without_zero(verdict: Verdict, before: Verdict) -> Verdict {
    match verdict.number {
        DONE => verdict,
        number => Verdict { number, ..before },
    }
}
