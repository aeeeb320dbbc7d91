//! Planners that are wrong on purpose, each with the part that has to see it.

use crate::model::{Plan, Wanted, LAST_UBRR, OUT_OF_RANGE};
use crate::wrong::WrongPlan;
use crate::{edges, examples, halves, mixed, rows, ties};

#[rustfmt::skip] // a line each
pub const WRONG_PLANS: [WrongPlan; 26] = [
    ("the smaller UBRR on a tie", |wanted, _| with_ubrr(wanted, smaller_on_a_tie), ties::PART),
    ("one UBRR too large", |wanted, _| with_ubrr(wanted, |_, best| best + 1), examples::PART),
    ("one UBRR too small", |wanted, _| with_ubrr(wanted, |_, best| best.saturating_sub(1)), examples::PART),
    ("the nearest divisor", |wanted, _| with_ubrr(wanted, |wanted, _| nearest(wanted).min(LAST_UBRR)), mixed::PART),
    ("the divisor cut off", |wanted, _| with_ubrr(wanted, |wanted, _| cut_off(wanted).min(LAST_UBRR)), rows::PART),
    ("UBRR cut to 12 bits", |wanted, _| with_ubrr(wanted, cut_to_bits), edges::PART),
    ("UBRR up to 4,094", |wanted, _| with_ubrr(wanted, |_, best| best.min(4_094)), edges::PART),
    ("UBRR up to 4,096", |wanted, _| with_ubrr(wanted, up_to_4096), edges::PART),
    ("halves up, as of the ratio", |wanted, _| with_figure(wanted, |over, t| floor(2 * over + t, 2 * t)), halves::PART),
    ("halves down", |wanted, _| with_figure(wanted, |over, t| -floor(t - 2 * over, 2 * t)), halves::PART),
    ("halves toward zero", |wanted, _| with_figure(wanted, halves_toward_zero), halves::PART),
    ("halves to even", |wanted, _| with_figure(wanted, halves_to_even), halves::PART),
    ("figure cut toward zero", |wanted, _| with_figure(wanted, |over, t| over / t), rows::PART),
    ("figure rounded down", |wanted, _| with_figure(wanted, floor), rows::PART),
    ("sign lost", |wanted, _| Plan { tenths: wanted.plan().tenths.abs(), ..wanted.plan() }, examples::PART),
    ("error of T against clock", |wanted, _| with_figure(wanted, t_against_clock), examples::PART),
    ("error of 001's misprint", |wanted, _| with_figure(wanted, |over, t| over * over / (1_000 * t * t)), rows::PART),
    ("a figure of 0 not stored", |wanted, before| zero_not_stored(wanted, before), rows::PART),
    ("bit 0 of u2x alone", |wanted, _| Wanted { u2x: wanted.u2x & 1, ..*wanted }.plan(), edges::PART),
    ("bit 1 of u2x alone", |wanted, _| Wanted { u2x: wanted.u2x & 2, ..*wanted }.plan(), examples::PART),
    ("1 alone is double speed", |wanted, _| Wanted { u2x: (wanted.u2x == 1).into(), ..*wanted }.plan(), mixed::PART),
    ("a clock of 0", |wanted, _| Wanted { clock: wanted.clock.max(1), ..*wanted }.plan(), edges::PART),
    ("a clock too high", |wanted, _| Wanted { clock: wanted.clock.min(20_000_000), ..*wanted }.plan(), edges::PART),
    ("a rate of 0", |wanted, _| Wanted { rate: wanted.rate.max(1), ..*wanted }.plan(), edges::PART),
    ("a rate too high", |wanted, _| Wanted { rate: wanted.rate.min(2_500_000), ..*wanted }.plan(), edges::PART),
    ("11 without zeros", |wanted, before| refused_without_zeros(wanted, before), edges::PART),
];

/// The plan with another UBRR, and the figure that goes with it.
fn with_ubrr(wanted: &Wanted, choose: fn(&Wanted, u32) -> u32) -> Plan {
    let plan = wanted.plan();
    if !wanted.in_range() {
        return plan;
    }
    let ubrr = choose(wanted, plan.ubrr.into());
    Plan {
        ubrr: ubrr as u16,
        tenths: wanted.tenths(ubrr) as i32,
        ..plan
    }
}

/// The plan with another figure, made of 1,000 * (clock - T) and T.
fn with_figure(wanted: &Wanted, figure: fn(i128, i128) -> i128) -> Plan {
    let plan = wanted.plan();
    if !wanted.in_range() {
        return plan;
    }
    let (over, t) = wanted.error(plan.ubrr.into());
    Plan {
        tenths: figure(1_000 * over, t) as i32,
        ..plan
    }
}

fn smaller_on_a_tie(wanted: &Wanted, best: u32) -> u32 {
    match best.checked_sub(1) {
        Some(smaller) if wanted.accepts(smaller) => smaller,
        _ => best,
    }
}

/// S * rate.
fn unit(wanted: &Wanted) -> u32 {
    wanted.rate * if wanted.u2x == 0 { 16 } else { 8 }
}

fn nearest(wanted: &Wanted) -> u32 {
    ((wanted.clock + unit(wanted) / 2) / unit(wanted)).saturating_sub(1)
}

fn cut_off(wanted: &Wanted) -> u32 {
    (wanted.clock / unit(wanted)).saturating_sub(1)
}

fn cut_to_bits(wanted: &Wanted, best: u32) -> u32 {
    if best < LAST_UBRR {
        best
    } else {
        nearest(wanted) & LAST_UBRR
    }
}

fn up_to_4096(wanted: &Wanted, best: u32) -> u32 {
    if wanted.is_smaller(LAST_UBRR + 1, best) {
        LAST_UBRR + 1
    } else {
        best
    }
}

fn floor(over: i128, t: i128) -> i128 {
    over.div_euclid(t)
}

fn halves_toward_zero(over: i128, t: i128) -> i128 {
    over.signum() * ((2 * over.abs() + t - 1) / (2 * t))
}

fn halves_to_even(over: i128, t: i128) -> i128 {
    let down = floor(2 * over + t, 2 * t);
    let is_half = (2 * over + t) % (2 * t) == 0;
    down - i128::from(is_half) * (down & 1)
}

fn t_against_clock(over: i128, t: i128) -> i128 {
    -over / (over / 1_000 + t)
}

fn zero_not_stored(wanted: &Wanted, before: Plan) -> Plan {
    match wanted.plan() {
        plan if plan.tenths == 0 => Plan {
            tenths: before.tenths,
            ..plan
        },
        plan => plan,
    }
}

fn refused_without_zeros(wanted: &Wanted, before: Plan) -> Plan {
    match wanted.plan() {
        plan if plan.number == OUT_OF_RANGE => Plan {
            number: OUT_OF_RANGE,
            ..before
        },
        plan => plan,
    }
}
