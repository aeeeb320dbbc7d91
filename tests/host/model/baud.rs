//! Choosing the baud setting, from the words of document 02, M-104, alone. Every UBRR is tried, in whole numbers of 128
//! bits, so that nothing has to be known of where the best one lies or of how large a product grows.

use std::ops::RangeInclusive;

/// 'a clock of 1 to 20,000,000 Hz and a rate of 1 to 2,500,000 (else number 11 ..)'.
pub const CLOCKS: RangeInclusive<u32> = 1..=20_000_000;
pub const RATES: RangeInclusive<u32> = 1..=2_500_000;
pub const DONE: u8 = 0;
pub const OUT_OF_RANGE: u8 = 11;

/// 'UBRR is at most 4,095'.
pub const LAST_UBRR: u32 = 4_095;

/// What is asked for: a rate, from a clock, at a speed.
#[derive(Clone, Copy, PartialEq, Debug)]
pub struct Wanted {
    pub clock: u32,
    pub rate: u32,
    /// 0 is normal speed, any other byte is double speed.
    pub u2x: u8,
}

/// The planner's answers.
#[derive(Clone, Copy, PartialEq, Debug)]
pub struct Plan {
    pub number: u8,
    pub ubrr: u16,
    pub tenths: i32,
}

/// The check's answers.
#[derive(Clone, Copy, PartialEq, Debug)]
pub struct Verdict {
    pub number: u8,
    pub accepted: u8,
}

impl Wanted {
    /// 'The planner gives one that is accepted for each speed'; 'number 11 .. and all answers 0'.
    pub fn plan(&self) -> Plan {
        if !self.in_range() {
            return Plan {
                number: OUT_OF_RANGE,
                ubrr: 0,
                tenths: 0,
            };
        }
        let ubrr = self.best();
        Plan {
            number: DONE,
            ubrr: ubrr.try_into().expect("at most 4,095"),
            tenths: self.tenths(ubrr).try_into().expect("at most 609,352"),
        }
    }

    /// 'A separate check takes any proposal from anybody'; 'number 11 .. and all answers 0'.
    pub fn check(&self, ubrr: u32) -> Verdict {
        if !self.in_range() {
            return Verdict {
                number: OUT_OF_RANGE,
                accepted: 0,
            };
        }
        Verdict {
            number: DONE,
            accepted: self.accepts(ubrr) as u8,
        }
    }

    /// 'yes exactly when UBRR is at most 4,095 and no other such UBRR at that speed has a smaller absolute error'.
    pub fn accepts(&self, ubrr: u32) -> bool {
        ubrr <= LAST_UBRR && !(0..=LAST_UBRR).any(|other| self.is_smaller(other, ubrr))
    }

    /// A UBRR with the smallest absolute error, 'the larger UBRR on a tie': a later one takes its place unless worse.
    fn best(&self) -> u32 {
        let mut best = 0;
        for ubrr in 1..=LAST_UBRR {
            if !self.is_smaller(best, ubrr) {
                best = ubrr;
            }
        }
        best
    }

    /// 'The error is also shown in signed tenths of a percent, nearest, halves away from zero': the size of
    /// 1,000 * error and a half, cut to a whole number, with the error's sign.
    pub fn tenths(&self, ubrr: u32) -> i128 {
        let (over, t) = self.error(ubrr);
        over.signum() * ((2 * 1_000 * over.abs() + t) / (2 * t))
    }

    /// Whether the absolute error of one UBRR is smaller than that of another: both fractions times both T.
    pub fn is_smaller(&self, one: u32, other: u32) -> bool {
        let ((over, t), (other_over, other_t)) = (self.error(one), self.error(other));
        over.abs() * other_t < other_over.abs() * t
    }

    /// 'the error is clock/T - 1', as the fraction (clock - T) / T; T is above 0.
    pub fn error(&self, ubrr: u32) -> (i128, i128) {
        let t = self.t(ubrr);
        (i128::from(self.clock) - t, t)
    }

    /// 'Let T = S * (UBRR+1) * rate'; document 01 has 'S being 16, or 8 with U2X'.
    fn t(&self, ubrr: u32) -> i128 {
        let s = if self.u2x == 0 { 16 } else { 8 };
        s * (i128::from(ubrr) + 1) * i128::from(self.rate)
    }

    pub fn in_range(&self) -> bool {
        CLOCKS.contains(&self.clock) && RATES.contains(&self.rate)
    }
}
