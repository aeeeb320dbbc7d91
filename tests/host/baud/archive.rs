//! The archive's two calls of M-104 as safe functions. The only unsafe code of the program.

use crate::model::{Plan, Verdict, Wanted};

extern "C" {
    fn warpmagpie_plan_baud(
        clock_hz: u32,
        rate: u32,
        u2x: u8,
        ubrr: *mut u16,
        tenths: *mut i32,
    ) -> u8;
    fn warpmagpie_check_baud(clock_hz: u32, rate: u32, u2x: u8, ubrr: u32, accepted: *mut u8)
        -> u8;
}

// Each pointer below comes from a place of its own that is borrowed for the call.

/// The answers, each put over what stood there before.
pub fn plan(wanted: &Wanted, before: Plan) -> Plan {
    let mut plan = before;
    plan.number = unsafe {
        warpmagpie_plan_baud(
            wanted.clock,
            wanted.rate,
            wanted.u2x,
            &mut plan.ubrr,
            &mut plan.tenths,
        )
    };
    plan
}

/// The answers, the second put over what stood there before.
pub fn check(wanted: &Wanted, ubrr: u32, before: Verdict) -> Verdict {
    let mut verdict = before;
    verdict.number = unsafe {
        warpmagpie_check_baud(
            wanted.clock,
            wanted.rate,
            wanted.u2x,
            ubrr,
            &mut verdict.accepted,
        )
    };
    verdict
}
