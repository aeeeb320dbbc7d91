//! The archive's two calls of M-109 as safe functions.

use std::ffi::c_uchar;
use std::ops::Range;
use std::ptr;

use crate::memory::{After, Before};

extern "C" {
    fn warpmagpie_trace_write(
        items: *const c_uchar,
        items_len: usize,
        text: *mut c_uchar,
        text_len: usize,
        length: *mut usize,
    ) -> u8;
    fn warpmagpie_trace_shrink(
        text: *const c_uchar,
        text_len: usize,
        shrunk: *mut c_uchar,
        shrunk_len: usize,
        length: *mut usize,
    ) -> u8;
}

type Call =
    unsafe extern "C" fn(*const c_uchar, usize, *mut c_uchar, usize, length: *mut usize) -> u8;

pub fn write(before: &Before) -> After {
    call(warpmagpie_trace_write, before)
}

pub fn shrink(before: &Before) -> After {
    call(warpmagpie_trace_shrink, before)
}

/// Input and lent buffer are ranges of one memory that do not overlap, each given with its own length.
fn call(call: Call, before: &Before) -> After {
    let mut memory = before.memory.clone();
    let mut length = before.length;
    let start = memory.as_mut_ptr();
    // 'it may be null where the length is 0'.
    let pointer = |range: &Range<usize>| match before.nulls && range.is_empty() {
        true => ptr::null_mut(),
        false => start.wrapping_add(range.start),
    };
    let (input, lent) = (&before.input, &before.lent);
    let number = unsafe {
        call(
            pointer(input),
            input.len(),
            pointer(lent),
            lent.len(),
            &mut length,
        )
    };
    After {
        number,
        length,
        memory,
    }
}
