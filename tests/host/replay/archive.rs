//! The archive's call of M-100 as a safe function. The only unsafe code of the program.

use std::ffi::c_uchar;

use crate::calls::Before;
use crate::replay::After;

extern "C" {
    fn warpmagpie_replay(
        record: *mut c_uchar,
        record_len: usize,
        text: *const c_uchar,
        text_len: usize,
        line: *mut usize,
    ) -> u8;
}

/// Each pointer comes from a slice or a place of its own that is borrowed for the call, with that slice's length.
pub fn replay(before: &Before, text: &[u8]) -> After {
    let mut record = before.record.clone();
    let mut line = before.line;
    let number = unsafe {
        warpmagpie_replay(
            record.as_mut_ptr(),
            record.len(),
            text.as_ptr(),
            text.len(),
            &mut line,
        )
    };
    After {
        number,
        line,
        record,
    }
}
