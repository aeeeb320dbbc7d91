//! The archive's calls on a record (include/warpmagpie.h) as safe functions on slices. The only unsafe code of the
//! program.

use std::ffi::c_uchar;

extern "C" {
    fn warpmagpie_reset(record: *mut c_uchar, record_len: usize) -> u8;
    fn warpmagpie_write(record: *mut c_uchar, record_len: usize, address: u16, value: u8) -> u8;
    fn warpmagpie_read(record: *mut c_uchar, record_len: usize, address: u16, value: *mut u8) -> u8;
    fn warpmagpie_take_vector(record: *mut c_uchar, record_len: usize, vector: u8) -> u8;
    fn warpmagpie_run(
        record: *mut c_uchar,
        record_len: usize,
        levels: *const u8,
        levels_len: usize,
        outputs: *mut u8,
        outputs_len: usize,
    ) -> u8;
    fn warpmagpie_hold(record: *mut c_uchar, record_len: usize, level: u8, clocks: u32, output: *mut u8) -> u8;
    fn warpmagpie_requests(record: *const c_uchar, record_len: usize, requests: *mut u8) -> u8;
    fn warpmagpie_split_votes(record: *const c_uchar, record_len: usize, count: *mut u8) -> u8;
    fn warpmagpie_replay(
        record: *mut c_uchar,
        record_len: usize,
        text: *const u8,
        text_len: usize,
        line: *mut usize,
    ) -> u8;
}

// Each pointer below comes from a slice or reference that is borrowed for the call, with that slice's own length, and
// Rust's borrowing keeps the arguments from overlapping. Nothing else is asked by the header.

pub fn reset(record: &mut [u8]) -> u8 {
    unsafe { warpmagpie_reset(record.as_mut_ptr(), record.len()) }
}

pub fn write(record: &mut [u8], address: u16, value: u8) -> u8 {
    unsafe { warpmagpie_write(record.as_mut_ptr(), record.len(), address, value) }
}

pub fn read(record: &mut [u8], address: u16, value: &mut u8) -> u8 {
    unsafe { warpmagpie_read(record.as_mut_ptr(), record.len(), address, value) }
}

pub fn take_vector(record: &mut [u8], vector: u8) -> u8 {
    unsafe { warpmagpie_take_vector(record.as_mut_ptr(), record.len(), vector) }
}

pub fn run(record: &mut [u8], levels: &[u8], outputs: &mut [u8]) -> u8 {
    unsafe {
        warpmagpie_run(
            record.as_mut_ptr(),
            record.len(),
            levels.as_ptr(),
            levels.len(),
            outputs.as_mut_ptr(),
            outputs.len(),
        )
    }
}

#[allow(dead_code)] // not every program that has these calls holds
pub fn hold(record: &mut [u8], level: u8, clocks: u32, output: &mut u8) -> u8 {
    unsafe { warpmagpie_hold(record.as_mut_ptr(), record.len(), level, clocks, output) }
}

pub fn requests(record: &[u8], requests: &mut u8) -> u8 {
    unsafe { warpmagpie_requests(record.as_ptr(), record.len(), requests) }
}

#[allow(dead_code)] // not every program that has these calls asks for split votes
pub fn split_votes(record: &[u8], count: &mut u8) -> u8 {
    unsafe { warpmagpie_split_votes(record.as_ptr(), record.len(), count) }
}

#[allow(dead_code)] // not every program that has these calls replays
pub fn replay(record: &mut [u8], text: &[u8], line: &mut usize) -> u8 {
    unsafe { warpmagpie_replay(record.as_mut_ptr(), record.len(), text.as_ptr(), text.len(), line) }
}
