//! The archive's replay (include/warpmagpie.h) as a safe function. With compare/archive.rs the only unsafe code here.

extern "C" {
    fn warpmagpie_replay(
        record: *mut u8,
        record_len: usize,
        text: *const u8,
        text_len: usize,
        line: *mut usize,
    ) -> u8;
}

/// Number and line. The pointers come from slices that are borrowed for the call, with their own lengths.
pub fn replay(record: &mut [u8], text: &[u8]) -> (u8, usize) {
    let mut line = usize::MAX;
    let number = unsafe {
        warpmagpie_replay(record.as_mut_ptr(), record.len(), text.as_ptr(), text.len(), &mut line)
    };
    (number, line)
}
