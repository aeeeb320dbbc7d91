//! The archive's calls that fill a lent buffer with the text of a trace (include/warpmagpie.h), as safe functions.

extern "C" {
    fn warpmagpie_trace_write(
        items: *const u8,
        items_len: usize,
        text: *mut u8,
        text_len: usize,
        length: *mut usize,
    ) -> u8;
    fn warpmagpie_trace_shrink(
        text: *const u8,
        text_len: usize,
        shrunk: *mut u8,
        shrunk_len: usize,
        length: *mut usize,
    ) -> u8;
}

/// Number and length. The pointers come from slices that are borrowed for the call, with their own lengths.
pub fn write(items: &[u8], text: &mut [u8]) -> (u8, usize) {
    let mut length = usize::MAX;
    let number = unsafe {
        warpmagpie_trace_write(items.as_ptr(), items.len(), text.as_mut_ptr(), text.len(), &mut length)
    };
    (number, length)
}

/// The same of a shrink.
pub fn shrink(text: &[u8], shrunk: &mut [u8]) -> (u8, usize) {
    let mut length = usize::MAX;
    let number = unsafe {
        warpmagpie_trace_shrink(text.as_ptr(), text.len(), shrunk.as_mut_ptr(), shrunk.len(), &mut length)
    };
    (number, length)
}
