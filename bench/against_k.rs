//! The library of another commit that takes one length for all segments; its names have a prefix.

use super::ffi::{Counts, Written};

/// It takes lengths that are not equal.
pub const MIXED: bool = false;

extern "C" {
    fn other_dnalm_write(
        k: u32,
        b: u32,
        message: *const u8,
        message_length: usize,
        out: *mut u8,
        out_length: usize,
    ) -> Written;
    fn other_dnalm_read(
        k: u32,
        b: u32,
        letters: *const u8,
        letters_length: usize,
        message: *mut u8,
        message_length: usize,
        sheet: *mut u8,
        sheet_length: usize,
    ) -> Counts;
}

pub fn write(lengths: &[u16], b: u32, message: &[u8], out: &mut [u8]) -> Option<usize> {
    let got = unsafe {
        other_dnalm_write(
            lengths[0] as u32,
            b,
            message.as_ptr(),
            message.len(),
            out.as_mut_ptr(),
            out.len(),
        )
    };
    (got.refusal == 0).then_some(got.length)
}

pub fn read(
    lengths: &[u16],
    b: u32,
    letters: &[u8],
    message: &mut [u8],
    sheet: &mut [u8],
) -> Option<[u32; 3]> {
    let got = unsafe {
        other_dnalm_read(
            lengths[0] as u32,
            b,
            letters.as_ptr(),
            letters.len(),
            message.as_mut_ptr(),
            message.len(),
            sheet.as_mut_ptr(),
            sheet.len(),
        )
    };
    (got.refusal == 0).then_some([got.clean, got.corrected, got.lost])
}
