//! The library's C names, and the calls over slices.

#[repr(C)]
#[derive(Clone, Copy, Debug, PartialEq, Eq)]
pub struct Written {
    pub refusal: u32,
    pub place: usize,
    pub length: usize,
}

#[repr(C)]
#[derive(Clone, Copy, Debug, PartialEq, Eq)]
pub struct Counts {
    pub refusal: u32,
    pub place: usize,
    pub clean: u32,
    pub corrected: u32,
    pub lost: u32,
}

#[repr(C)]
#[derive(Clone, Copy, Debug, PartialEq, Eq)]
pub struct Piece {
    pub refusal: u32,
    pub place: usize,
    pub start: usize,
    pub length: usize,
}

#[repr(C)]
#[derive(Clone, Copy, Debug, Default, PartialEq, Eq)]
pub struct Said {
    pub refusal: u32,
    pub place: usize,
    pub kind: u32,
    pub at: usize,
    pub letter: u8,
    pub step: u8,
}

#[repr(C)]
#[derive(Clone, Copy, Debug, PartialEq, Eq)]
pub struct Order {
    pub refusal: u32,
    pub b: u32,
    pub count: usize,
    pub lengths: [u16; 64],
}

#[repr(C)]
#[derive(Clone, Copy, Debug, PartialEq, Eq)]
pub struct Quoted {
    pub refusal: u32,
    pub letters: u32,
    pub sheet_bytes: u32,
    pub starts: u32,
}

#[repr(C)]
#[derive(Clone, Copy, Debug, PartialEq, Eq)]
pub struct Tally {
    pub strands: u32,
    pub clean: u32,
    pub corrected: u32,
    pub lost: u32,
}

#[repr(C)]
#[derive(Clone, Copy, Debug, PartialEq, Eq)]
pub struct Tallied {
    pub refusal: u32,
    pub strands: u32,
    pub clean: u32,
    pub corrected: u32,
    pub lost: u32,
}

extern "C" {
    pub fn dnalm_letter(byte: u8) -> u8;
    pub fn dnalm_write(
        lengths: *const u16,
        lengths_count: usize,
        b: u32,
        message: *const u8,
        message_length: usize,
        out: *mut u8,
        out_length: usize,
    ) -> Written;
    pub fn dnalm_read(
        lengths: *const u16,
        lengths_count: usize,
        b: u32,
        letters: *const u8,
        letters_length: usize,
        message: *mut u8,
        message_length: usize,
        sheet: *mut u8,
        sheet_length: usize,
    ) -> Counts;
    pub fn dnalm_piece(
        lengths: *const u16,
        lengths_count: usize,
        b: u32,
        letters: *const u8,
        letters_length: usize,
        segment: u32,
    ) -> Piece;
    pub fn dnalm_report(
        lengths: *const u16,
        lengths_count: usize,
        b: u32,
        letters: *const u8,
        letters_length: usize,
        out: *mut u8,
        out_length: usize,
    ) -> Written;
    pub fn dnalm_verdict(
        lengths: *const u16,
        lengths_count: usize,
        b: u32,
        letters: *const u8,
        letters_length: usize,
        segment: u32,
    ) -> Said;
    pub fn dnalm_write_label(
        lengths: *const u16,
        lengths_count: usize,
        b: u32,
        out: *mut u8,
        out_length: usize,
    ) -> Written;
    pub fn dnalm_read_label(bytes: *const u8, bytes_length: usize) -> Order;
    pub fn dnalm_convert_label(
        label: *const u8,
        label_length: usize,
        out: *mut u8,
        out_length: usize,
    ) -> Written;
    pub fn dnalm_quote(lengths: *const u16, lengths_count: usize, b: u32, strands: u16) -> Quoted;
    pub fn dnalm_add_to_tally(t: Tally, clean: u32, corrected: u32, lost: u32) -> Tallied;
}

pub fn letter(byte: u8) -> u8 {
    unsafe { dnalm_letter(byte) }
}

pub fn write(lengths: &[u16], b: u32, message: &[u8], out: &mut [u8]) -> Written {
    unsafe {
        dnalm_write(
            lengths.as_ptr(),
            lengths.len(),
            b,
            message.as_ptr(),
            message.len(),
            out.as_mut_ptr(),
            out.len(),
        )
    }
}

pub fn read(
    lengths: &[u16],
    b: u32,
    letters: &[u8],
    message: &mut [u8],
    sheet: &mut [u8],
) -> Counts {
    unsafe {
        dnalm_read(
            lengths.as_ptr(),
            lengths.len(),
            b,
            letters.as_ptr(),
            letters.len(),
            message.as_mut_ptr(),
            message.len(),
            sheet.as_mut_ptr(),
            sheet.len(),
        )
    }
}

pub fn piece(lengths: &[u16], b: u32, letters: &[u8], segment: u32) -> Piece {
    unsafe {
        dnalm_piece(
            lengths.as_ptr(),
            lengths.len(),
            b,
            letters.as_ptr(),
            letters.len(),
            segment,
        )
    }
}

pub fn report(lengths: &[u16], b: u32, letters: &[u8], out: &mut [u8]) -> Written {
    unsafe {
        dnalm_report(
            lengths.as_ptr(),
            lengths.len(),
            b,
            letters.as_ptr(),
            letters.len(),
            out.as_mut_ptr(),
            out.len(),
        )
    }
}

pub fn verdict(lengths: &[u16], b: u32, letters: &[u8], segment: u32) -> Said {
    unsafe {
        dnalm_verdict(
            lengths.as_ptr(),
            lengths.len(),
            b,
            letters.as_ptr(),
            letters.len(),
            segment,
        )
    }
}

pub fn write_label(lengths: &[u16], b: u32, out: &mut [u8]) -> Written {
    unsafe {
        dnalm_write_label(
            lengths.as_ptr(),
            lengths.len(),
            b,
            out.as_mut_ptr(),
            out.len(),
        )
    }
}

pub fn read_label(bytes: &[u8]) -> Order {
    unsafe { dnalm_read_label(bytes.as_ptr(), bytes.len()) }
}

pub fn convert_label(label: &[u8], out: &mut [u8]) -> Written {
    unsafe { dnalm_convert_label(label.as_ptr(), label.len(), out.as_mut_ptr(), out.len()) }
}

pub fn quote(lengths: &[u16], b: u32, strands: u16) -> Quoted {
    unsafe { dnalm_quote(lengths.as_ptr(), lengths.len(), b, strands) }
}
