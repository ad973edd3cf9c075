// Quotes and orders 32 bytes in segments that are short at the ends, damages two letters, one to an N, reads the message back by the label and reports.
use std::process::exit;

#[repr(C)]
struct Written {
    refusal: u32,
    place: usize,
    length: usize,
}

#[repr(C)]
struct Counts {
    refusal: u32,
    place: usize,
    clean: u32,
    corrected: u32,
    lost: u32,
}

#[repr(C)]
struct Piece {
    refusal: u32,
    place: usize,
    start: usize,
    length: usize,
}

#[repr(C)]
struct Order {
    refusal: u32,
    b: u32,
    count: usize,
    lengths: [u16; 64],
}

#[repr(C)]
struct Quoted {
    refusal: u32,
    letters: u32,
    sheet_bytes: u32,
    starts: u32,
}

#[link(name = "dnalm", kind = "static")]
extern "C" {
    fn dnalm_write(
        lengths: *const u16,
        lengths_count: usize,
        b: u32,
        message: *const u8,
        message_length: usize,
        out: *mut u8,
        out_length: usize,
    ) -> Written;
    fn dnalm_read(
        lengths: *const u16,
        lengths_count: usize,
        b: u32,
        letters: *const u8,
        letters_length: usize,
        message: *mut u8,
        message_length: usize,
        sheet: *mut u8,
        sheet_length: usize,
    ) -> Counts;
    fn dnalm_piece(
        lengths: *const u16,
        lengths_count: usize,
        b: u32,
        letters: *const u8,
        letters_length: usize,
        segment: u32,
    ) -> Piece;
    fn dnalm_report(
        lengths: *const u16,
        lengths_count: usize,
        b: u32,
        letters: *const u8,
        letters_length: usize,
        out: *mut u8,
        out_length: usize,
    ) -> Written;
    fn dnalm_write_label(
        lengths: *const u16,
        lengths_count: usize,
        b: u32,
        out: *mut u8,
        out_length: usize,
    ) -> Written;
    fn dnalm_read_label(bytes: *const u8, bytes_length: usize) -> Order;
    fn dnalm_quote(lengths: *const u16, lengths_count: usize, b: u32, strands: u16) -> Quoted;
}

// The calls over slices: a slice is always good for its length, and two of them never overlap where one is written to.

fn write(lengths: &[u16], b: u32, message: &[u8], out: &mut [u8]) -> Written {
    unsafe {
        dnalm_write(
            lengths.as_ptr(),
            lengths.len(),
            b,
            message.as_ptr(),
            message.len(),
            out.as_mut_ptr(),
            out.len(),
        )
    }
}

fn read(lengths: &[u16], b: u32, letters: &[u8], message: &mut [u8], sheet: &mut [u8]) -> Counts {
    unsafe {
        dnalm_read(
            lengths.as_ptr(),
            lengths.len(),
            b,
            letters.as_ptr(),
            letters.len(),
            message.as_mut_ptr(),
            message.len(),
            sheet.as_mut_ptr(),
            sheet.len(),
        )
    }
}

fn piece(lengths: &[u16], b: u32, letters: &[u8], segment: u32) -> Piece {
    unsafe {
        dnalm_piece(
            lengths.as_ptr(),
            lengths.len(),
            b,
            letters.as_ptr(),
            letters.len(),
            segment,
        )
    }
}

fn report(lengths: &[u16], b: u32, letters: &[u8], out: &mut [u8]) -> Written {
    unsafe {
        dnalm_report(
            lengths.as_ptr(),
            lengths.len(),
            b,
            letters.as_ptr(),
            letters.len(),
            out.as_mut_ptr(),
            out.len(),
        )
    }
}

fn write_label(lengths: &[u16], b: u32, out: &mut [u8]) -> Written {
    unsafe {
        dnalm_write_label(
            lengths.as_ptr(),
            lengths.len(),
            b,
            out.as_mut_ptr(),
            out.len(),
        )
    }
}

fn read_label(bytes: &[u8]) -> Order {
    unsafe { dnalm_read_label(bytes.as_ptr(), bytes.len()) }
}

fn quote(lengths: &[u16], b: u32, strands: u16) -> Quoted {
    unsafe { dnalm_quote(lengths.as_ptr(), lengths.len(), b, strands) }
}

// Ends the program where a call is refused.
fn taken(refusal: u32, place: usize) {
    if refusal != 0 {
        println!("refused {refusal} at {place}");
        exit(1);
    }
}

const LENGTHS: [u16; 8] = [8, 8, 16, 32, 32, 16, 8, 8];
const B: u32 = 32;
const MESSAGE: &[u8; B as usize] = b"Barley seeds, lot 17, drawer 204";

fn main() {
    let quoted = quote(&LENGTHS, B, 1);
    taken(quoted.refusal, 0);
    println!(
        "letters {} sheet bytes {} starts {}",
        quoted.letters, quoted.sheet_bytes, quoted.starts
    );

    let mut label = [0; 75];
    let labelled = write_label(&LENGTHS, B, &mut label);
    taken(labelled.refusal, labelled.place);
    let label = &label[..labelled.length];
    let digits: String = label.iter().map(|byte| format!("{byte:02X}")).collect();
    println!("label {digits}");

    let mut strand = [0; 2874];
    let written = write(&LENGTHS, B, MESSAGE, &mut strand);
    taken(written.refusal, written.place);
    println!("written {} letters", written.length);

    strand[2] = if strand[2] == b'A' { b'T' } else { b'A' };
    strand[100] = b'N';
    let letters = &strand[..written.length];

    let order = read_label(label);
    taken(order.refusal, 0);
    let lengths = &order.lengths[..order.count];
    let mut message = [0; 512];
    let mut sheet = [0; 16];
    let counts = read(lengths, order.b, letters, &mut message, &mut sheet);
    taken(counts.refusal, counts.place);
    println!(
        "message {}",
        if message[..order.b as usize] == *MESSAGE {
            "equal"
        } else {
            "differs"
        }
    );
    println!(
        "clean {} corrected {} lost {}",
        counts.clean, counts.corrected, counts.lost
    );

    for i in 0..lengths.len() {
        let mark = sheet[i / 4] >> (6 - 2 * (i % 4)) & 3;
        if mark != 0 {
            let at = piece(lengths, order.b, letters, i as u32 + 1);
            taken(at.refusal, at.place);
            let text = String::from_utf8_lossy(&letters[at.start..at.start + at.length]);
            println!("segment {} at {}: {text}", i + 1, at.start);
        }
    }

    let mut lines = [0; 960];
    let reported = report(lengths, order.b, letters, &mut lines);
    taken(reported.refusal, reported.place);
    print!("{}", String::from_utf8_lossy(&lines[..reported.length]));
}
