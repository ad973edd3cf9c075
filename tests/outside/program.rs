//! What the programs print: by the oracle, and in a run.

use crate::oracle::{self, Refused};
use std::io::Write;
use std::process::{Command, Stdio};

pub const READER: &str = "target/bin/read_strand";
pub const REPORTER: &str = "target/bin/report_strand";
pub const CONVERTER: &str = "target/bin/convert_label";
pub const QUOTER: &str = "target/bin/quote_strands";

/// The first two lines of an input; a missing one is empty.
pub fn two_lines(input: &[u8]) -> (&[u8], &[u8]) {
    let mut lines = input.split(|&byte| byte == b'\n');
    let first = lines.next().unwrap_or_default();
    (first, lines.next().unwrap_or_default())
}

/// The bytes of hexadecimal digits of either case, two for each byte.
pub fn bytes_of(digits: &[u8]) -> Option<Vec<u8>> {
    if !digits.len().is_multiple_of(2) {
        return None;
    }
    let digit = |x: u8| (x as char).to_digit(16);
    let byte = |two: &[u8]| Some((digit(two[0])? * 16 + digit(two[1])?) as u8);
    digits.chunks(2).map(byte).collect()
}

pub fn hex(bytes: &[u8]) -> String {
    bytes.iter().map(|byte| format!("{byte:02X}")).collect()
}

fn refuse<T>(number: u32) -> Result<T, Refused> {
    Err(Refused { number, place: 0 })
}

/// The bytes of a line that holds exactly those its label needs; all else is refused by 8.
fn label_bytes(line: &[u8]) -> Result<Vec<u8>, Refused> {
    match bytes_of(line) {
        Some(label) if oracle::label_needs(&label) == Some(label.len()) => Ok(label),
        _ => refuse(8),
    }
}

/// Layout and B of a line with a label.
pub fn label_of(line: &[u8]) -> Result<(Vec<u16>, u32), Refused> {
    oracle::read_label(&label_bytes(line)?)
}

/// The line of the converting program.
pub fn converting(label: &[u8]) -> Result<String, Refused> {
    let mut converted = [0; 75];
    let count = oracle::convert_label(&label_bytes(label)?, &mut converted)?;
    Ok(format!("{}\n", hex(&converted[..count])))
}

/// The two lines of the reading program.
pub fn reading(label: &[u8], strand: &[u8]) -> Result<String, Refused> {
    let (lengths, b) = label_of(label)?;
    let (mut message, mut sheet) = (vec![0; b as usize], vec![0; lengths.len().div_ceil(4)]);
    let [clean, corrected, lost] = oracle::read(&lengths, b, strand, &mut message, &mut sheet)?;
    let message = hex(&message);
    Ok(format!(
        "{message}\nclean {clean} corrected {corrected} lost {lost}\n"
    ))
}

/// The lines of the reporting program, one for each segment.
pub fn reporting(label: &[u8], strand: &[u8]) -> Result<String, Refused> {
    let (lengths, b) = label_of(label)?;
    Ok(oracle::lines(&oracle::segments(&lengths, b, strand)?))
}

/// The line of the writing program; a message that is no hexadecimal has not B bytes.
pub fn writing(label: &[u8], message: &[u8]) -> Result<String, Refused> {
    let (lengths, b) = label_of(label)?;
    let Some(message) = bytes_of(message) else {
        return refuse(2);
    };
    let mut strand = [0; 2874];
    let letters = oracle::write(&lengths, b, &message, &mut strand)?;
    Ok(format!("{}\n", strand[..letters].escape_ascii()))
}

/// The number in a line of one to five decimal digits alone, up to 65,535.
fn number_of(line: &[u8]) -> Option<u16> {
    if line.len() > 5 || !line.iter().all(u8::is_ascii_digit) {
        return None;
    }
    std::str::from_utf8(line).ok()?.parse().ok()
}

/// The three lines of the quoting program.
pub fn quoting(label: &[u8], strands: &[u8]) -> Result<String, Refused> {
    let (lengths, b) = label_of(label)?;
    let Some(strands) = number_of(strands) else {
        return refuse(2);
    };
    let quote = oracle::quote(&lengths, b, strands)?;
    Ok(format!(
        "letters {}\nsheet bytes {}\nstarts {}\n",
        quote.letters, quote.sheet_bytes, quote.starts
    ))
}

/// What a program prints for its answer.
pub fn printed(answer: Result<String, Refused>) -> String {
    answer.unwrap_or_else(|refused| format!("refused {}\n", refused.number))
}

/// What a program prints for an input when it is run, or how it ended.
pub fn run(program: &str, input: &[u8]) -> String {
    ran(program, input).unwrap_or_else(|error| error.to_string())
}

fn ran(program: &str, input: &[u8]) -> std::io::Result<String> {
    let mut child = Command::new(program)
        .stdin(Stdio::piped())
        .stdout(Stdio::piped())
        .spawn()?;
    if let Some(mut stdin) = child.stdin.take() {
        // The program may end before it has read all.
        let _ = stdin.write_all(input);
    }
    let output = child.wait_with_output()?;
    if !output.status.success() {
        return Ok(format!("ended with {}", output.status));
    }
    Ok(String::from_utf8_lossy(&output.stdout).into_owned())
}
