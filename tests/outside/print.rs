//! Prints what the programs print, for the reading program with the verdicts if asked.

#[allow(dead_code)]
mod oracle;
#[allow(dead_code)]
mod program;

use oracle::Refused;
use program::{
    converting, hex, label_of, printed, quoting, reading, reporting, two_lines, writing,
};
use std::ffi::OsString;
use std::io::{Read, Write};
use std::os::unix::ffi::OsStringExt;
use std::process::exit;

/// The lines of the reading program, then the layout, the sheet and the verdicts.
fn reading_told(label: &[u8], strand: &[u8]) -> Result<String, Refused> {
    let mut text = reading(label, strand)?;
    let (lengths, b) = label_of(label)?;
    let segments = oracle::segments(&lengths, b, strand)?;
    let (mut message, mut sheet) = (vec![0; b as usize], vec![0; lengths.len().div_ceil(4)]);
    oracle::read(&lengths, b, strand, &mut message, &mut sheet)?;
    text += &format!("B {b} lengths {lengths:?}\nsheet {}\n", hex(&sheet));
    for (i, segment) in segments.iter().enumerate() {
        let piece = &strand[segment.start..segment.end];
        text += &format!(
            "segment {} start {} length {} {}{} {}\n",
            i + 1,
            segment.start,
            piece.len(),
            oracle::words(segment.verdict),
            if segment.scanned { " scanned" } else { "" },
            piece.escape_ascii()
        );
    }
    Ok(text)
}

fn input() -> Vec<u8> {
    let mut input = Vec::new();
    if std::io::stdin().read_to_end(&mut input).is_err() {
        exit(2);
    }
    input
}

fn usage() -> ! {
    eprintln!(
        "usage: print [-v | report | write | convert | quote] LABEL [STRAND | MESSAGE | NUMBER] | \
         print [-v | report | write | convert | quote] -"
    );
    exit(2);
}

type Answer = fn(&[u8], &[u8]) -> Result<String, Refused>;

fn main() {
    let arguments: Vec<Vec<u8>> = std::env::args_os()
        .skip(1)
        .map(OsString::into_vec)
        .collect();
    let arguments: Vec<&[u8]> = arguments.iter().map(Vec::as_slice).collect();
    let (answer, rest): (Answer, &[&[u8]]) = match &arguments[..] {
        [b"-v", rest @ ..] => (reading_told, rest),
        [b"report", rest @ ..] => (reporting, rest),
        [b"write", rest @ ..] => (writing, rest),
        [b"convert", rest @ ..] => (|label, _| converting(label), rest),
        [b"quote", rest @ ..] => (quoting, rest),
        rest => (reading, rest),
    };
    let lines;
    let (label, second) = match *rest {
        [b"-"] => {
            lines = input();
            two_lines(&lines)
        }
        [label] => (label, &[][..]),
        [label, second] => (label, second),
        _ => usage(),
    };
    let text = printed(answer(label, second));
    if std::io::stdout().write_all(text.as_bytes()).is_err() {
        exit(2);
    }
}
