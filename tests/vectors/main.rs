//! Answers each line of the vector files by the oracle, by the library and by the programs, and compares.

#[allow(dead_code)]
#[path = "../outside/ffi.rs"]
mod ffi;
#[allow(dead_code)]
#[path = "../outside/oracle.rs"]
mod oracle;
#[allow(dead_code)]
#[path = "../outside/program.rs"]
mod program;
#[path = "../outside/verdicts.rs"]
mod verdicts;

use oracle::{Refused, Verdict};
use program::{hex, CONVERTER, QUOTER, READER, REPORTER};
use std::process::exit;

/// Stands in lent buffers before a call.
const BEFORE: u8 = 0xA5;

/// The bytes of a buffer that is long enough for the lines of every strand.
const MOST_REPORT: usize = 960;

/// The fields of a question behind its kind.
struct Fields<'a> {
    words: std::str::Split<'a, char>,
}

impl<'a> Fields<'a> {
    fn word(&mut self) -> Option<&'a str> {
        self.words.next()
    }

    fn number<T: std::str::FromStr>(&mut self) -> Option<T> {
        self.word()?.parse().ok()
    }

    /// Lengths with commas.
    fn lengths(&mut self) -> Option<Vec<u16>> {
        match self.word()? {
            "." => Some(Vec::new()),
            word => word.split(',').map(|length| length.parse().ok()).collect(),
        }
    }

    fn bytes(&mut self) -> Option<Vec<u8>> {
        match self.word()? {
            "." => Some(Vec::new()),
            word => program::bytes_of(word.as_bytes()),
        }
    }

    /// Letters as they stand, or any bytes in hexadecimal.
    fn letters(&mut self) -> Option<Vec<u8>> {
        let word = self.word()?;
        match word.strip_prefix("0x") {
            Some(digits) => program::bytes_of(digits.as_bytes()),
            None if word == "." => Some(Vec::new()),
            None => Some(word.as_bytes().to_vec()),
        }
    }
}

enum Question {
    Label {
        label: Vec<u8>,
    },
    WriteLabel {
        b: u32,
        lengths: Vec<u16>,
        room: usize,
    },
    Convert {
        label: Vec<u8>,
        room: usize,
    },
    Write {
        b: u32,
        lengths: Vec<u16>,
        message: Vec<u8>,
        room: usize,
    },
    Read {
        b: u32,
        lengths: Vec<u16>,
        letters: Vec<u8>,
        rooms: (usize, usize),
    },
    Piece {
        b: u32,
        lengths: Vec<u16>,
        letters: Vec<u8>,
        segment: u32,
    },
    Quote {
        b: u32,
        lengths: Vec<u16>,
        strands: u16,
    },
    Reading {
        input: Vec<u8>,
    },
    Reporting {
        input: Vec<u8>,
    },
}

/// None where the kind is not known or a field does not fit it.
fn question_of(text: &str) -> Option<Question> {
    let mut fields = Fields {
        words: text.split(' '),
    };
    let question = match fields.word()? {
        "label" => Question::Label {
            label: fields.bytes()?,
        },
        "wlabel" => Question::WriteLabel {
            b: fields.number()?,
            lengths: fields.lengths()?,
            room: fields.number()?,
        },
        "convert" => Question::Convert {
            label: fields.bytes()?,
            room: fields.number()?,
        },
        "write" => Question::Write {
            b: fields.number()?,
            lengths: fields.lengths()?,
            message: fields.bytes()?,
            room: fields.number()?,
        },
        "read" => Question::Read {
            b: fields.number()?,
            lengths: fields.lengths()?,
            letters: fields.letters()?,
            rooms: (fields.number()?, fields.number()?),
        },
        "piece" => Question::Piece {
            b: fields.number()?,
            lengths: fields.lengths()?,
            letters: fields.letters()?,
            segment: fields.number()?,
        },
        "quote" => Question::Quote {
            b: fields.number()?,
            lengths: fields.lengths()?,
            strands: fields.number()?,
        },
        "prog" => Question::Reading {
            input: fields.letters()?,
        },
        "lines" => Question::Reporting {
            input: fields.letters()?,
        },
        _ => return None,
    };
    fields.word().is_none().then_some(question)
}

/// Bytes, lengths or letters as they stand in a line; none are a dot.
fn dotted(text: String) -> String {
    if text.is_empty() {
        return String::from(".");
    }
    text
}

fn letters_text(letters: &[u8]) -> String {
    dotted(letters.escape_ascii().to_string())
}

fn lengths_text(lengths: &[u16]) -> String {
    let lengths: Vec<String> = lengths.iter().map(u16::to_string).collect();
    dotted(lengths.join(","))
}

/// A refusal; the place is told for 6 alone.
fn refusal_text(number: u32, place: usize) -> String {
    match (number, place) {
        (6, _) => format!("refused 6 {place}"),
        (_, 0) => format!("refused {number}"),
        _ => format!("refused {number} with place {place}"),
    }
}

/// A verdict in the words of a line, with no space.
fn verdict_text(verdict: Verdict) -> String {
    oracle::words(verdict).replace(' ', "_")
}

fn read_text(message: &[u8], sheet: &[u8], counts: [u32; 3], pieces: &[String]) -> String {
    let [clean, corrected, lost] = counts;
    let (message, sheet, pieces) = (hex(message), hex(sheet), pieces.join(" "));
    format!("{message} {sheet} {clean} {corrected} {lost} | {pieces}")
}

fn by_oracle(question: &Question) -> Result<String, Refused> {
    match question {
        Question::Label { label } => {
            let (lengths, b) = oracle::read_label(label)?;
            Ok(format!("{} {b} {}", label[0] >> 4, lengths_text(&lengths)))
        }
        Question::WriteLabel { b, lengths, room } => {
            let mut out = vec![BEFORE; *room];
            let count = oracle::write_label(lengths, *b, &mut out)?;
            Ok(hex(&out[..count]))
        }
        Question::Convert { label, room } => {
            let mut out = vec![BEFORE; *room];
            let count = oracle::convert_label(label, &mut out)?;
            Ok(hex(&out[..count]))
        }
        Question::Write {
            b,
            lengths,
            message,
            room,
        } => {
            let mut out = vec![BEFORE; *room];
            let count = oracle::write(lengths, *b, message, &mut out)?;
            Ok(letters_text(&out[..count]))
        }
        Question::Read {
            b,
            lengths,
            letters,
            rooms,
        } => {
            let (mut message, mut sheet) = (vec![BEFORE; rooms.0], vec![BEFORE; rooms.1]);
            let counts = oracle::read(lengths, *b, letters, &mut message, &mut sheet)?;
            let mut pieces = Vec::new();
            for segment in oracle::segments(lengths, *b, letters)? {
                let verdict = verdict_text(segment.verdict);
                pieces.push(format!("{}-{}:{verdict}", segment.start, segment.end));
            }
            let sheet = &sheet[..pieces.len().div_ceil(4)];
            Ok(read_text(&message[..*b as usize], sheet, counts, &pieces))
        }
        Question::Piece {
            b,
            lengths,
            letters,
            segment,
        } => {
            let segments = oracle::segments(lengths, *b, letters);
            let (start, length) = oracle::piece(&segments, *segment)?;
            Ok(letters_text(&letters[start..start + length]))
        }
        Question::Quote {
            b,
            lengths,
            strands,
        } => {
            let quote = oracle::quote(lengths, *b, *strands)?;
            let (letters, sheet_bytes) = (quote.letters, quote.sheet_bytes);
            Ok(format!("{letters} {sheet_bytes} {}", quote.starts))
        }
        Question::Reading { input } => {
            let (label, strand) = program::two_lines(input);
            Ok(program::printed(program::reading(label, strand)))
        }
        Question::Reporting { input } => {
            let (label, strand) = program::two_lines(input);
            Ok(program::printed(program::reporting(label, strand)))
        }
    }
}

fn taken(refusal: u32, place: usize) -> Result<(), String> {
    if refusal == 0 && place == 0 {
        return Ok(());
    }
    Err(refusal_text(refusal, place))
}

/// The front of a lent buffer, if the rest is as before.
fn front(out: &[u8], count: usize) -> Result<&[u8], String> {
    let (front, rest) = out.split_at_checked(count).ok_or("too many bytes")?;
    if rest.iter().any(|&byte| byte != BEFORE) {
        return Err(String::from("bytes behind are changed"));
    }
    Ok(front)
}

/// The needed bytes of a lent buffer, or the refusal if all bytes are as before.
fn answered(out: &[u8], refusal: u32, place: usize, count: usize) -> Result<&[u8], String> {
    if refusal != 0 {
        front(out, 0)?;
    }
    taken(refusal, place)?;
    front(out, count)
}

fn by_library(question: &Question) -> Result<String, String> {
    match question {
        Question::Label { label } => {
            let got = ffi::read_label(label);
            let (lengths, rest) = got.lengths.split_at(got.count.min(64));
            if rest.iter().any(|&length| length != 0) {
                return Err(String::from("lengths behind the count"));
            }
            taken(got.refusal, 0)?;
            let lengths = lengths_text(lengths);
            Ok(format!("{} {} {lengths}", label[0] >> 4, got.b))
        }
        Question::WriteLabel { b, lengths, room } => {
            let mut out = vec![BEFORE; *room];
            let got = ffi::write_label(lengths, *b, &mut out);
            Ok(hex(answered(&out, got.refusal, got.place, got.length)?))
        }
        Question::Convert { label, room } => {
            let mut out = vec![BEFORE; *room];
            let got = ffi::convert_label(label, &mut out);
            Ok(hex(answered(&out, got.refusal, got.place, got.length)?))
        }
        Question::Write {
            b,
            lengths,
            message,
            room,
        } => {
            let mut out = vec![BEFORE; *room];
            let got = ffi::write(lengths, *b, message, &mut out);
            let strand = answered(&out, got.refusal, got.place, got.length)?;
            Ok(letters_text(strand))
        }
        Question::Read {
            b,
            lengths,
            letters,
            rooms,
        } => {
            let (mut message, mut sheet) = (vec![BEFORE; rooms.0], vec![BEFORE; rooms.1]);
            let got = ffi::read(lengths, *b, letters, &mut message, &mut sheet);
            let message = answered(&message, got.refusal, got.place, *b as usize)?;
            let count = lengths.len().div_ceil(4);
            let sheet = answered(&sheet, got.refusal, got.place, count)?;
            let mut pieces = Vec::new();
            for (segment, verdict) in (1..).zip(told(lengths, *b, letters)?) {
                let got = ffi::piece(lengths, *b, letters, segment);
                taken(got.refusal, got.place)?;
                let (end, verdict) = (got.start + got.length, verdict_text(verdict));
                pieces.push(format!("{}-{end}:{verdict}", got.start));
            }
            let counts = [got.clean, got.corrected, got.lost];
            Ok(read_text(message, sheet, counts, &pieces))
        }
        Question::Piece {
            b,
            lengths,
            letters,
            segment,
        } => {
            let got = ffi::piece(lengths, *b, letters, *segment);
            taken(got.refusal, got.place)?;
            let piece = letters.get(got.start..got.start + got.length);
            Ok(letters_text(piece.ok_or("a piece outside the strand")?))
        }
        Question::Quote {
            b,
            lengths,
            strands,
        } => {
            let got = ffi::quote(lengths, *b, *strands);
            let quote = format!("{} {} {}", got.letters, got.sheet_bytes, got.starts);
            if got.refusal != 0 && quote != "0 0 0" {
                return Err(format!("refused {} with {quote}", got.refusal));
            }
            taken(got.refusal, 0)?;
            Ok(quote)
        }
        Question::Reading { input } => Ok(program::run(READER, input)),
        Question::Reporting { input } => Ok(program::run(REPORTER, input)),
    }
}

/// The lines of the library, or its refusal, as the program prints them.
fn lines_text(lengths: &[u16], b: u32, letters: &[u8]) -> Result<String, String> {
    let mut out = vec![BEFORE; MOST_REPORT];
    let got = ffi::report(lengths, b, letters, &mut out);
    if got.refusal != 0 {
        front(&out, 0)?;
        return Ok(format!("refused {}\n", got.refusal));
    }
    let lines = answered(&out, got.refusal, got.place, got.length)?;
    Ok(String::from_utf8_lossy(lines).into_owned())
}

/// The verdicts of the library's lines, if its verdicts in numbers are the same.
fn told(lengths: &[u16], b: u32, letters: &[u8]) -> Result<Vec<Verdict>, String> {
    let lines = lines_text(lengths, b, letters)?;
    let verdicts = verdicts::verdicts_of(lines.as_bytes()).ok_or(format!("lines {lines:?}"))?;
    for (segment, &verdict) in (1..).zip(&verdicts) {
        let got = ffi::verdict(lengths, b, letters, segment);
        if got != verdicts::said_of(verdict) {
            return Err(format!("line {verdict:?} and verdict {got:?}"));
        }
    }
    Ok(verdicts)
}

fn same(side: &str, line: &str, wanted: &str, got: &str) -> bool {
    if wanted != got {
        println!("{side}: {line}\n  wanted {wanted}\n  got    {got}");
    }
    wanted == got
}

/// Whether the call gives the lines that the program prints for an input; no call takes one whose label is refused.
fn call_holds(question: &str, input: &[u8], printed: &str) -> bool {
    let (label, strand) = program::two_lines(input);
    let Ok((lengths, b)) = program::label_of(label) else {
        return true;
    };
    let lines = lines_text(&lengths, b, strand).unwrap_or_else(|fault| fault);
    same("library", question, printed, &lines)
}

/// Whether the program prints the answer for a label in a line of its own.
/// It refuses by 8 where that is not exactly what the label needs, and it has no buffer that is too short.
fn program_holds(question: &str, label: &[u8], answer: &str) -> bool {
    let exact = oracle::label_needs(label) == Some(label.len());
    let wanted = if exact { answer } else { "refused 8" };
    if wanted == "refused 5" {
        return true;
    }
    let printed = program::run(CONVERTER, (hex(label) + "\n").as_bytes());
    same(CONVERTER, question, &format!("{wanted}\n"), &printed)
}

/// Whether the program prints the answer for a label of edition 3, if its fields hold these lengths and B.
fn quoter_holds(question: &str, lengths: &[u16], b: u32, strands: u16, answer: &str) -> bool {
    if b > 1023 || lengths.len() > 127 || lengths.iter().any(|&length| length > 511) {
        return true;
    }
    let wanted = match answer.split(' ').collect::<Vec<&str>>()[..] {
        [letters, sheet_bytes, starts] => {
            format!("letters {letters}\nsheet bytes {sheet_bytes}\nstarts {starts}\n")
        }
        _ => format!("{answer}\n"),
    };
    let label = hex(&oracle::label(3, lengths, b));
    let printed = program::run(QUOTER, format!("{label}\n{strands}\n").as_bytes());
    same(QUOTER, question, &wanted, &printed)
}

/// Whether all sides give the answer of a line.
fn line_holds(line: &str) -> bool {
    let Some((question, answer)) = line.split_once('\t') else {
        println!("no answer: {line}");
        return false;
    };
    let Some(asked) = question_of(question) else {
        println!("not a known question: {line}");
        return false;
    };
    let oracle =
        by_oracle(&asked).unwrap_or_else(|refused| refusal_text(refused.number, refused.place));
    let library = by_library(&asked).unwrap_or_else(|refused| refused);
    let printed = answer.replace('|', "\n") + "\n";
    match &asked {
        Question::Reading { .. } => {
            same("oracle", question, &printed, &oracle) & same(READER, question, &printed, &library)
        }
        Question::Reporting { input } => {
            same("oracle", question, &printed, &oracle)
                & same(REPORTER, question, &printed, &library)
                & call_holds(question, input, &printed)
        }
        Question::Convert { label, .. } => {
            same("oracle", question, answer, &oracle)
                & same("library", question, answer, &library)
                & program_holds(question, label, answer)
        }
        Question::Quote {
            b,
            lengths,
            strands,
        } => {
            same("oracle", question, answer, &oracle)
                & same("library", question, answer, &library)
                & quoter_holds(question, lengths, *b, *strands, answer)
        }
        _ => {
            same("oracle", question, answer, &oracle) & same("library", question, answer, &library)
        }
    }
}

fn main() {
    let files: Vec<String> = std::env::args().skip(1).collect();
    let mut failed = files.is_empty();
    for file in files {
        let text = std::fs::read_to_string(&file).unwrap_or_default();
        let lines = text.lines().count();
        let held = text.lines().filter(|line| line_holds(line)).count();
        println!("{file}: {lines} lines, {} failed", lines - held);
        failed |= lines == 0 || held < lines;
    }
    if failed {
        exit(1);
    }
}
