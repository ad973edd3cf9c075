//! Verdicts as the library tells them: in the words of a line, and in numbers.

use crate::ffi::Said;
use crate::oracle::{words, Edit, Verdict};

/// The verdict that the words of a line tell; none where no verdict has these words.
fn verdict_of(text: &str) -> Option<Verdict> {
    let parts: Vec<&str> = text.split(' ').collect();
    let verdict = match parts[..] {
        ["clean"] => Verdict::Read(Edit::None),
        ["unknown"] => Verdict::Unknown,
        ["lost", "start"] => Verdict::NoStart,
        ["lost", step] => {
            let step = step.parse().ok()?;
            Verdict::Lost { step }
        }
        [name, place, letter] => {
            let (place, letter) = (place.parse().ok()?, *letter.as_bytes().first()?);
            Verdict::Read(match name {
                "sub" => Edit::Sub { place, letter },
                "del" => Edit::Del { place, letter },
                "ins" => Edit::Ins { place, letter },
                _ => return None,
            })
        }
        _ => return None,
    };
    (words(verdict) == text).then_some(verdict)
}

/// The verdicts of lines that number the segments from 1; none where they are no such lines.
pub fn verdicts_of(lines: &[u8]) -> Option<Vec<Verdict>> {
    let lines = std::str::from_utf8(lines).ok()?;
    let mut verdicts = Vec::new();
    for line in lines.strip_suffix('\n')?.split('\n') {
        let number = format!("{} ", verdicts.len() + 1);
        verdicts.push(verdict_of(line.strip_prefix(&number)?)?);
    }
    Some(verdicts)
}

/// A verdict in numbers.
pub fn said_of(verdict: Verdict) -> Said {
    let (kind, at, letter, step) = match verdict {
        Verdict::Read(Edit::None) => (0, 0, 0, 0),
        Verdict::Unknown => (1, 0, 0, 0),
        Verdict::Read(Edit::Sub { place, letter }) => (2, place, letter, 0),
        Verdict::Read(Edit::Del { place, letter }) => (3, place, letter, 0),
        Verdict::Read(Edit::Ins { place, letter }) => (4, place, letter, 0),
        Verdict::Lost { step } => (5, 0, 0, step as u8),
        Verdict::NoStart => (6, 0, 0, 0),
    };
    Said {
        refusal: 0,
        place: 0,
        kind,
        at,
        letter,
        step,
    }
}
