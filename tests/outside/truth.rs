//! Tests that verdicts are true of their pieces: an edit is done to the segment written anew, and the letters are compared.

use crate::oracle::{self, Edit, Verdict};
use crate::strands::{segment_lengths, syndrome_length, Change};

/// What was read of a strand, as the calls tell it.
pub struct Reading<'a> {
    pub lengths: &'a [u16],
    pub letters: &'a [u8],
    pub message: &'a [u8],
    /// The start and the length of each piece.
    pub pieces: &'a [(usize, usize)],
    pub verdicts: &'a [Verdict],
}

/// The letters with A in the place of each unknown one.
pub fn decided(letters: &[u8]) -> Vec<u8> {
    let decide = |&letter: &u8| if letter == b'N' { b'A' } else { letter };
    letters.iter().map(decide).collect()
}

/// The symbol of a letter, an unknown one taken as A.
fn symbol(letter: &u8) -> u8 {
    b"ATCG".iter().position(|x| x == letter).unwrap_or(0) as u8
}

fn symbols(letters: &[u8]) -> Vec<u8> {
    letters.iter().map(symbol).collect()
}

fn is_lost(verdict: Verdict) -> bool {
    matches!(verdict, Verdict::Lost { .. } | Verdict::NoStart)
}

/// Whether an edit with its letter makes the piece of the segment, and none of its kind at a smaller place does.
fn smallest(edit: Edit, segment: &[u8], piece: &[u8]) -> bool {
    let decided = decided(piece);
    let (place, from, letter, length) = match edit {
        Edit::None => return false,
        Edit::Sub { place, letter } => (place, piece, letter, segment.len()),
        Edit::Del { place, letter } => (place, segment, letter, segment.len() - 1),
        Edit::Ins { place, letter } => (place, piece, letter, segment.len() + 1),
    };
    if piece.len() != length || from.get(place) != Some(&letter) {
        return false;
    }
    let fits = |place: usize| {
        let change = match edit {
            Edit::Del { .. } => Change::LeaveOut(place),
            Edit::Ins { .. } => Change::PutIn(place, decided[place]),
            _ => Change::Replace(place, decided[place]),
        };
        change.done(segment) == decided
    };
    fits(place) && !(0..place).any(fits)
}

impl Reading<'_> {
    fn piece(&self, i: usize) -> &[u8] {
        let (start, length) = self.pieces[i];
        &self.letters[start..start + length]
    }

    /// The symbols of the message that stand in a segment.
    fn symbols(&self, i: usize) -> Vec<u8> {
        let from: usize = self.lengths[..i].iter().map(|&k| k as usize).sum();
        let symbol = |place: usize| self.message[place / 4] >> (6 - 2 * (place % 4)) & 3;
        (from..from + self.lengths[i] as usize)
            .map(symbol)
            .collect()
    }

    /// The symbol before a segment, none for the first.
    fn before(&self, i: usize) -> Option<u8> {
        match i {
            0 => None,
            // Behind a lost segment a scan has found the start.
            _ if is_lost(self.verdicts[i - 1]) => {
                self.letters[..self.pieces[i].0].last().map(symbol)
            }
            _ => self.last_symbol(i - 1),
        }
    }

    /// The letters of a segment with this message behind a symbol.
    fn segment(&self, i: usize, f: Option<u8>, message: &[u8]) -> Vec<u8> {
        let segment = oracle::written(message, f, syndrome_length(self.lengths[i]));
        segment.into_iter().map(oracle::letter_of).collect()
    }

    /// The last symbol of a segment by its message.
    fn last_symbol(&self, i: usize) -> Option<u8> {
        let message = self.symbols(i);
        oracle::written(&message, None, syndrome_length(self.lengths[i])).pop()
    }

    /// Whether letters are a segment with some message in this segment's place behind a symbol.
    fn is_segment(&self, i: usize, f: Option<u8>, letters: &[u8]) -> bool {
        let marker = if i == 0 { 0 } else { 2 };
        match letters.get(marker..marker + self.lengths[i] as usize) {
            Some(message) => self.segment(i, f, &symbols(message)) == letters,
            None => false,
        }
    }

    /// The start that a scan finds for a segment behind the last one lost in a step: of the starts above that one's, and within 8
    /// letters for each segment from it on of where their lengths end, the nearest that carries a clean segment.
    fn nearest_clean(&self, i: usize) -> Option<usize> {
        let in_step = |&j: &usize| matches!(self.verdicts[j], Verdict::Lost { .. });
        let lost = (0..i).rev().find(in_step)?;
        let (above, written) = (self.pieces[lost].0 + 1, segment_lengths(self.lengths));
        let centre = above - 1 + written[lost..i].iter().sum::<usize>();
        let away = 8 * (i - lost);
        let clean = |&start: &usize| match self.letters.get(start..start + written[i]) {
            Some(letters) => {
                let f = self.letters[..start].last().map(symbol);
                letters[0] == letters[1] && self.is_segment(i, f, letters)
            }
            None => false,
        };
        // The earlier one of two that are as near.
        (above.max(centre - away)..=centre + away)
            .filter(clean)
            .min_by_key(|start| start.abs_diff(centre))
    }

    /// Whether the marker is whole, whether a separator is found, and whether the check agrees.
    fn found(&self, i: usize) -> (bool, bool, bool) {
        let (p, k) = (self.pieces[i].0, self.lengths[i] as usize);
        let equal = |from: usize, count: usize| match self.letters.get(from..from + count) {
            Some(part) => part.iter().all(|x| symbol(x) == symbol(&part[0])),
            None => false,
        };
        let d = if i == 0 { p } else { p + 2 };
        let separator = (d + k..=d + k + 2).any(|place| equal(place, 3));
        let check = match self.letters.get(d..=d + k) {
            Some(part) => {
                let sum: usize = part[..k].iter().map(|x| symbol(x) as usize).sum();
                sum % 4 == symbol(&part[k]) as usize
            }
            None => false,
        };
        (i == 0 || equal(p, 2), separator, check)
    }

    /// Whether the verdict on a segment that has a start can be true by what the steps find first.
    fn step_fits(&self, i: usize) -> bool {
        let step = match self.verdicts[i] {
            Verdict::Lost { step } => step,
            _ => 0,
        };
        let last = i + 1 == self.lengths.len();
        let steps: &[u32] = match self.found(i) {
            (false, false, _) => &[3],
            (true, false, false) => &[6],
            (true, true, _) => &[0, 7, 8, 9],
            _ => &[0, 8, 9],
        };
        steps.contains(&step) && !(last && step == 8)
    }

    /// What is not true of the verdict on a segment.
    fn untrue(&self, i: usize) -> Option<&'static str> {
        let verdict = self.verdicts[i];
        let behind_lost = i > 0 && is_lost(self.verdicts[i - 1]);
        if verdict == Verdict::NoStart {
            // Up to the next start there are no letters.
            let next = self.pieces.get(i + 1).map_or(self.letters.len(), |x| x.0);
            let none = behind_lost && self.nearest_clean(i).is_none();
            return (!none || self.pieces[i] != (next, 0)).then_some("a start, or letters");
        }
        // The last segment goes on to the strand's end.
        let last = i + 1 == self.lengths.len();
        if behind_lost && !(last || verdict == Verdict::Read(Edit::None)) {
            return Some("been found by a scan and is not clean");
        }
        if behind_lost && self.nearest_clean(i) != Some(self.pieces[i].0) {
            return Some("another start, behind a lost one");
        }
        if !self.step_fits(i) {
            return Some("another step");
        }
        let (piece, f) = (self.piece(i), self.before(i));
        let segment = self.segment(i, f, &self.symbols(i));
        let holds = match verdict {
            Verdict::Read(Edit::None) => piece == segment,
            Verdict::Unknown => piece.contains(&b'N') && decided(piece) == segment,
            Verdict::Read(edit) => decided(piece) != segment && smallest(edit, &segment, piece),
            _ => !self.is_segment(i, f, &decided(piece)),
        };
        (!holds).then_some("another piece")
    }

    /// The first segment, from 1, whose verdict is not true, and in what.
    pub fn fault(&self) -> Option<(usize, &'static str)> {
        if self.verdicts.len() != self.lengths.len() {
            return Some((self.verdicts.len(), "no line of its own"));
        }
        (0..self.lengths.len()).find_map(|i| Some((i + 1, self.untrue(i)?)))
    }
}
