//! Runs the programs that take a label and a strand, a label alone, and a label and a number of strands, on random inputs.

use crate::oracle::{self, Refused};
use crate::program::{self, hex, CONVERTER, QUOTER, READER, REPORTER};
use crate::strands::{self, Rng};
use std::process::exit;

/// What may stand behind the last line that is read.
const BEHIND: [&[u8]; 4] = [b"", b"\n", b"\n\n", b"\nATCG\nmore\n"];

/// The label of a layout and B: in its own edition, in edition 3 or in any.
fn label(rng: &mut Rng, lengths: &[u16], b: u32) -> Vec<u8> {
    match rng.below(12) {
        0 => strands::label_1(lengths.first().copied().unwrap_or(0), b),
        1 => strands::label_listed(2, lengths, b),
        2..=5 => strands::label_listed(3, lengths, b),
        _ => strands::label(lengths, b),
    }
}

/// A label of lengths, of a B or of a sum that is none.
fn bad_label(rng: &mut Rng, lengths: &[u16], b: u32) -> Vec<u8> {
    let (mut lengths, mut b) = (lengths.to_vec(), b);
    match rng.below(3) {
        0 => strands::bad_lengths(rng, &mut lengths),
        1 => b = rng.of(&[0, 129, 255, 513, 1023]),
        _ => (lengths, b) = strands::bad_cut(rng),
    }
    label(rng, &lengths, b)
}

/// Digits of which one is gone, put in or none.
fn bad_digits(rng: &mut Rng, digits: &mut Vec<u8>) {
    let place = rng.below(digits.len());
    match rng.below(3) {
        0 => {
            digits.remove(place);
        }
        1 => digits.insert(place, b'0'),
        _ => digits[place] = rng.of(b"gG \r-x/:@`\0\xFF"),
    }
}

/// The letters that come of a strand.
fn received(rng: &mut Rng, lengths: &[u16], strand: &[u8]) -> Vec<u8> {
    let damage = rng.of(&strands::DAMAGES);
    let mut letters = match rng.below(8) {
        0 => strand.to_vec(),
        1..=2 => strands::one_edit(rng, lengths, strand),
        3 => strands::overlong(rng),
        _ => strands::damaged(rng, damage, lengths, strand),
    };
    if !letters.is_empty() && rng.once_in(8) {
        strands::foreign(rng, &mut letters);
    }
    letters
}

/// A line with the label of a layout and B, or with one that is none, in digits of either case.
fn label_line(rng: &mut Rng, lengths: &[u16], b: u32) -> Vec<u8> {
    let label = match rng.below(4) {
        0 => bad_label(rng, lengths, b),
        _ => label(rng, lengths, b),
    };
    let mut line = hex(&label).into_bytes();
    for digit in &mut line {
        if rng.once_in(2) {
            digit.make_ascii_lowercase();
        }
    }
    if rng.once_in(12) {
        bad_digits(rng, &mut line);
    }
    line
}

/// Two lines, or one, and what may stand behind them.
fn input(rng: &mut Rng, pairs: &[(u32, u32)]) -> Vec<u8> {
    let (lengths, b) = strands::layout(rng, pairs);
    let message = strands::message(rng, b);
    let mut strand = vec![0; strands::strand_length(&lengths)];
    oracle::write(&lengths, b, &message, &mut strand).expect("a taken message");
    let mut input = label_line(rng, &lengths, b);
    if rng.once_in(20) {
        return input;
    }
    input.push(b'\n');
    input.extend(received(rng, &lengths, &strand));
    input.extend(rng.of(&BEHIND));
    input
}

/// A line with a label, and what may stand behind it.
fn label_input(rng: &mut Rng, pairs: &[(u32, u32)]) -> Vec<u8> {
    let (lengths, b) = strands::layout(rng, pairs);
    let mut input = label_line(rng, &lengths, b);
    input.extend(rng.of(&BEHIND));
    input
}

/// A line with a number of strands, or with a number that is none; zeros before it may go past all that is read.
fn number_line(rng: &mut Rng) -> Vec<u8> {
    let random = rng.next() as u16;
    let number = rng.of(&[0, 1, u16::MAX, random]);
    let mut line = number.to_string().into_bytes();
    match rng.below(16) {
        0..=2 => {
            let zeros = rng.of(&[1, 1, 2, 3, 4, 5, 20, 500, 9000]);
            line.splice(0..0, vec![b'0'; zeros]);
        }
        3..=4 => line = too_large(rng),
        5 => line.clear(),
        6 => line.insert(0, rng.of(b"+- \t0")),
        7 => line.push(rng.of(b"\r\r \t.")),
        8 => {
            let place = rng.below(line.len());
            line[place] = rng.of(b"/:aAfFxX,._ \0\xB2\xFF");
        }
        _ => {}
    }
    line
}

/// The digits of a number above 65,535, often one that is small again in fewer bits.
fn too_large(rng: &mut Rng) -> Vec<u8> {
    let more = rng.below(10) as u128;
    let power = rng.of(&[16, 16, 17, 31, 32, 63, 64, 100]);
    ((1 << power) + more).to_string().into_bytes()
}

/// A line with a label and one with a number of strands, or the first alone, and what may stand behind them.
fn number_input(rng: &mut Rng, pairs: &[(u32, u32)]) -> Vec<u8> {
    let (lengths, b) = strands::layout(rng, pairs);
    let mut input = label_line(rng, &lengths, b);
    if rng.once_in(20) {
        return input;
    }
    input.push(b'\n');
    input.extend(number_line(rng));
    input.extend(rng.of(&BEHIND));
    input
}

/// The number, as it is printed, that a program refuses by.
fn refusal(printed: &str) -> Option<&str> {
    printed.strip_prefix("refused ")
}

/// How often each number was met; 0 is taken.
struct Met([u64; 14]);

impl Met {
    fn add(&mut self, printed: &str) {
        let number = refusal(printed).and_then(|number| number.trim_end().parse().ok());
        self.0[number.unwrap_or(0usize)] += 1;
    }

    /// Tells how often the numbers were met, and ends the run where one of them never was.
    fn tell(&self, what: &str, numbers: &[usize]) {
        let refused: Vec<u64> = numbers.iter().map(|&number| self.0[number]).collect();
        let taken = self.0[0];
        println!("{what} agreed: {taken} taken, refused by {numbers:?}: {refused:?}");
        if taken == 0 || refused.contains(&0) {
            println!("an answer was never met");
            exit(1);
        }
    }
}

type Input = fn(&mut Rng, &[(u32, u32)]) -> Vec<u8>;
type Answer = fn(&[u8], &[u8]) -> Result<String, Refused>;

/// The programs print what the oracle does.
pub fn agree(seed: u64, count: u64) {
    strands_agree(seed, count);
    let converting: Answer = |label, _| program::converting(label);
    let numbers = [1, 2, 3, 8, 13];
    program_agrees((seed, count), CONVERTER, label_input, converting, &numbers);
    let numbers = [1, 2, 3, 8];
    program_agrees(
        (seed, count),
        QUOTER,
        number_input,
        program::quoting,
        &numbers,
    );
}

/// The reporting program prints what the oracle does, and refuses what the reading program refuses, by the same line.
fn strands_agree(seed: u64, count: u64) {
    let pairs = strands::pairs();
    let mut met = Met([0; 14]);
    for case in 0..count {
        let input = input(&mut Rng::new(seed, case), &pairs);
        let (read, told) = (program::run(READER, &input), program::run(REPORTER, &input));
        let (label, strand) = program::two_lines(&input);
        let wanted = program::printed(program::reporting(label, strand));
        if told != wanted || refusal(&read) != refusal(&told) {
            println!(
                "disagreement: seed {seed} case {case} input {} oracle {wanted:?} \
                 programs {read:?} {told:?}",
                input.escape_ascii()
            );
            exit(1);
        }
        met.add(&told);
    }
    let what = format!("programs: seed {seed}, {count} inputs");
    met.tell(&what, &[1, 2, 3, 4, 6, 8]);
}

/// A program prints what the oracle does for inputs of two lines, and refuses by each of the numbers.
fn program_agrees(
    (seed, count): (u64, u64),
    program: &str,
    input: Input,
    answer: Answer,
    numbers: &[usize],
) {
    let pairs = strands::pairs();
    let mut met = Met([0; 14]);
    for case in 0..count {
        let input = input(&mut Rng::new(seed, case), &pairs);
        let printed = program::run(program, &input);
        let (first, second) = program::two_lines(&input);
        let wanted = program::printed(answer(first, second));
        if printed != wanted {
            println!(
                "disagreement: seed {seed} case {case} input {} oracle {wanted:?} \
                 {program} {printed:?}",
                input.escape_ascii()
            );
            exit(1);
        }
        met.add(&printed);
    }
    met.tell(&format!("{program}: seed {seed}, {count} inputs"), numbers);
}
