//! Samples of lines and verdicts, worked out by hand.

use crate::ffi::{self, Said};
use crate::{library_report, sample};

/// A verdict in numbers: kind, place, letter, step.
type Numbers = (u32, usize, u8, u8);

const CLEAN: Numbers = (0, 0, 0, 0);
const UNKNOWN: Numbers = (1, 0, 0, 0);
const NO_START: Numbers = (6, 0, 0, 0);

fn sub(place: usize, letter: u8) -> Numbers {
    (2, place, letter, 0)
}

fn del(place: usize, letter: u8) -> Numbers {
    (3, place, letter, 0)
}

fn ins(place: usize, letter: u8) -> Numbers {
    (4, place, letter, 0)
}

fn lost(step: u8) -> Numbers {
    (5, 0, 0, step)
}

/// What is told of strands of 1B with k=2, ATTGGGTA and TTCGTAAAGC, worked out by hand.
pub fn told() {
    let told: [(&str, &str, [Numbers; 2]); 34] = [
        ("ATTGGGTATTCGTAAAGC", "clean|clean", [CLEAN, CLEAN]),
        // One of two equal letters is gone or put in: the smaller place, up to that behind the last letter.
        ("ATGGGTATTCGTAAAGC", "del 1 T|clean", [del(1, b'T'), CLEAN]),
        (
            "ATTTGGGTATTCGTAAAGC",
            "ins 1 T|clean",
            [ins(1, b'T'), CLEAN],
        ),
        (
            "ATTGGGTATTCGTAAAGCC",
            "clean|ins 9 C",
            [CLEAN, ins(9, b'C')],
        ),
        (
            "ATTGGGTATTCGTAAAGCG",
            "clean|ins 10 G",
            [CLEAN, ins(10, b'G')],
        ),
        ("ATTGGGTATTCGTAAAG", "clean|del 9 C", [CLEAN, del(9, b'C')]),
        ("ATTGGGTCTTCGTAAAGC", "sub 7 C|clean", [sub(7, b'C'), CLEAN]),
        ("ATTGGGTACTCGTAAAGC", "clean|sub 0 C", [CLEAN, sub(0, b'C')]),
        (
            "CTTGGGTATTCGTAAATC",
            "sub 0 C|sub 8 T",
            [sub(0, b'C'), sub(8, b'T')],
        ),
        // Unknown letters in the place of A, of another letter, and put in.
        ("NTTGGGTATTCGTAAAGC", "unknown|clean", [UNKNOWN, CLEAN]),
        ("ATTGGGTNTTCGTAAAGC", "unknown|clean", [UNKNOWN, CLEAN]),
        ("ATTGGGTATTCGTNAAGC", "clean|unknown", [CLEAN, UNKNOWN]),
        ("NTTGGGTNTTCGTNNNGC", "unknown|unknown", [UNKNOWN, UNKNOWN]),
        ("ATTGGGTATTCNTAAAGC", "clean|sub 3 N", [CLEAN, sub(3, b'N')]),
        ("ATTGGGTANTCGTAAAGC", "clean|sub 0 N", [CLEAN, sub(0, b'N')]),
        (
            "ATTNGGGTATTCGTAAAGC",
            "ins 3 N|clean",
            [ins(3, b'N'), CLEAN],
        ),
        ("ATTGGGNATTCGTAAAGC", "sub 6 N|clean", [sub(6, b'N'), CLEAN]),
        // Beside another edit an unknown letter is not told.
        ("NTGGGTATTCGTAAAGC", "del 1 T|clean", [del(1, b'T'), CLEAN]),
        ("NTTGGGTCTTCGTAAAGC", "sub 7 C|clean", [sub(7, b'C'), CLEAN]),
        // The place is found with A for N, the letter is the received one there: before, among and behind the run.
        (
            "ATTGGGTATTCGTNAAAGC",
            "clean|ins 5 N",
            [CLEAN, ins(5, b'N')],
        ),
        (
            "ATTGGGTATTCGTANAAGC",
            "clean|ins 5 A",
            [CLEAN, ins(5, b'A')],
        ),
        (
            "ATTGGGTATTCGTAAANGC",
            "clean|ins 5 A",
            [CLEAN, ins(5, b'A')],
        ),
        ("ATTGGGTATTCGTNNGC", "clean|del 5 A", [CLEAN, del(5, b'A')]),
        // Marker hit and no separator, also at the end: step 3. No separator and a wrong check: step 6.
        ("ATTGGGTATCCGTATAGC", "clean|lost 3", [CLEAN, lost(3)]),
        ("ATTGGGTA", "clean|lost 3", [CLEAN, lost(3)]),
        ("GCGCGCGATTCGTAAAGC", "lost 6|clean", [lost(6), CLEAN]),
        ("", "lost 6|lost start", [lost(6), NO_START]),
        // Message AA with the syndrome of CC: step 7; the letter before the next one is C.
        ("AAGTTTCCAACGTAAAGC", "lost 7|clean", [lost(7), CLEAN]),
        // No clean segment behind a wrong syndrome: step 8. Two letters more: step 9.
        (
            "ATTGGGTCATCGTAAAGC",
            "lost 8|lost start",
            [lost(8), NO_START],
        ),
        (
            "ATTGGGNATTCGTNAAGC",
            "lost 8|lost start",
            [lost(8), NO_START],
        ),
        ("ATTGGGTATTCGTAAAGCAA", "clean|lost 9", [CLEAN, lost(9)]),
        ("CTAGGGTATTCGTAAAGC", "lost 9|clean", [lost(9), CLEAN]),
        // The last segment goes on to the end, also where a scan has found it.
        (
            "GCGCGCGATTCGTAAAGCA",
            "lost 6|ins 10 A",
            [lost(6), ins(10, b'A')],
        ),
        ("GCGCGCGATTCGTAAAGCAA", "lost 6|lost 9", [lost(6), lost(9)]),
    ];
    for (letters, words, numbers) in told {
        let name = format!("lines of {letters}");
        let (got, lines) = library_report(&[2, 2], 1, letters.as_bytes());
        let wanted: Vec<String> = words.split('|').zip(1..).map(line_of).collect();
        sample(&name, (got.refusal, got.place), (0, 0));
        sample(
            &name,
            String::from_utf8_lossy(&lines),
            wanted.concat().into(),
        );
        for (segment, (kind, at, letter, step)) in (1..).zip(numbers) {
            let wanted = Said {
                refusal: 0,
                place: 0,
                kind,
                at,
                letter,
                step,
            };
            let got = ffi::verdict(&[2, 2], 1, letters.as_bytes(), segment);
            sample(&format!("{name}, segment {segment}"), got, wanted);
        }
    }
    let (_, lines) = library_report(&[4], 1, b"ATCGCAAAGGT");
    sample("place 10", lines, b"1 sub 10 T\n".to_vec());
    // 256 times A, the check A, the separator CCC and the syndrome of nine A; a letter is changed.
    let mut long = [&[b'A'; 257][..], b"CCC", &[b'A'; 9]].concat();
    long[200] = b'G';
    let (_, lines) = library_report(&[256], 64, &long);
    sample("place 200", lines, b"1 sub 200 G\n".to_vec());
    // The longest lines: 9 bytes for the first segment, 13 for each of the next 8, 14 for each of the others.
    let (got, _) = library_report(&[2; 64], 32, b"");
    sample("most bytes", (got.refusal, got.length), (0, 883));
}

/// What is told where a scan passes segments or goes through wider windows, worked out by hand: B, lengths, letters, words
/// and the starts of the pieces.
pub fn passed() {
    let passed: [(u32, &[u16], &str, &str, &[usize]); 9] = [
        // The last letter of the first segment and the first of the second are hit: the third is found in its place.
        (
            3,
            &[3; 4],
            "ATCGTTTAGATAGGCACCCATTGGTAATGGGAATGGTCGCTTTGAC",
            "lost 8|lost start|clean|clean",
            &[0, 22, 22, 34],
        ),
        // An unknown letter in the third segment too.
        (
            3,
            &[2, 2, 2, 6],
            "ATTGGGTCATCGTAAAGCAAGCTNAACGCCTAATCGGTTTGAGG",
            "lost 8|lost start|lost start|clean",
            &[0, 28, 28, 28],
        ),
        // Of ATTGGGTA, TTCGGCCAAATCT and GGTATGGGAT the letters 4 to 15 and 4 to 19 are cut out: 12 and 16 before 21.
        (
            2,
            &[2, 4, 2],
            "ATTGAATCTGGTATGGGAT",
            "lost 8|lost start|clean",
            &[0, 9, 9],
        ),
        (
            2,
            &[2, 4, 2],
            "ATTGTGGTATGGGAT",
            "lost 8|lost start|clean",
            &[0, 5, 5],
        ),
        // 17 before 21 no start is tried.
        (
            2,
            &[2, 4, 2],
            "ATTTGGTATGGGAT",
            "lost 8|lost start|lost start",
            &[0, 14, 14],
        ),
        // A third segment stands at 5, and the second is found at 15.
        (
            2,
            &[2, 4, 2],
            "ATTGTGGTATGGGATAACGGCCAAATCTGGTATGGGAT",
            "lost 8|clean|clean",
            &[0, 15, 28],
        ),
        // 5 before 21 and 5 behind it a third segment stands: the first is taken, and letters are left over.
        (
            2,
            &[2, 4, 2],
            "ATAGATAGATAGAGATGGTATGGGATGGTATGGGAT",
            "lost 6|lost start|lost 9",
            &[0, 16, 16],
        ),
        // 16 behind 21, and 17 behind it.
        (
            2,
            &[2, 4, 2],
            "ATAGATAGATAGATAGATAGATAGATAGATAGATAGTGGTATGGGAT",
            "lost 6|lost start|clean",
            &[0, 37, 37],
        ),
        (
            2,
            &[2, 4, 2],
            "ATAGATAGATAGATAGATAGATAGATAGATAGATAGATGGTATGGGAT",
            "lost 6|lost start|lost start",
            &[0, 48, 48],
        ),
    ];
    for (b, lengths, letters, words, starts) in passed {
        let name = format!("lines of {letters}");
        let (_, lines) = library_report(lengths, b, letters.as_bytes());
        let wanted: Vec<String> = words.split('|').zip(1..).map(line_of).collect();
        sample(
            &name,
            String::from_utf8_lossy(&lines),
            wanted.concat().into(),
        );
        let piece = |segment: u32| ffi::piece(lengths, b, letters.as_bytes(), segment);
        let pieces: Vec<_> = (1..=lengths.len() as u32).map(piece).collect();
        let got: Vec<usize> = pieces.iter().map(|piece| piece.start).collect();
        sample(&name, got, starts.to_vec());
        // Each piece goes up to the next one.
        let ends: Vec<usize> = pieces.iter().map(|x| x.start + x.length).collect();
        sample(&name, ends, [&starts[1..], &[letters.len()]].concat());
    }
}

fn line_of((words, number): (&str, usize)) -> String {
    format!("{number} {words}\n")
}

/// What is refused first, with a buffer of no bytes, and the room that lines of 16 bytes need.
pub fn refused() {
    let many = [&[b'A'; 4096][..], b"X"].concat();
    let refused: [(&[u16], u32, &[u8], u32, usize); 6] = [
        (&[1, 5], 0, &many, 1, 0),
        (&[2, 3], 0, &many, 2, 0),
        (&[2, 3], 1, &many, 3, 0),
        (&[2, 2], 1, &many, 4, 0),
        (&[2, 2], 1, &many[1..], 6, 4095),
        (&[2, 2], 1, b"ATNx", 6, 3),
    ];
    for (lengths, b, letters, number, place) in refused {
        let got = ffi::report(lengths, b, letters, &mut []);
        sample(
            &format!("lines refused by {number}"),
            (got.refusal, got.place, got.length),
            (number, place, 0),
        );
        for segment in [0, 1, 3] {
            let wanted = Said {
                refusal: number,
                place,
                ..Said::default()
            };
            let got = ffi::verdict(lengths, b, letters, segment);
            sample(&format!("verdict refused by {number}"), got, wanted);
        }
    }
    let strand = b"ATTGGGTATTCGTAAAGC";
    for room in [0, 1, 15, 16, 17] {
        let mut out = vec![b'.'; room];
        let got = ffi::report(&[2, 2], 1, strand, &mut out);
        let mut wanted = vec![b'.'; room];
        let taken = room >= 16;
        if taken {
            wanted[..16].copy_from_slice(b"1 clean\n2 clean\n");
        }
        let answer = if taken { (0, 0, 16) } else { (5, 0, 0) };
        let name = format!("lines in {room} bytes");
        sample(&name, (got.refusal, got.place, got.length), answer);
        sample(&name, out, wanted);
    }
    for segment in [0, 3, 64, 65, u32::MAX] {
        let wanted = Said {
            refusal: 9,
            ..Said::default()
        };
        let got = ffi::verdict(&[2, 2], 1, strand, segment);
        sample(&format!("verdict of segment {segment}"), got, wanted);
    }
}
