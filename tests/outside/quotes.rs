//! Compares quotes with the oracle's, with what the library writes and takes, and with the starts that readings try.

use crate::ffi::{self, Quoted};
use crate::oracle::{self, Quote, Refused};
use crate::{library_write, sample, Received, Run, Shown};

/// The starts of the orders that have most.
const MOST_STARTS: u32 = 32319;

/// The bytes that are enough for every sheet.
const MOST_SHEET: usize = 16;

/// What a quote answers, by the oracle.
fn quoted_of(answer: Result<Quote, Refused>) -> Quoted {
    match answer {
        Ok(quote) => Quoted {
            refusal: 0,
            letters: quote.letters,
            sheet_bytes: quote.sheet_bytes,
            starts: quote.starts,
        },
        Err(refused) => refused_by(refused.number),
    }
}

fn refused_by(number: u32) -> Quoted {
    Quoted {
        refusal: number,
        letters: 0,
        sheet_bytes: 0,
        starts: 0,
    }
}

/// The letters of a strand that the library writes, and the bytes of the smallest sheet that it reads one to.
fn of_one_strand(lengths: &[u16], b: u32) -> (u32, u32) {
    let mut message = vec![0; b as usize];
    let (written, _) = library_write(lengths, b, &message);
    let mut sheet = [0; MOST_SHEET];
    let mut refusal = |room: usize| {
        let sheet = &mut sheet[..room];
        ffi::read(lengths, b, &[], &mut message, sheet).refusal
    };
    let too_short = (0..=MOST_SHEET).take_while(|&room| refusal(room) == 5);
    (written.length as u32, too_short.count() as u32)
}

impl Run {
    /// Hands back the library's quote.
    fn check_quote(&mut self, lengths: &[u16], b: u32, strands: u16) -> Quoted {
        let layout = self.lend(lengths, &[]);
        let answer = oracle::quote(lengths, b, strands);
        self.count("quote", &answer);
        let wanted = quoted_of(answer);
        let layout_before = layout.with(lengths);
        let got = unsafe { ffi::dnalm_quote(layout.as_ptr(), lengths.len(), b, strands) };
        let call = || {
            let lengths = u16::shown(lengths);
            format!("quote lengths {lengths} B {b} strands {strands}")
        };
        self.same(&call, wanted, got);
        self.same_all(&call, "lengths", &layout_before, &layout);
        got
    }

    /// Quotes of one strand and of another number; hands back the starts.
    pub fn quotes(&mut self, lengths: &[u16], b: u32) -> u32 {
        let random = self.rng.next() as u16;
        let strands = self.rng.of(&[0, 0, 2, u16::MAX, random, random]);
        let quoted = [1, strands].map(|strands| (strands, self.check_quote(lengths, b, strands)));
        let (_, one) = quoted[0];
        if one.refusal != 0 {
            return 0;
        }
        self.met_if(strands == 0, "no strands quoted");
        self.met_if(strands == u16::MAX, "most strands quoted");
        let short_first = lengths[0] == 2 && lengths.len() > 1;
        self.met_if(short_first, "first length 2 of several");
        self.met_if(one.starts == MOST_STARTS, "most starts quoted");
        let (letters, sheet) = of_one_strand(lengths, b);
        for (strands, got) in quoted {
            let wanted = Quoted {
                refusal: 0,
                letters: letters * strands as u32,
                sheet_bytes: sheet * strands as u32,
                starts: one.starts,
            };
            let call = || {
                let lengths = u16::shown(lengths);
                format!("{strands} strands of lengths {lengths} B {b}")
            };
            self.same(&call, wanted, got);
        }
        one.starts
    }

    /// No strand makes a reading try more starts than are quoted: the empty one all of them, one that keeps the one-edit conditions none.
    pub fn check_starts(&mut self, received: &Received, kept: bool, quoted: u32) {
        let Ok(segments) = &received.segments else {
            return;
        };
        let (tried, letters) = (oracle::starts_tried(segments), received.letters.len());
        let (quoted, empty) = (quoted as usize, letters == 0);
        if tried > quoted || empty && tried != quoted || kept && tried != 0 {
            let call = received.call("starts", quoted);
            self.disagree(&call, format!("{tried} tried"), format!("{quoted} quoted"));
        }
        let mut scans = segments.iter().filter(|segment| !segment.tried.is_empty());
        let past = |start: &usize| *start >= letters;
        let any_past = scans.clone().any(|segment| segment.tried.iter().any(past));
        self.met_if(scans.next().is_some(), "starts tried");
        self.met_if(scans.next().is_some(), "several scans in one reading");
        self.met_if(any_past && !empty, "starts tried past the end");
        let all = tried > 0 && tried == quoted;
        self.met_if(all && !empty, "all starts tried by a strand with letters");
    }
}

/// What is quoted, worked out by hand: windows have 17 starts, 33, 49 and so on, and the first one 16 behind a first length of 2.
pub fn quoted() {
    let longest = [&[33; 60][..], &[17; 4]].concat();
    let quoted: [(u32, &[u16], u16, [u32; 3]); 18] = [
        (1, &[4], 0, [0, 0, 0]),
        (1, &[4], 1, [11, 1, 0]),
        (1, &[4], 65535, [720885, 65535, 0]),
        (1, &[2, 2], 0, [0, 0, 16]),
        (1, &[2, 2], 3, [54, 3, 16]),
        (2, &[4, 4], 1, [24, 1, 17]),
        (2, &[2, 6], 1, [24, 1, 16]),
        (2, &[6, 2], 1, [24, 1, 17]),
        (2, &[2, 4, 2], 10, [310, 10, 49]),
        (2, &[3, 2, 3], 10, [320, 10, 50]),
        (2, &[2; 4], 100, [3800, 100, 98]),
        (5, &[4; 5], 100, [6300, 200, 164]),
        (17, &[65, 3], 1, [89, 1, 17]),
        (64, &[256], 1, [269, 1, 0]),
        (512, &[256; 8], 2, [4332, 4, 455]),
        (32, &[2; 64], 1, [638, 16, 32318]),
        (128, &[8; 64], 255, [293250, 4080, MOST_STARTS]),
        (512, &longest, 65535, [188347590, 1048560, MOST_STARTS]),
    ];
    for (b, lengths, strands, [letters, sheet_bytes, starts]) in quoted {
        let wanted = Quoted {
            refusal: 0,
            letters,
            sheet_bytes,
            starts,
        };
        let name = format!("{strands} strands of lengths {}", u16::shown(lengths));
        sample(&name, ffi::quote(lengths, b, strands), wanted);
    }
}

/// What is refused first, whatever the number of strands.
pub fn refused() {
    let refused: [(&[u16], u32, u32); 10] = [
        (&[1, 5], 0, 1),
        (&[2, 257], 1, 1),
        (&[257; 65], 0, 1),
        (&[2, 3], 0, 2),
        (&[2, 3], u32::MAX, 2),
        (&[], 513, 2),
        (&[2; 65], 0, 2),
        (&[2, 3], 1, 3),
        (&[2; 66], 33, 3),
        (&[], 1, 3),
    ];
    for (lengths, b, number) in refused {
        for strands in [0, 1, 65535] {
            let name = format!("{strands} strands of lengths {}", u16::shown(lengths));
            sample(&name, ffi::quote(lengths, b, strands), refused_by(number));
        }
    }
}

/// How many starts the oracle tries, worked out by hand.
pub fn tried() {
    let tried: [(u32, &[u16], &str, usize); 15] = [
        (1, &[2, 2], "ATTGGGTATTCGTAAAGC", 0),
        // Behind the last segment there is no scan.
        (1, &[2, 2], "ATTGGGTA", 0),
        // Found at d = 0, -1 and -7.
        (1, &[2, 2], "GCGCGCGATTCGTAAAGC", 1),
        (1, &[2, 2], "CTGGGTATTCGTAAAGC", 2),
        (1, &[2, 2], "CTTACCTTTCA", 14),
        // Found nowhere: 1 to 16 are tried, also in the empty strand.
        (1, &[2, 2], "ATTGGGTCATCGTAAAGC", 16),
        (1, &[2, 2], "", 16),
        (2, &[4, 4], "GCAAAGGCAAGCTACAAATCC", 6),
        // One passed: 17 starts, then d = 0; 16, then up to -12, to -16 and to +16; 17, then d = 0 and -1 behind the second.
        (
            3,
            &[3; 4],
            "ATCGTTTAGATAGGCACCCATTGGTAATGGGAATGGTCGCTTTGAC",
            18,
        ),
        (2, &[2, 4, 2], "ATTGAATCTGGTATGGGAT", 40),
        (2, &[2, 4, 2], "ATTGTGGTATGGGAT", 48),
        (
            2,
            &[2, 4, 2],
            "ATAGATAGATAGATAGATAGATAGATAGATAGATAGTGGTATGGGAT",
            49,
        ),
        (2, &[2; 4], "GACCCTGCCTGACCGTAACTGAAATCAACGTAAAGC", 19),
        // Two scans, both at d = 0; and behind a found one nothing is found for the last.
        (2, &[2; 4], "GCGCGCGATTCGTAAAGCGCGCGCGCGATTCGTAAAGC", 2),
        (2, &[2; 4], "GCGCGCGATTCGTAAAGCGCGCGCGCGA", 18),
    ];
    for (b, lengths, letters, count) in tried {
        let segments = oracle::segments(lengths, b, letters.as_bytes()).unwrap_or_default();
        let name = format!("starts of {letters}");
        sample(&name, oracle::starts_tried(&segments), count);
    }
}
