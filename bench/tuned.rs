//! The independent reader and writer of DNA-LM strands, tuned by hand: safe Rust, no allocation.
//! It keeps the reading steps of docs/SPECIFICATION.md, the symbols of the strand in an array of 2,048, or of 4,096 where
//! it is longer, and a verdict for each segment, from which mark, sheet and counts are taken. Each k up to 64 has a copy of
//! the code, as has 256; those between share one. Equal lengths have a walk of their own, and so have strands with an N.
//! Its step 10 keeps the single scan: it seeks the next segment in one window; if that finds none, all later ones are lost.

/// It takes lengths that are not equal.
pub const MIXED: bool = true;

/// A refusal by its number in the table; the place is given for 6 alone.
#[derive(Clone, Copy, Debug, PartialEq, Eq)]
pub struct Refused {
    pub number: u32,
    pub place: usize,
}

/// What was done to a segment on the way; places are those of the written segment.
#[allow(dead_code)]
#[derive(Clone, Copy, Debug, PartialEq, Eq)]
enum Edit {
    None,
    Sub { place: usize, symbol: u8 },
    Del { place: usize, symbol: u8 },
    Ins { place: usize, symbol: u8 },
}

/// The reader's verdict on one segment.
#[allow(dead_code)]
#[derive(Clone, Copy, Debug, PartialEq, Eq)]
enum Verdict {
    Read(Edit),
    /// The piece equals its segment with N taken as A, and has an N.
    Unknown,
    Lost {
        step: u32,
    },
    NoStart,
}

/// A one in each byte; eight symbols are worked on in one number.
const ONES: u64 = 0x0101_0101_0101_0101;
/// Keeps every other byte.
const EVEN: u64 = 0x00FF_00FF_00FF_00FF;
/// The weights 1 to 8 for the bytes of a number, first byte first, as a factor.
const WEIGHTS_1: u64 = 0x0102_0304_0506_0708;
/// The weights 9 to 16.
const WEIGHTS_9: u64 = 0x090A_0B0C_0D0E_0F10;
/// The weights 1, 3, 5 and 7 for parts of 16 bits.
const WEIGHTS_ODD: u64 = 0x0001_0003_0005_0007;
/// The weights 2, 4, 6 and 8 for parts of 16 bits.
const WEIGHTS_EVEN: u64 = 0x0002_0004_0006_0008;
/// Brings the bytes of a number, each 0 or 1, into its highest byte as bits, first byte lowest.
const WEIGHT_BITS: u64 = 0x0102_0408_1020_4080;
/// The moves of a scan.
const MOVES: [isize; 17] = [0, -1, 1, -2, 2, -3, 3, -4, 4, -5, 5, -6, 6, -7, 7, -8, 8];
/// Stands in the array for each place past the strand's end.
const PAST: u8 = 4;
/// The longest window of a segment.
const MOST_WINDOW: usize = 288;

/// An array that begins as zeros.
trait Array<T>: AsRef<[T]> + AsMut<[T]> {
    const ZEROS: Self;
}

impl<const N: usize> Array<u8> for [u8; N] {
    const ZEROS: Self = [0; N];
}

impl<const N: usize> Array<u64> for [u64; N] {
    const ZEROS: Self = [0; N];
}

/// The length k of a segment, and the numbers that follow from it.
trait Length: Copy {
    /// It is at most 64.
    const SHORT: bool;
    /// The letters of a segment with one more, and what is loaded behind them.
    const WINDOW: usize;
    /// Four symbols to a byte.
    type Part: Array<u8>;
    /// Eight symbols to a number: those behind the marker, and a number more.
    type Numbers: Array<u64>;

    fn k(self) -> usize;

    /// The remainder of a sum of places modulo 2k.
    fn remainder(self, sum: u32) -> u32;

    #[inline(always)]
    fn cycle(self) -> u32 {
        2 * self.k() as u32
    }

    #[inline(always)]
    fn t(self) -> usize {
        (u32::BITS - (self.cycle() - 1).leading_zeros()) as usize
    }

    /// The length of a segment behind its marker.
    #[inline(always)]
    fn body(self) -> usize {
        self.k() + self.t() + 4
    }

    /// The numbers that a message takes, of C at most.
    #[inline(always)]
    fn numbers<const C: usize>(self) -> usize {
        self.k().div_ceil(8).min(C)
    }

    /// Keeps the message's symbols of its last number.
    #[inline(always)]
    fn keep(self) -> u64 {
        u64::MAX >> (8 * (self.k().next_multiple_of(8) - self.k()))
    }

    /// Brings the bits of eight symbols down to t of them.
    #[inline(always)]
    fn narrow(self) -> usize {
        8 * (8 - self.t().min(8))
    }

    /// Keeps t symbols.
    #[inline(always)]
    fn keep_t(self) -> u128 {
        (1 << (8 * self.t())) - 1
    }
}

/// A k of 2 to 64.
#[derive(Clone, Copy)]
struct Short<const K: usize>;

impl<const K: usize> Length for Short<K> {
    const SHORT: bool = true;
    const WINDOW: usize = 96;
    type Part = [u8; 16];
    type Numbers = [u64; 11];

    #[inline(always)]
    fn k(self) -> usize {
        K
    }

    #[inline(always)]
    fn remainder(self, sum: u32) -> u32 {
        sum % (2 * K as u32)
    }
}

/// A k of 65 to 256.
#[derive(Clone, Copy)]
struct Long<const K: usize>;

impl<const K: usize> Length for Long<K> {
    const SHORT: bool = false;
    const WINDOW: usize = MOST_WINDOW;
    type Part = [u8; 64];
    type Numbers = [u64; 35];

    #[inline(always)]
    fn k(self) -> usize {
        K
    }

    #[inline(always)]
    fn remainder(self, sum: u32) -> u32 {
        sum % (2 * K as u32)
    }
}

/// A k of 65 to 255 that is no constant.
#[derive(Clone, Copy)]
struct Any(u16);

impl Length for Any {
    const SHORT: bool = false;
    const WINDOW: usize = MOST_WINDOW;
    type Part = [u8; 64];
    type Numbers = [u64; 35];

    #[inline(always)]
    fn k(self) -> usize {
        self.0 as usize
    }

    /// The quotient is exact: 2k times the factor is at most 2k above 2 to the 32, and a sum is below 2 to the 16.
    #[inline(always)]
    fn remainder(self, sum: u32) -> u32 {
        let quotient = sum as u64 * FACTORS[self.0 as usize & 255] as u64 >> 32;
        sum - quotient as u32 * self.cycle()
    }
}

/// 2 to the 32 over 2k, rounded down, and one more.
static FACTORS: [u32; 256] = {
    let mut table = [0; 256];
    let mut k = 65;
    while k < 256 {
        table[k] = ((1 << 32) / (2 * k as u64)) as u32 + 1;
        k += 1;
    }
    table
};

/// Calls a function for k, with room for C numbers of a message; the last answer is for a k outside the limits.
macro_rules! by_k {
    ($k:expr, $call:ident $arguments:tt, $otherwise:expr) => {
        by_k! { @ $k, $call $arguments, $otherwise;
            1: 2 3 4 5 6 7 8,
            2: 9 10 11 12 13 14 15 16,
            3: 17 18 19 20 21 22 23 24,
            4: 25 26 27 28 29 30 31 32,
            5: 33 34 35 36 37 38 39 40,
            6: 41 42 43 44 45 46 47 48,
            7: 49 50 51 52 53 54 55 56,
            8: 57 58 59 60 61 62 63 64
        }
    };
    (@ $k:expr, $call:ident $arguments:tt, $otherwise:expr; $($c:literal: $($of:literal)*),*) => {
        match $k {
            $($($of => by_k!(@ $call, Short::<$of>, $c, $arguments),)*)*
            256 => by_k!(@ $call, Long::<256>, 32, $arguments),
            k @ 65..=255 => by_k!(@ $call, Any(k), 32, $arguments),
            _ => $otherwise,
        }
    };
    (@ $call:ident, $length:expr, $c:literal, ($($argument:expr),*)) => {
        $call::<_, $c>($length, $($argument),*)
    };
}

const fn sep(a: u8, b: u8, c: u8) -> u8 {
    let s = (a + 2) % 4;
    if s != b && s != c {
        return s;
    }
    let s = (a + 3) % 4;
    if s != b && s != c {
        return s;
    }
    (a + 1) % 4
}

/// Sep of the three symbols of its index.
static SEP: [u8; 64] = {
    let mut table = [0; 64];
    let mut i = 0;
    while i < 64 {
        table[i] = sep((i >> 4) as u8, (i >> 2 & 3) as u8, (i & 3) as u8);
        i += 1;
    }
    table
};

/// The eight bits of the index as bytes, most significant first.
static BITS: [u64; 256] = {
    let mut table = [0; 256];
    let mut v = 0;
    while v < 256 {
        let mut i = 0;
        while i < 8 {
            table[v] |= (v as u64 >> (7 - i) & 1) << (8 * i);
            i += 1;
        }
        v += 1;
    }
    table
};

/// The last syndrome symbols, eight at most, behind the first one where there are nine.
#[inline(always)]
fn behind_first(length: impl Length, last: u64, [low, high]: [u32; 2]) -> u128 {
    if length.t() <= 8 {
        return last as u128;
    }
    (high >> 8 << 1 | low >> 8) as u128 | (last as u128) << 8
}

const LETTERS: [u8; 4] = *b"ATCG";

/// The four letters of a byte.
static FOUR: [[u8; 4]; 256] = {
    let mut table = [[0; 4]; 256];
    let mut v = 0;
    while v < 256 {
        let mut i = 0;
        while i < 4 {
            table[v][i] = LETTERS[v >> (6 - 2 * i) & 3];
            i += 1;
        }
        v += 1;
    }
    table
};

/// Of a byte's four symbols, 16 bits each: high places, low places (from 1), high ones, low ones.
/// Of the 64 bytes of a message none passes 640, and none of their running sums 20,160.
static FOUR_SUMS: [u64; 256] = {
    let mut table = [0; 256];
    let mut v = 0;
    while v < 256 {
        let mut i = 0;
        while i < 4 {
            let symbol = v as u64 >> (6 - 2 * i) & 3;
            let both = (symbol >> 1) << 16 | (symbol & 1);
            table[v] += (both * (i + 1)) << 32 | both;
            i += 1;
        }
        v += 1;
    }
    table
};

/// Check and separator in letters, by check and the first two syndrome symbols.
static CHECK_SEP: [[u8; 4]; 64] = {
    let mut table = [[0; 4]; 64];
    let mut i = 0;
    while i < 64 {
        let s = LETTERS[SEP[i] as usize];
        table[i] = [LETTERS[i >> 4], s, s, s];
        i += 1;
    }
    table
};

/// The same in symbols, first byte first.
static CHECK_SEP_SYMBOLS: [u32; 64] = {
    let mut table = [0; 64];
    let mut i = 0;
    while i < 64 {
        table[i] = i as u32 >> 4 | SEP[i] as u32 * 0x0101_0100;
        i += 1;
    }
    table
};

/// Ones, then zeros: a part of it keeps the bytes before a place.
static BEFORE: [u8; 2 * MOST_WINDOW] = {
    let mut table = [0; 2 * MOST_WINDOW];
    let mut i = 0;
    while i < MOST_WINDOW {
        table[i] = 0xFF;
        i += 1;
    }
    table
};

/// So many numbers that keep the bytes before a place.
#[inline(always)]
fn before(place: usize, numbers: usize) -> &'static [u8] {
    &BEFORE[MOST_WINDOW - place..][..8 * numbers]
}

#[inline(always)]
fn eight(bytes: &[u8], at: usize) -> u64 {
    match bytes[at..].first_chunk::<8>() {
        Some(eight) => u64::from_le_bytes(*eight),
        None => 0,
    }
}

#[inline(always)]
fn sixteen(bytes: &[u8], at: usize) -> u128 {
    match bytes[at..].first_chunk::<16>() {
        Some(sixteen) => u128::from_le_bytes(*sixteen),
        None => 0,
    }
}

/// The weighted sum of the bytes, where it is below 256.
#[inline(always)]
fn weighted(x: u64, weights: u64) -> u32 {
    (x.wrapping_mul(weights) >> 56) as u32
}

/// The sum of the bytes, where it is below 256.
#[inline(always)]
fn total(x: u64) -> u32 {
    weighted(x, ONES)
}

/// The sum of the bytes.
#[inline(always)]
fn long_total(x: u64) -> u32 {
    let pairs = (x & EVEN) + (x >> 8 & EVEN);
    (pairs.wrapping_mul(0x0001_0001_0001_0001) >> 48) as u32
}

/// The sum of the bytes with the weights 1 to 8.
#[inline(always)]
fn long_weighted(x: u64) -> u32 {
    let odd = (x & EVEN).wrapping_mul(WEIGHTS_ODD);
    let even = (x >> 8 & EVEN).wrapping_mul(WEIGHTS_EVEN);
    (odd.wrapping_add(even) >> 48) as u32
}

fn refuse<T>(number: u32) -> Result<T, Refused> {
    Err(Refused { number, place: 0 })
}

/// Tests 1, 2 and 3; hands back the length where all are equal.
#[inline(always)]
fn equal_length(lengths: &[u16], b: u32, message: Option<usize>) -> Result<Option<u16>, Refused> {
    let first = lengths.first().copied().unwrap_or(2);
    let differ = lengths.iter().fold(0, |differ, k| differ | k ^ first);
    let outside = |k: u16| !(2..=256).contains(&k);
    if outside(first) || differ != 0 && lengths.iter().any(|&k| outside(k)) {
        return refuse(1);
    }
    if !(1..=512).contains(&b) || message.is_some_and(|length| length != b as usize) {
        return refuse(2);
    }
    if !(1..=64).contains(&lengths.len()) {
        return refuse(3);
    }
    let sum = if differ == 0 {
        lengths.len() as u32 * first as u32
    } else {
        lengths.iter().map(|&k| k as u32).sum()
    };
    if sum != 4 * b {
        return refuse(3);
    }
    Ok((differ == 0).then_some(first))
}

/// Writes the strand of a message; hands back its number of letters.
pub fn write(lengths: &[u16], b: u32, message: &[u8], out: &mut [u8]) -> Result<usize, Refused> {
    match equal_length(lengths, b, Some(message.len()))? {
        Some(k) => by_k!(k, write_equal(lengths.len(), message, out), refuse(1)),
        None => write_mixed(lengths, message, out),
    }
}

/// Test 5, and the letters of l segments of equal lengths.
#[inline(never)]
fn write_equal<L: Length, const C: usize>(
    length: L,
    l: usize,
    message: &[u8],
    out: &mut [u8],
) -> Result<usize, Refused> {
    let letters = l * (length.body() + 2) - 2;
    let Some(mut rest) = out.get_mut(..letters) else {
        return refuse(5);
    };
    let mut f = 0;
    for i in 0..l {
        let part = part_of(length, message, i * length.k(), length.k() % 4 == 0);
        let part = part.as_ref();
        if i > 0 {
            let Some((marker, more)) = rest.split_first_chunk_mut::<2>() else {
                return refuse(5);
            };
            *marker = [LETTERS[SEP[(f << 4 | part[0] >> 4) as usize & 63] as usize & 3]; 2];
            rest = more;
        }
        let Some((body, more)) = rest.split_at_mut_checked(length.body()) else {
            return refuse(5);
        };
        rest = more;
        f = write_body(length, part, body);
    }
    Ok(letters)
}

/// Test 5, and the letters of segments that have lengths of their own.
#[inline(never)]
fn write_mixed(lengths: &[u16], message: &[u8], out: &mut [u8]) -> Result<usize, Refused> {
    let written = |&k: &u16| k as usize + 22 - (2 * k - 1).leading_zeros() as usize;
    let length = lengths.iter().map(written).sum::<usize>() - 2;
    let Some(mut rest) = out.get_mut(..length) else {
        return refuse(5);
    };
    let (mut f, mut at) = (None, 0);
    for &k in lengths {
        let (last, more) = by_k!(k, write_segment(message, at, f, rest), return refuse(1));
        (f, rest) = (Some(last), more);
        at += k as usize;
    }
    Ok(length)
}

/// One segment from the message's symbol at a place on; hands back its last symbol, and the room behind it.
#[inline(never)]
fn write_segment<'a, L: Length, const C: usize>(
    length: L,
    message: &[u8],
    at: usize,
    f: Option<u8>,
    mut out: &'a mut [u8],
) -> (u8, &'a mut [u8]) {
    let part = part_of(length, message, at, length.k() % 4 == 0 && at % 4 == 0);
    let part = part.as_ref();
    if let Some(f) = f {
        let (marker, more) = out.split_at_mut(2);
        marker.fill(LETTERS[SEP[(f << 4 | part[0] >> 4) as usize & 63] as usize & 3]);
        out = more;
    }
    let (body, rest) = out.split_at_mut(length.body());
    (write_body(length, part, body), rest)
}

/// The bytes of one segment's message, from the symbol at a place on, spare bits zero; whole ones are copied.
#[inline(always)]
fn part_of<L: Length>(length: L, message: &[u8], at: usize, whole: bool) -> L::Part {
    let bytes = length.k().div_ceil(4);
    let shift = at % 4 * 2;
    let at = at / 4;
    let mut room = L::Part::ZEROS;
    let part = &mut room.as_mut()[..bytes];
    if whole {
        part.copy_from_slice(&message[at..at + bytes]);
        return room;
    }
    let mut byte = message[at] as u32;
    for (j, part) in part.iter_mut().enumerate() {
        let next = message.get(at + j + 1).copied().unwrap_or(0) as u32;
        *part = ((byte << 8 | next) << shift >> 8) as u8;
        byte = next;
    }
    part[bytes - 1] &= 0xFF << (2 * (4 * bytes - length.k()));
    room
}

/// Message, check, separator and syndrome in letters; hands back the last symbol.
#[inline(always)]
fn write_body<L: Length>(length: L, part: &[u8], body: &mut [u8]) -> u8 {
    let (k, t) = (length.k(), length.t());
    let (mut sums, mut fours) = (0u64, 0u64);
    let body = &mut body[..length.body()];
    for j in (0..k.div_ceil(4)).rev() {
        let byte = part[j] as usize;
        fours += sums;
        sums += FOUR_SUMS[byte];
        body[4 * j..4 * j + 4].copy_from_slice(&FOUR[byte]);
    }
    let high = (sums >> 48) as u32 + 4 * (fours >> 16 & 0xFFFF) as u32;
    let low = (sums >> 32 & 0xFFFF) as u32 + 4 * (fours & 0xFFFF) as u32;
    let (high, low) = (length.remainder(high), length.remainder(low));
    let highs = BITS[(high & 255) as usize] >> length.narrow();
    let lows = BITS[(low & 255) as usize] >> length.narrow();
    let check = (2 * (sums >> 16) + sums) as usize & 3;
    let last = highs << 1 | lows;
    let a = behind_first(length, last, [low, high]);
    let letters = 0x41 * ONES + last + lows * 0x12 - (highs & lows) * 0x0F;
    let front = check << 4 | (a << 2) as usize & 12 | (a >> 8) as usize & 3;
    body[k..k + 4].copy_from_slice(&CHECK_SEP[front]);
    if t > 8 {
        body[k + 4] = LETTERS[a as usize & 3];
    }
    let eight = t.min(8);
    body[k + 4 + t - eight..].copy_from_slice(&letters.to_le_bytes()[..eight]);
    (2 * (high & 1) + (low & 1)) as u8
}

/// A received strand of at most R symbols, N taken as A; past its end stands PAST.
struct Strand<const R: usize> {
    symbols: [u8; R],
    length: usize,
}

/// Eight letters as symbols; marks the foreign ones.
#[inline(always)]
fn symbols_of(letters: &[u8; 8], foreign: &mut u64) -> [u8; 8] {
    let x = u64::from_le_bytes(*letters);
    // Bit 1 is the high layer, bit 2 the low one; of the four letters T alone has bit 4 and not bit 0.
    let low = x >> 2;
    let t = low & !(x >> 1);
    *foreign |= (x ^ 0x40 * ONES) & 0xE8 * ONES | (!(x ^ t) | x >> 4 ^ t) & ONES;
    (x & 2 * ONES | low & ONES).to_le_bytes()
}

impl<const R: usize> Strand<R> {
    /// Eight letters at once, the last eight counted from the end; hands back whether all are A, T, C or G.
    #[inline(always)]
    fn fill(&mut self, letters: &[u8]) -> bool {
        let mut foreign = 0;
        let symbols = &mut self.symbols[..letters.len()];
        let (eights, _) = letters.as_chunks::<8>();
        let (filled, _) = symbols.as_chunks_mut::<8>();
        for (eight, filled) in eights.iter().zip(filled) {
            *filled = symbols_of(eight, &mut foreign);
        }
        if let (Some(eight), Some(filled)) = (letters.last_chunk(), symbols.last_chunk_mut()) {
            *filled = symbols_of(eight, &mut foreign);
        } else {
            let mut eight = [b'A'; 8];
            eight[..letters.len()].copy_from_slice(letters);
            let filled = symbols_of(&eight, &mut foreign);
            symbols.copy_from_slice(&filled[..letters.len()]);
        }
        foreign == 0
    }

    /// Makes each N an A, and hands back where it stands: a bit for each place, the first one lowest. No letter is foreign.
    #[inline(always)]
    fn unknown_as_a<const P: usize>(&mut self, letters: &[u8]) -> [u8; P] {
        let mut places = [0; P];
        let mut note = |place: usize| {
            self.symbols[place] = 0;
            places[place / 8] |= 1 << (place % 8);
        };
        let (eights, rest) = letters.as_chunks::<8>();
        for (c, eight) in eights.iter().enumerate() {
            // Of the five letters N alone has bit 3.
            let mut unknown = u64::from_le_bytes(*eight) & 8 * ONES;
            while unknown != 0 {
                note(8 * c + unknown.trailing_zeros() as usize / 8);
                unknown &= unknown - 1;
            }
        }
        for (i, &x) in rest.iter().enumerate() {
            if x == b'N' {
                note(8 * eights.len() + i);
            }
        }
        places
    }
}

/// Whether a byte is one of the five letters; no comparison is skipped, so that many bytes are tested at once.
#[inline(always)]
fn is_letter(x: u8) -> bool {
    (x == b'A') | (x == b'T') | (x == b'C') | (x == b'G') | (x == b'N')
}

#[cold]
fn first_foreign(letters: &[u8]) -> Refused {
    let place = letters.iter().position(|&x| !is_letter(x));
    Refused {
        number: 6,
        place: place.unwrap_or(0),
    }
}

/// A strand as it is read.
trait Received: Copy {
    fn symbols(&self) -> &[u8];

    fn length(self) -> usize;

    /// Whether an N stands in a segment, from its start to its end.
    fn unknown_in<L: Length>(self, start: usize, end: usize) -> bool;

    /// The window of a segment at a place, where the array holds it.
    #[inline(always)]
    fn window<L: Length>(&self, p: usize) -> Option<&[u8]> {
        self.symbols().get(p..)?.get(..L::WINDOW)
    }

    /// The same at the array's end, PAST behind it.
    #[cold]
    fn last_window(self, p: usize) -> [u8; MOST_WINDOW] {
        let rest = self.symbols().get(p..).unwrap_or(&[]);
        let mut window = [PAST; MOST_WINDOW];
        let count = rest.len().min(MOST_WINDOW);
        window[..count].copy_from_slice(&rest[..count]);
        window
    }

    /// The verdict on a segment that is read at p.
    #[inline(always)]
    fn verdict<L: Length>(self, p: usize, segment: &Segment) -> Verdict {
        if self.unknown_in::<L>(p, segment.end) && segment.edit == Edit::None {
            Verdict::Unknown
        } else {
            Verdict::Read(segment.edit)
        }
    }
}

/// A strand without an N.
impl<const R: usize> Received for &Strand<R> {
    #[inline(always)]
    fn symbols(&self) -> &[u8] {
        &self.symbols
    }

    #[inline(always)]
    fn length(self) -> usize {
        self.length
    }

    #[inline(always)]
    fn unknown_in<L: Length>(self, _: usize, _: usize) -> bool {
        false
    }
}

/// A strand with an N in these places.
#[derive(Clone, Copy)]
struct WithUnknown<'a, const R: usize, const P: usize> {
    strand: &'a Strand<R>,
    places: &'a [u8; P],
}

impl<const R: usize, const P: usize> Received for WithUnknown<'_, R, P> {
    #[inline(always)]
    fn symbols(&self) -> &[u8] {
        &self.strand.symbols
    }

    #[inline(always)]
    fn length(self) -> usize {
        self.strand.length
    }

    #[inline(always)]
    fn unknown_in<L: Length>(self, start: usize, end: usize) -> bool {
        let bits = &self.places[start / 8..];
        if L::SHORT {
            return sixteen(bits, 0) >> (start % 8) << (128 - (end - start)) != 0;
        }
        // A segment has at most 272 letters, and seven bits may stand before them.
        let first = u64::MAX << (start % 8);
        let count = start % 8 + end - start;
        let mut unknown = eight(bits, 0) & first & ones_below(count);
        for c in 1..5 {
            unknown |= eight(bits, 8 * c) & ones_below(count.saturating_sub(64 * c));
        }
        unknown != 0
    }
}

/// So many ones from the lowest bit on, at most 64.
#[inline(always)]
fn ones_below(count: usize) -> u64 {
    if count < 64 {
        (1 << count) - 1
    } else {
        u64::MAX
    }
}

/// The sum of the places, from 1, that hold a one in a layer of at most 64.
#[inline(always)]
fn places<const C: usize>(x: &[u64; C], layer: u32) -> u32 {
    if C == 1 {
        return weighted(x[0] >> layer & ONES, WEIGHTS_1);
    }
    if C == 2 {
        let (first, second) = (x[0] >> layer & ONES, x[1] >> layer & ONES);
        let both = first
            .wrapping_mul(WEIGHTS_1)
            .wrapping_add(second.wrapping_mul(WEIGHTS_9));
        return (both >> 56) as u32;
    }
    // Two numbers at once, the last two first.
    let (mut lanes, mut steps) = ([0u64; 2], [0u64; 2]);
    for c in (0..C.div_ceil(2)).rev() {
        let second = if 2 * c + 1 < C { x[2 * c + 1] } else { 0 };
        lanes[0] += x[2 * c] >> layer & ONES;
        lanes[1] += second >> layer & ONES;
        if c > 0 {
            steps[0] += lanes[0];
            steps[1] += lanes[1];
        }
    }
    let steps = 8 * total(2 * (steps[0] + steps[1]) + lanes[1]);
    if C < 8 {
        steps + weighted(lanes[0] + lanes[1], WEIGHTS_1)
    } else {
        steps + weighted(lanes[0], WEIGHTS_1) + weighted(lanes[1], WEIGHTS_1)
    }
}

/// The sums of the places of both layers, low and high, and the sum of the symbols.
#[inline(always)]
fn long_sums<const C: usize>(x: &[u64; C], numbers: usize) -> ([u32; 2], u32) {
    let (pairs, _) = x[..numbers.next_multiple_of(2).min(C)].as_chunks::<2>();
    let (mut low, mut high) = (Lanes::new(), Lanes::new());
    for (c, pair) in pairs.iter().enumerate().rev() {
        low.add(pair[0] & ONES, pair[1] & ONES, c > 0);
        high.add(pair[0] >> 1 & ONES, pair[1] >> 1 & ONES, c > 0);
    }
    let sum = 2 * high.ones() + low.ones();
    ([low.places(), high.places()], sum)
}

/// The ones of a layer in each byte, of even and of odd numbers, and the steps of two numbers that lead to them.
/// A byte of the ones is at most 16 and one of the steps at most 120, so that even and odd ones add up in a byte.
struct Lanes {
    ones: [u64; 2],
    steps: [u64; 2],
}

impl Lanes {
    #[inline(always)]
    fn new() -> Lanes {
        Lanes {
            ones: [0; 2],
            steps: [0; 2],
        }
    }

    /// Two numbers more, the last ones first.
    #[inline(always)]
    fn add(&mut self, even: u64, odd: u64, step: bool) {
        self.ones[0] += even;
        self.ones[1] += odd;
        if step {
            self.steps[0] += self.ones[0];
            self.steps[1] += self.ones[1];
        }
    }

    #[inline(always)]
    fn ones(&self) -> u32 {
        long_total(self.ones[0] + self.ones[1])
    }

    /// The sum of the places, from 1.
    #[inline(always)]
    fn places(&self) -> u32 {
        let steps = 2 * long_total(self.steps[0] + self.steps[1]) + long_total(self.ones[1]);
        8 * steps + long_weighted(self.ones[0] + self.ones[1])
    }
}

/// The number of ones in a layer; a byte of 32 numbers is at most 32.
#[inline(always)]
fn ones<L: Length, const C: usize>(x: &[u64; C], layer: u32) -> u32 {
    let lanes = x.iter().map(|x| x >> layer & ONES).sum();
    if L::SHORT {
        total(lanes)
    } else {
        long_total(lanes)
    }
}

/// The sum of the symbols; a byte of 32 numbers is at most 128, where all are PAST.
#[inline(always)]
fn symbol_sum<L: Length, const C: usize>(x: &[u64; C]) -> u32 {
    let lanes = x.iter().sum();
    if L::SHORT {
        total(lanes)
    } else {
        long_total(lanes)
    }
}

/// What is written behind a message.
#[derive(Clone, Copy)]
struct Tail {
    /// Check and separator, first byte first.
    front: u32,
    /// The t syndrome symbols, first byte first.
    a: u128,
    /// The syndromes of the layers, low and high.
    syndromes: [u32; 2],
}

impl Tail {
    #[inline(always)]
    fn new(sum: u32, a: u128, syndromes: [u32; 2]) -> Tail {
        let index = (sum & 3) << 4 | (a << 2) as u32 & 12 | (a >> 8) as u32 & 3;
        Tail {
            front: CHECK_SEP_SYMBOLS[index as usize],
            a,
            syndromes,
        }
    }

    #[inline(always)]
    fn of<L: Length, const C: usize>(length: L, x: &[u64; C]) -> Tail {
        let (sums, sum) = if L::SHORT {
            ([places(x, 0), places(x, 1)], symbol_sum::<L, C>(x))
        } else {
            long_sums(x, length.numbers::<C>())
        };
        let [low, high] = sums.map(|sum| length.remainder(sum));
        let (highs, lows) = (BITS[(high & 255) as usize], BITS[(low & 255) as usize]);
        let last = (highs << 1 | lows) >> length.narrow();
        let a = behind_first(length, last, [low, high]);
        Tail::new(sum, a, [low, high])
    }

    #[inline(always)]
    fn check(&self) -> u8 {
        self.front as u8
    }

    /// The last syndrome symbol.
    #[inline(always)]
    fn last(&self, length: impl Length) -> u8 {
        (self.a >> (8 * (length.t() - 1))) as u8 & 3
    }

    /// All of it, first byte first.
    #[inline(always)]
    fn written(&self) -> u128 {
        self.front as u128 | self.a << 32
    }

    /// Whether it stands at the front of the bytes.
    #[inline(always)]
    fn stands(&self, length: impl Length, bytes: &[u8; 16]) -> bool {
        let other = self.written() ^ u128::from_le_bytes(*bytes);
        other << (8 * (12 - length.t())) == 0
    }
}

/// The k symbols from a place on.
#[inline(always)]
fn message_at<const C: usize>(length: impl Length, bytes: &[u8], at: usize) -> [u64; C] {
    let numbers = length.numbers::<C>();
    let bytes = &bytes[at..at + 8 * numbers];
    let mut x = [0; C];
    for c in 0..numbers {
        x[c] = eight(bytes, 8 * c);
    }
    x[numbers - 1] &= length.keep();
    x
}

/// The t symbols from a place on.
#[inline(always)]
fn syndrome_at<L: Length>(length: L, bytes: &[u8], at: usize) -> u128 {
    let symbols = if L::SHORT {
        eight(bytes, at) as u128
    } else {
        sixteen(bytes, at)
    };
    symbols & length.keep_t()
}

/// Three equal symbols, none of them past the end.
#[inline(always)]
fn three_equal(word: u64) -> bool {
    (word ^ word >> 8) & 0xFFFF | word & PAST as u64 == 0
}

/// The marker before a message.
#[inline(always)]
fn marker(f: u8, first_symbols: u64) -> u8 {
    let (one, two) = (first_symbols as u8 & 3, (first_symbols >> 8) as u8 & 3);
    SEP[(f << 4 | one << 2 | two) as usize & 63]
}

/// The place behind the first so many ones of a layer of at most 64.
#[inline(always)]
fn short_place_behind(bits: &[u64], ones: u32) -> usize {
    let mut before = 0;
    let mut places = 8 * bits.len() as u32;
    for &bits in bits {
        let sums = bits.wrapping_mul(ONES);
        let lanes = (sums << 8) + before * ONES;
        places -= total(((lanes | 0x80 * ONES) - ones as u64 * ONES) >> 7 & ONES);
        before += sums >> 56;
    }
    places as usize
}

/// The place behind the first so many ones of a layer; a longer one is sought through by blocks of 64.
#[inline(always)]
fn place_behind<L: Length>(bits: &[u64], mut ones: u32) -> usize {
    if L::SHORT {
        return short_place_behind(bits, ones);
    }
    let mut place = 0;
    for block in bits.chunks(8) {
        let more = total(block.iter().sum());
        if ones <= more {
            return place + short_place_behind(block, ones);
        }
        ones -= more;
        place += 8 * block.len();
    }
    place
}

/// A layer in need of repair.
struct Layer {
    /// Its shift in a symbol.
    shift: u32,
    /// The syndrome of the k symbols read.
    read: u32,
    /// The syndrome received.
    written: u32,
}

/// The difference of two numbers below 2k, modulo 2k.
#[inline(always)]
fn less(one: u32, other: u32, k: u32) -> u32 {
    if one < other {
        one + 2 * k - other
    } else {
        one - other
    }
}

/// The bits of a layer, or their opposites.
#[inline(always)]
fn layer_bits<const C: usize>(x: &[u64; C], shift: u32, opposite: bool) -> [u64; C] {
    let turned = if opposite { u64::MAX } else { 0 };
    let mut bits = [0; C];
    for c in 0..C {
        bits[c] = (x[c] ^ turned) >> shift & ONES;
    }
    bits
}

/// Step 7 for a layer with at most one changed bit.
#[inline(always)]
fn repair_changed<const C: usize>(k: u32, x: &mut [u64; C], layer: &Layer) -> bool {
    let more = less(layer.written, layer.read, k);
    if more == 0 {
        return true;
    }
    let (place, wanted) = if more <= k {
        (more - 1, 0)
    } else {
        (2 * k - more - 1, 1)
    };
    let (c, shift) = (place as usize / 8, place % 8 * 8 + layer.shift);
    if c >= C || more != k && x[c] >> shift & 1 != wanted {
        return false;
    }
    x[c] ^= 1 << shift;
    true
}

/// Step 7 for a layer with one bit more: the place of the bit that has to go.
#[inline(always)]
fn place_of_more<L: Length, const C: usize>(
    length: L,
    body: &[u8],
    x: &[u64; C],
    layer: &Layer,
) -> Option<usize> {
    let k = length.k() as u32;
    let extra = (body[length.k()] >> layer.shift & 1) as u32;
    let read_ones = ones::<L, C>(x, layer.shift);
    let ones = read_ones + extra;
    let surplus = less(layer.read, less(layer.written, (k + 1) * extra, k), k);
    if surplus > k + 1 {
        return None;
    }
    if surplus == ones {
        return Some(0);
    }
    let zero_goes = surplus < ones;
    let (count, most) = if zero_goes {
        (ones - surplus, read_ones)
    } else {
        (surplus - ones, k - read_ones)
    };
    if count > most {
        return None;
    }
    let place = place_behind::<L>(&layer_bits(x, layer.shift, !zero_goes), count);
    let bit = body[place.min(body.len() - 1)] >> layer.shift & 1;
    (bit == !zero_goes as u8).then_some(place)
}

/// Step 7 for a layer with one bit less: where a bit has to come in, and which.
#[inline(always)]
fn place_of_less<L: Length, const C: usize>(
    length: L,
    x: &[u64; C],
    layer: &Layer,
) -> Option<(usize, u64)> {
    let k = length.k() as u32;
    let last = x[length.numbers::<C>() - 1];
    let extra = (last >> ((k - 1) % 8 * 8 + layer.shift) & 1) as u32;
    let ones = ones::<L, C>(x, layer.shift) - extra;
    let more = less(layer.written, less(layer.read, k * extra, k), k);
    if more > k {
        return None;
    }
    let zero_comes = more <= ones;
    let count = if zero_comes {
        ones - more
    } else {
        more - ones - 1
    };
    let place = place_behind::<L>(&layer_bits(x, layer.shift, !zero_comes), count);
    Some((place, !zero_comes as u64))
}

/// Takes the one bits of a layer before a place, the other ones from there on.
#[inline(always)]
fn joined<const C: usize>(one: &[u64; C], other: &[u64; C], high: usize, low: usize) -> [u64; C] {
    let (high, low) = (before(high, C), before(low, C));
    let mut x = [0; C];
    for c in 0..C {
        let keep = eight(high, 8 * c) & (2 * ONES) | eight(low, 8 * c) & ONES;
        x[c] = other[c] ^ (one[c] ^ other[c]) & keep;
    }
    x
}

/// Step 7: both layers, apart, from the syndromes read and written.
#[inline(always)]
fn repaired<const C: usize>(
    length: impl Length,
    body: &[u8],
    j: isize,
    x: &mut [u64; C],
    read: [u32; 2],
    written: [u32; 2],
) -> bool {
    let [low, high] = [0, 1].map(|i| Layer {
        shift: i as u32,
        read: read[i],
        written: written[i],
    });
    if j == 0 {
        let k = length.k() as u32;
        return repair_changed(k, x, &high) && repair_changed(k, x, &low);
    }
    if j == 1 {
        let high = place_of_more(length, body, x, &high);
        let low = place_of_more(length, body, x, &low);
        let (Some(high), Some(low)) = (high, low) else {
            return false;
        };
        let moved = message_at(length, body, 1);
        *x = joined(x, &moved, high, low);
        return true;
    }
    let high = place_of_less(length, x, &high);
    let low = place_of_less(length, x, &low);
    let (Some((high, high_bit)), Some((low, low_bit))) = (high, low) else {
        return false;
    };
    let mut moved = [0; C];
    for c in 0..C {
        moved[c] = x[c] << 8 | if c > 0 { x[c - 1] >> 56 } else { 0 };
    }
    let numbers = length.numbers::<C>();
    moved[numbers - 1] &= length.keep();
    moved[numbers..].fill(0);
    *x = joined(x, &moved, high, low);
    for (place, bit, shift) in [(high, high_bit, 1), (low, low_bit, 0)] {
        if let Some(x) = x.get_mut(place / 8) {
            let shift = place % 8 * 8 + shift;
            *x = *x & !(1 << shift) | bit << shift;
        }
    }
    true
}

/// The place of the first byte that is not zero.
#[inline(always)]
fn first_other(x: &[u64]) -> usize {
    let mut place = 0;
    for &x in x {
        if x != 0 {
            return place + x.trailing_zeros() as usize / 8;
        }
        place += 8;
    }
    place
}

/// The place behind the last byte that is not zero.
#[inline(always)]
fn behind_other(x: &[u64]) -> usize {
    let mut place = 8 * x.len();
    for &x in x.iter().rev() {
        if x != 0 {
            return place - x.leading_zeros() as usize / 8;
        }
        place -= 8;
    }
    0
}

/// Step 9: the edit that leads from the written segment to the piece.
#[inline(always)]
fn edit_between<L: Length, const C: usize>(
    of: L,
    w: &[u8],
    m: Option<u8>,
    x: &[u64; C],
    tail: &Tail,
    length: usize,
) -> Option<Edit> {
    let head = if m.is_some() { 2 } else { 0 };
    let n = head + of.body();
    if length + 1 < n || length > n + 1 {
        return None;
    }
    // The written segment behind its marker.
    let mut numbers = L::Numbers::ZEROS;
    let written = numbers.as_mut();
    let count = of.numbers::<C>();
    written[..count].copy_from_slice(&x[..count]);
    let behind = tail.written();
    let room = 8 * (8 * count - of.k()) as u32;
    if room > 0 {
        written[count - 1] |= (behind << (64 - room)) as u64;
    }
    written[count] = (behind >> room) as u64;
    written[count + 1] = (behind >> room >> 64) as u64;
    let count = count + 2;
    let body = &w[head..head + L::WINDOW - 2];
    let m = m.unwrap_or(0);
    let differs = |at: usize, symbol: u8| head > 0 && w[at] != symbol;
    // The places before the first difference agree.
    let mut room = L::Numbers::ZEROS;
    let others = &mut room.as_mut()[..count];
    let keep = before(length.min(n) - head, count);
    for c in 0..count {
        others[c] = (written[c] ^ eight(body, 8 * c)) & eight(keep, 8 * c);
    }
    let agree = if differs(0, m) {
        0
    } else if differs(1, m) {
        1
    } else {
        head + first_other(others)
    };
    if length == n {
        let place = match behind_other(others) {
            0 if differs(1, m) => 1,
            0 if differs(0, m) => 0,
            0 => return Some(Edit::None),
            behind => head + behind - 1,
        };
        let symbol = w[place];
        return (place == agree).then_some(Edit::Sub { place, symbol });
    }
    if length < n {
        // Behind the place the written symbols stand one further.
        for c in 0..count {
            let moved = written[c] >> 8 | written[c + 1] << 56;
            others[c] = (moved ^ eight(body, 8 * c)) & eight(keep, 8 * c);
        }
        let place = match behind_other(others) {
            0 if differs(1, x[0] as u8) => 2,
            0 if differs(0, m) => 1,
            0 => 0,
            behind => head + behind,
        };
        if place > agree {
            return None;
        }
        let symbol = match place.checked_sub(head) {
            Some(i) => (written[i / 8] >> (8 * (i % 8))) as u8,
            None => m,
        };
        return Some(Edit::Del { place, symbol });
    }
    // Behind the place the received symbols stand one further.
    for c in 0..count {
        others[c] = (written[c] ^ eight(body, 8 * c + 1)) & eight(keep, 8 * c);
    }
    let place = match behind_other(others) {
        0 if differs(2, m) => 2,
        0 if differs(1, m) => 1,
        0 => 0,
        behind => head + behind,
    };
    let symbol = w[place];
    (place <= agree).then_some(Edit::Ins { place, symbol })
}

/// Whether a clean segment with a marker starts at p; one with an N is not clean.
#[inline(never)]
fn clean_at<L: Length, const C: usize>(length: L, strand: impl Received, p: usize, f: u8) -> bool {
    let n = length.body() + 2;
    if p + n > strand.length() {
        return false;
    }
    let spare;
    let w = match strand.window::<L>(p) {
        Some(w) => w,
        None => {
            spare = strand.last_window(p);
            &spare[..L::WINDOW]
        }
    };
    let m = marker(f, eight(w, 2));
    if w[0] != m || w[1] != m {
        return false;
    }
    let Some(near) = w[length.k() + 2..].first_chunk::<16>() else {
        return false;
    };
    let x = message_at::<C>(length, w, 2);
    let stands = Tail::of(length, &x).stands(length, near);
    stands && !strand.unknown_in::<L>(p, p + n)
}

/// The segment after one that is read.
trait Next {
    fn clean_at(&self, strand: impl Received, p: usize, f: u8) -> bool;
}

/// It has the same length.
struct Same<L: Length, const C: usize>(L);

impl<L: Length, const C: usize> Next for Same<L, C> {
    #[inline(always)]
    fn clean_at(&self, strand: impl Received, p: usize, f: u8) -> bool {
        clean_at::<L, C>(self.0, strand, p, f)
    }
}

/// It has this length.
struct Other(u16);

impl Next for Other {
    #[inline(always)]
    fn clean_at(&self, strand: impl Received, p: usize, f: u8) -> bool {
        by_k!(self.0, clean_at(strand, p, f), false)
    }
}

/// Step 8, where the syndrome does not tell the end.
#[inline(always)]
fn end_by_next(strand: impl Received, own: usize, f: u8, next: &impl Next) -> Option<usize> {
    [own, own - 1, own + 1]
        .into_iter()
        .find(|&end| next.clean_at(strand, end, f))
}

/// Step 10 in one window: the start of the next clean segment, which has the length given.
#[inline(never)]
fn scan<L: Length, const C: usize>(
    length: L,
    strand: impl Received,
    p: usize,
    own: usize,
) -> Option<usize> {
    let k = length.k();
    // A start needs two equal symbols for its marker and three for its separator.
    let mut starts = u32::MAX;
    if let Some(near) = strand.symbols().get(own - 8..own + k + 24) {
        starts = 0;
        for c in 0..3 {
            let at = 8 * c;
            let (s1, s2, s3) = (
                eight(near, at + k + 3),
                eight(near, at + k + 4),
                eight(near, at + k + 5),
            );
            let other = eight(near, at) ^ eight(near, at + 1) | s1 ^ s2 | s2 ^ s3;
            let equal = !(other + 0x7F * ONES) >> 7 & ONES;
            starts |= ((equal.wrapping_mul(WEIGHT_BITS) >> 56) as u32) << at;
        }
    }
    for d in MOVES {
        let start = (own as isize + d) as usize;
        if starts >> (8 + d) & 1 == 1
            && start > p
            && start <= strand.length()
            && clean_at::<L, C>(length, strand, start, strand.symbols()[start - 1])
        {
            return Some(start);
        }
    }
    None
}

/// A segment as read, but for its message.
struct Segment {
    end: usize,
    /// The last syndrome symbol of the message.
    f: u8,
    edit: Edit,
}

/// Steps 1 to 9 at once, where marker, message, check, separator and syndrome stand as written.
#[inline(always)]
fn clean_segment_at<L: Length, const C: usize>(
    length: L,
    strand: impl Received,
    p: usize,
    f: Option<u8>,
    last: bool,
    message: &mut [u64; C],
) -> Option<Segment> {
    let w = strand.window::<L>(p)?;
    let head = if f.is_some() { 2 } else { 0 };
    *message = message_at(length, w, head);
    let tail = Tail::of(length, message);
    let end = p + head + length.body();
    let whole = match f {
        Some(f) => u16::from_le_bytes([w[0], w[1]]) == marker(f, message[0]) as u16 * 0x0101,
        None => true,
    };
    let near = w[head + length.k()..].first_chunk()?;
    let clean = whole && tail.stands(length, near) && (!last || end == strand.length());
    clean.then_some(Segment {
        end,
        f: tail.last(length),
        edit: Edit::None,
    })
}

/// Steps 1 to 9 for the segment at p, or the step that loses it; the first segment has no f.
#[inline(never)]
fn segment_at<L: Length, const C: usize>(
    length: L,
    strand: impl Received,
    p: usize,
    f: Option<u8>,
    last: bool,
    next: impl Next,
    message: &mut [u64; C],
) -> Result<Segment, u32> {
    let spare;
    let w = match strand.window::<L>(p) {
        Some(w) => w,
        None => {
            spare = strand.last_window(p);
            &spare[..L::WINDOW]
        }
    };
    let head = if f.is_some() { 2 } else { 0 };
    let body = &w[head..head + L::WINDOW - 2];
    // Step 1.
    let whole = head == 0 || w[0] == w[1] && w[0] != PAST;
    // Step 2.
    let near = eight(body, length.k());
    let j = if three_equal(near >> 8) {
        Some(0)
    } else if three_equal(near) {
        Some(-1)
    } else if three_equal(near >> 16) {
        Some(1)
    } else {
        None
    };
    // Step 3, or else the k symbols at D.
    let moved = match j {
        None if !whole => return Err(3),
        Some(j) if !whole => j,
        _ => 0,
    };
    *message = message_at(length, w, (head as isize + moved) as usize & 3);
    let mut tail = Tail::of(length, message);
    // The t symbols after the separator.
    let at = (length.k() as isize + 4 + j.unwrap_or(0)) as usize;
    let a = syndrome_at(length, body, at);
    let mut agrees = j.is_some() && a == tail.a;
    if whole {
        let check_agrees = near as u8 == tail.check();
        match j {
            // Step 4.
            Some(0) if agrees || check_agrees => {}
            // Step 5.
            Some(_) if agrees => {}
            // Step 7.
            Some(j) => {
                let Some(written) = syndromes_of(length, a) else {
                    return Err(7);
                };
                if !repaired(length, body, j, message, tail.syndromes, written) {
                    return Err(7);
                }
                tail = Tail::new(symbol_sum::<L, C>(message), a, written);
                agrees = true;
            }
            // Step 6.
            None if check_agrees => {}
            None => return Err(6),
        }
    }
    // Step 8.
    let own = p + head + length.body();
    let f_next = tail.last(length);
    let end = if last {
        strand.length()
    } else if agrees {
        (own as isize + j.unwrap_or(0)) as usize
    } else {
        match end_by_next(strand, own, f_next, &next) {
            Some(end) => end,
            None => return Err(8),
        }
    };
    // Step 9.
    let m = f.map(|f| marker(f, message[0]));
    match edit_between(length, w, m, message, &tail, end - p) {
        Some(edit) => Ok(Segment {
            end,
            f: f_next,
            edit,
        }),
        None => Err(9),
    }
}

/// The layers' syndromes that were received, if they are in the strand and below 2k.
#[inline(always)]
fn syndromes_of(length: impl Length, a: u128) -> Option<[u32; 2]> {
    // Byte i of a layer goes to bit 7-i.
    const GATHER: u64 = 0x8040_2010_0804_0201;
    let gathered = |bits: u128| weighted(bits as u64 & ONES, GATHER);
    let value = |bits: u128| match length.t() {
        t @ 0..=8 => gathered(bits) >> (8 - t),
        _ => (bits as u32 & 1) << 8 | gathered(bits >> 8),
    };
    let (low, high) = (value(a), value(a >> 1));
    let past = PAST as u64 * ONES;
    let inside = a & (past as u128 | (past as u128) << 64) == 0;
    let known = low < length.cycle() && high < length.cycle();
    (inside && known).then_some([low, high])
}

/// Puts the messages of the segments together.
struct Packer<'a> {
    message: &'a mut [u8],
    at: usize,
    /// Bits that do not fill a byte yet, and their number.
    bits: u32,
    count: usize,
}

impl<'a> Packer<'a> {
    #[inline(always)]
    fn new(message: &'a mut [u8]) -> Packer<'a> {
        Packer {
            message,
            at: 0,
            bits: 0,
            count: 0,
        }
    }

    /// Whole bytes are put in at once, where none is begun.
    #[inline(always)]
    fn put<L: Length, const C: usize>(&mut self, length: L, x: &[u64; C], whole: bool) {
        let (k, numbers) = (length.k(), length.numbers::<C>());
        if whole {
            if let Some(part) = self.message.get_mut(self.at..self.at + k / 4) {
                if L::SHORT {
                    for c in 0..k / 8 {
                        part[2 * c..2 * c + 2].copy_from_slice(&packed(x[c]).to_be_bytes());
                    }
                } else {
                    let (twos, _) = part.as_chunks_mut::<2>();
                    for (two, &x) in twos.iter_mut().zip(x) {
                        *two = two_bytes(x);
                    }
                }
                if k % 8 == 4 {
                    part[k / 4 - 1] = (packed(x[numbers - 1]) >> 8) as u8;
                }
            }
            self.at += k / 4;
            return;
        }
        for c in 0..numbers {
            let count = 2 * (k - 8 * c).min(8);
            self.bits = self.bits << count | packed(x[c]) as u32 >> (16 - count);
            self.count += count;
            while self.count >= 8 {
                self.count -= 8;
                if let Some(byte) = self.message.get_mut(self.at) {
                    *byte = (self.bits >> self.count) as u8;
                }
                self.at += 1;
            }
        }
    }
}

/// Eight symbols as 16 bits, the first one highest.
#[inline(always)]
fn packed(x: u64) -> u16 {
    let pairs = (x << 2 | x >> 8) & 0x000F_000F_000F_000F;
    (pairs.wrapping_mul(1 << 60 | 1 << 40 | 1 << 20 | 1) >> 48) as u16
}

/// Eight symbols as two bytes, without a product, so that many are packed at once.
#[inline(always)]
fn two_bytes(x: u64) -> [u8; 2] {
    let pairs = (x << 2 | x >> 8) & 0x000F_000F_000F_000F;
    let fours = pairs << 4 | pairs >> 16;
    [fours as u8, (fours >> 32) as u8]
}

/// The mark of a verdict in the sheet.
#[inline(always)]
fn mark(verdict: Verdict) -> u8 {
    match verdict {
        Verdict::Read(Edit::None) => 0,
        Verdict::Read(_) | Verdict::Unknown => 1,
        Verdict::Lost { .. } | Verdict::NoStart => 2,
    }
}

/// The marks of the segments, two bits each, and their counts.
struct Sheet {
    marks: u128,
    corrected: u32,
    lost: u32,
}

impl Sheet {
    #[inline(always)]
    fn new() -> Sheet {
        Sheet {
            marks: 0,
            corrected: 0,
            lost: 0,
        }
    }

    #[inline(always)]
    fn add(&mut self, verdict: Verdict) {
        let mark = mark(verdict) as u32;
        self.corrected += mark & 1;
        self.lost += mark >> 1;
        self.marks = self.marks << 2 | mark as u128;
    }
}

/// Reads l segments of equal lengths.
#[inline(never)]
fn read_equal<L: Length, const C: usize>(
    length: L,
    l: usize,
    strand: impl Received,
    message: &mut [u8],
) -> Sheet {
    let mut packer = Packer::new(message);
    let mut sheet = Sheet::new();
    let whole = length.k() % 4 == 0;
    let (mut p, mut f) = (0, None);
    let mut i = 0;
    while i < l {
        i += 1;
        let last = i == l;
        let mut read = [0; C];
        let clean = match f {
            None => clean_segment_at(length, strand, p, None, last, &mut read),
            Some(f) => clean_segment_at(length, strand, p, Some(f), last, &mut read),
        };
        if let Some(segment) = clean {
            packer.put(length, &read, whole);
            sheet.add(strand.verdict::<L>(p, &segment));
            (p, f) = (segment.end, Some(segment.f));
            continue;
        }
        let mut read = [0; C];
        let next = Same::<L, C>(length);
        match segment_at(length, strand, p, f, last, next, &mut read) {
            Ok(segment) => {
                packer.put(length, &read, whole);
                sheet.add(strand.verdict::<L>(p, &segment));
                (p, f) = (segment.end, Some(segment.f));
            }
            Err(step) => {
                packer.put(length, &[0; C], whole);
                sheet.add(Verdict::Lost { step });
                if last {
                    break;
                }
                // Step 10.
                let own = p + length.body() + if f.is_some() { 2 } else { 0 };
                let Some(start) = scan::<L, C>(length, strand, p, own) else {
                    break;
                };
                (p, f) = (start, Some(strand.symbols()[start - 1]));
            }
        }
    }
    for _ in i..l {
        packer.put(length, &[0; C], whole);
        sheet.add(Verdict::NoStart);
    }
    sheet
}

/// A reading of segments that have lengths of their own, before one of them.
struct Walk<'a> {
    packer: Packer<'a>,
    sheet: Sheet,
    p: usize,
    f: Option<u8>,
}

/// Reads one segment, the last where there is no next one; hands back whether another has a start.
#[inline(never)]
fn walk_on<L: Length, const C: usize>(
    length: L,
    strand: impl Received,
    next: Option<&u16>,
    walk: &mut Walk,
) -> bool {
    let (p, f) = (walk.p, walk.f);
    let whole = length.k() % 4 == 0 && walk.packer.count == 0;
    let mut read = [0; C];
    if let Some(segment) = clean_segment_at(length, strand, p, f, next.is_none(), &mut read) {
        walk.packer.put(length, &read, whole);
        walk.sheet.add(strand.verdict::<L>(p, &segment));
        (walk.p, walk.f) = (segment.end, Some(segment.f));
        return true;
    }
    let mut read = [0; C];
    let other = Other(next.copied().unwrap_or(0));
    match segment_at(length, strand, p, f, next.is_none(), other, &mut read) {
        Ok(segment) => {
            walk.packer.put(length, &read, whole);
            walk.sheet.add(strand.verdict::<L>(p, &segment));
            (walk.p, walk.f) = (segment.end, Some(segment.f));
            true
        }
        Err(step) => {
            walk.packer.put(length, &[0; C], whole);
            walk.sheet.add(Verdict::Lost { step });
            // Step 10.
            let own = p + length.body() + if f.is_some() { 2 } else { 0 };
            let start = next.and_then(|&k| by_k!(k, scan(strand, p, own), None));
            if let Some(start) = start {
                (walk.p, walk.f) = (start, Some(strand.symbols()[start - 1]));
            }
            start.is_some()
        }
    }
}

/// A segment without a start.
#[inline(never)]
fn no_start<L: Length, const C: usize>(length: L, walk: &mut Walk) {
    let whole = length.k() % 4 == 0 && walk.packer.count == 0;
    walk.packer.put(length, &[0; C], whole);
    walk.sheet.add(Verdict::NoStart);
}

/// Reads segments that have lengths of their own.
#[inline(never)]
fn read_mixed(lengths: &[u16], strand: impl Received, message: &mut [u8]) -> Sheet {
    let mut walk = Walk {
        packer: Packer::new(message),
        sheet: Sheet::new(),
        p: 0,
        f: None,
    };
    let mut rest = lengths;
    while let Some((&k, more)) = rest.split_first() {
        rest = more;
        if !by_k!(k, walk_on(strand, rest.first(), &mut walk), false) {
            break;
        }
    }
    for &k in rest {
        by_k!(k, no_start(&mut walk), ());
    }
    walk.sheet
}

/// Reads the segments; their length is given where all are equal.
#[inline(always)]
fn read_segments(
    lengths: &[u16],
    equal: Option<u16>,
    strand: impl Received,
    message: &mut [u8],
) -> Result<Sheet, Refused> {
    let l = lengths.len();
    Ok(match equal {
        Some(k) => by_k!(k, read_equal(l, strand, message), return refuse(1)),
        None => read_mixed(lengths, strand, message),
    })
}

/// Test 6, and the segments, for a strand with letters other than A, T, C and G.
#[inline(never)]
fn read_with_unknown<const R: usize, const P: usize>(
    lengths: &[u16],
    equal: Option<u16>,
    letters: &[u8],
    strand: &mut Strand<R>,
    message: &mut [u8],
) -> Result<Sheet, Refused> {
    let no_foreign = letters.iter().fold(true, |all, &x| all & is_letter(x));
    if !no_foreign {
        return Err(first_foreign(letters));
    }
    let places = &strand.unknown_as_a::<P>(letters);
    let strand = WithUnknown { strand, places };
    read_segments(lengths, equal, strand, message)
}

/// Test 6 and all that a reading gives, for a strand of at most R letters.
/// P bytes hold a bit for each of them, and 48 more for a load at the end.
#[inline(always)]
fn read_in<const R: usize, const P: usize>(
    lengths: &[u16],
    equal: Option<u16>,
    letters: &[u8],
    message: &mut [u8],
    sheet: &mut [u8],
) -> Result<[u32; 3], Refused> {
    let mut strand = Strand {
        symbols: [PAST; R],
        length: letters.len(),
    };
    let read = if strand.fill(letters) {
        read_segments(lengths, equal, &strand, message)?
    } else {
        read_with_unknown::<R, P>(lengths, equal, letters, &mut strand, message)?
    };
    let l = lengths.len();
    let mut marks = read.marks << (128 - 2 * l);
    for byte in sheet {
        *byte = (marks >> 120) as u8;
        marks <<= 8;
    }
    let clean = l as u32 - read.corrected - read.lost;
    Ok([clean, read.corrected, read.lost])
}

/// The same for a strand of more than 2,048 letters.
#[inline(never)]
fn read_long(
    lengths: &[u16],
    equal: Option<u16>,
    letters: &[u8],
    message: &mut [u8],
    sheet: &mut [u8],
) -> Result<[u32; 3], Refused> {
    read_in::<4096, { 512 + 48 }>(lengths, equal, letters, message, sheet)
}

/// Reads a strand; hands back the counts of clean, corrected and lost segments.
pub fn read(
    lengths: &[u16],
    b: u32,
    letters: &[u8],
    message: &mut [u8],
    sheet: &mut [u8],
) -> Result<[u32; 3], Refused> {
    let equal = equal_length(lengths, b, None)?;
    if letters.len() > 4096 {
        return refuse(4);
    }
    let (Some(message), Some(sheet)) = (
        message.get_mut(..b as usize),
        sheet.get_mut(..lengths.len().div_ceil(4)),
    ) else {
        return refuse(5);
    };
    if letters.len() > 2048 {
        return read_long(lengths, equal, letters, message, sheet);
    }
    read_in::<2048, { 256 + 48 }>(lengths, equal, letters, message, sheet)
}
