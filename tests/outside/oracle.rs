//! Reader and writer of DNA-LM strands, step by step as docs/SPECIFICATION.md tells them.

/// A refusal by its number in the table; the place is given for 6 alone.
#[derive(Clone, Copy, Debug, PartialEq, Eq)]
pub struct Refused {
    pub number: u32,
    pub place: usize,
}

/// What a byte of a strand is.
#[derive(Clone, Copy, Debug, PartialEq, Eq)]
pub enum Letter {
    Symbol(u8),
    Unknown,
    Foreign,
}

/// What was done to a segment on the way; places are those of the written segment.
/// The letter is the received one, of a deletion the written one.
#[derive(Clone, Copy, Debug, PartialEq, Eq)]
pub enum Edit {
    None,
    Sub { place: usize, letter: u8 },
    Del { place: usize, letter: u8 },
    Ins { place: usize, letter: u8 },
}

impl Edit {
    pub fn place(self) -> Option<usize> {
        match self {
            Edit::None => None,
            Edit::Sub { place, .. } | Edit::Del { place, .. } | Edit::Ins { place, .. } => {
                Some(place)
            }
        }
    }
}

/// The reader's verdict on one segment; unknown is a piece with unknown letters that equals its segment, these taken as A.
#[derive(Clone, Copy, Debug, PartialEq, Eq)]
pub enum Verdict {
    Read(Edit),
    Unknown,
    Lost { step: u32 },
    NoStart,
}

/// One segment as read: its piece of the strand, the verdict, its k symbols, and the starts that are tried behind it where it is lost.
#[derive(Clone, Debug, PartialEq, Eq)]
pub struct Segment {
    pub start: usize,
    pub end: usize,
    pub scanned: bool,
    pub verdict: Verdict,
    pub message: Vec<u8>,
    pub tried: Vec<usize>,
}

/// The numbers of one segment: k, t and its length n.
#[derive(Clone, Copy, Debug)]
pub struct Shape {
    pub k: usize,
    pub t: usize,
    pub n: usize,
}

/// B, and the numbers of each segment.
#[derive(Clone, Debug)]
pub struct Layout {
    pub b: usize,
    pub shapes: Vec<Shape>,
}

/// A tally of strands and of their segments.
#[derive(Clone, Copy, Debug, PartialEq, Eq)]
pub struct Tally {
    pub strands: u32,
    pub clean: u32,
    pub corrected: u32,
    pub lost: u32,
}

/// What is told before strands are ordered: letters and sheet bytes of all of them, and the most starts that one reading tries.
#[derive(Clone, Copy, Debug, PartialEq, Eq)]
pub struct Quote {
    pub letters: u32,
    pub sheet_bytes: u32,
    pub starts: u32,
}

/// The most that a length and B may be.
#[derive(Clone, Copy)]
struct Most {
    k: u16,
    b: u32,
}

const MOST: Most = Most { k: 256, b: 512 };

/// The most in a label of the old editions, 1 and 2.
const MOST_OLD: Most = Most { k: 64, b: 128 };

/// The letters that a received strand may have.
const MOST_LETTERS: usize = 4096;

fn refuse<T>(number: u32) -> Result<T, Refused> {
    Err(Refused { number, place: 0 })
}

/// Tests 1 and 2 of lengths and B.
fn limits(lengths: &[u16], b: u32, most: Most) -> Result<(), Refused> {
    if lengths.iter().any(|k| !(2..=most.k).contains(k)) {
        return refuse(1);
    }
    if !(1..=most.b).contains(&b) {
        return refuse(2);
    }
    Ok(())
}

/// Tests 1, 2 and 3; the message's length is tested where there is one.
pub fn layout(lengths: &[u16], b: u32, message: Option<usize>) -> Result<Layout, Refused> {
    limits(lengths, b, MOST)?;
    let b = b as usize;
    if message.is_some_and(|length| length != b) {
        return refuse(2);
    }
    let sum: usize = lengths.iter().map(|&k| k as usize).sum();
    if lengths.is_empty() || lengths.len() > 64 || sum != 4 * b {
        return refuse(3);
    }
    let mut shapes = Vec::new();
    for &k in lengths {
        let k = k as usize;
        let t = bits_to_write(2 * k - 1);
        // The first segment has no marker.
        let marker = if shapes.is_empty() { 0 } else { 2 };
        let n = marker + k + 1 + 3 + t;
        shapes.push(Shape { k, t, n });
    }
    Ok(Layout { b, shapes })
}

fn bits_to_write(number: usize) -> usize {
    let mut bits = 0;
    while number >> bits != 0 {
        bits += 1;
    }
    bits
}

impl Layout {
    pub fn strand_length(&self) -> usize {
        self.shapes.iter().map(|shape| shape.n).sum()
    }

    pub fn sheet_length(&self) -> usize {
        self.shapes.len().div_ceil(4)
    }
}

pub fn letter_of(symbol: u8) -> u8 {
    b"ATCG"[symbol as usize]
}

pub fn letter(byte: u8) -> Letter {
    match byte {
        b'A' => Letter::Symbol(0),
        b'T' => Letter::Symbol(1),
        b'C' => Letter::Symbol(2),
        b'G' => Letter::Symbol(3),
        b'N' => Letter::Unknown,
        _ => Letter::Foreign,
    }
}

fn any_unknown(letters: &[u8]) -> bool {
    letters.iter().any(|&x| letter(x) == Letter::Unknown)
}

/// Four symbols of each byte, highest two bits first.
fn symbols_of_bytes(bytes: &[u8]) -> Vec<u8> {
    let mut symbols = Vec::new();
    for byte in bytes {
        for shift in [6, 4, 2, 0] {
            symbols.push(byte >> shift & 3);
        }
    }
    symbols
}

fn bytes_of_symbols(symbols: &[u8]) -> Vec<u8> {
    let pack = |four: &[u8]| four[0] << 6 | four[1] << 4 | four[2] << 2 | four[3];
    symbols.chunks(4).map(pack).collect()
}

pub fn sep(a: u8, b: u8, c: u8) -> u8 {
    for more in [2, 3] {
        let s = (a + more) % 4;
        if s != b && s != c {
            return s;
        }
    }
    (a + 1) % 4
}

fn high_layer(symbols: &[u8]) -> Vec<u8> {
    symbols.iter().map(|x| x >> 1).collect()
}

fn low_layer(symbols: &[u8]) -> Vec<u8> {
    symbols.iter().map(|x| x & 1).collect()
}

/// Sum of the places, from 1, that hold a one, modulo 2k; the word has k bits.
fn layer_syndrome(word: &[u8]) -> usize {
    let mut sum = 0;
    for (i, &bit) in word.iter().enumerate() {
        if bit == 1 {
            sum += i + 1;
        }
    }
    sum % (2 * word.len())
}

/// The t syndrome symbols of a message, most significant first.
fn syndrome(message: &[u8], t: usize) -> Vec<u8> {
    let high = layer_syndrome(&high_layer(message));
    let low = layer_syndrome(&low_layer(message));
    let pair = |bit: usize| (2 * (high >> bit & 1) + (low >> bit & 1)) as u8;
    (0..t).rev().map(pair).collect()
}

/// The check symbol.
fn check(message: &[u8]) -> u8 {
    (message.iter().map(|&x| x as usize).sum::<usize>() % 4) as u8
}

/// A segment as written; f is the symbol before it, none for the first segment.
pub fn written(message: &[u8], f: Option<u8>, t: usize) -> Vec<u8> {
    let mut segment = Vec::new();
    if let Some(f) = f {
        let m = sep(f, message[0], message[1]);
        segment.extend([m, m]);
    }
    segment.extend(message);
    let c = check(message);
    let a = syndrome(message, t);
    let s = sep(c, a[0], a[1]);
    segment.extend([c, s, s, s]);
    segment.extend(a);
    segment
}

/// Writes the strand of a message; hands back its number of letters.
pub fn write(lengths: &[u16], b: u32, message: &[u8], out: &mut [u8]) -> Result<usize, Refused> {
    let lay = layout(lengths, b, Some(message.len()))?;
    if out.len() < lay.strand_length() {
        return refuse(5);
    }
    let symbols = symbols_of_bytes(message);
    let mut rest = &symbols[..];
    let mut strand: Vec<u8> = Vec::new();
    for shape in &lay.shapes {
        let (part, more) = rest.split_at(shape.k);
        let f = strand.last().copied();
        strand.extend(written(part, f, shape.t));
        rest = more;
    }
    assert_eq!(strand.len(), lay.strand_length());
    for (place, &symbol) in strand.iter().enumerate() {
        out[place] = letter_of(symbol);
    }
    Ok(strand.len())
}

/// A received strand, its letters and the symbols read from them; places past its end match nothing.
struct Strand<'a> {
    letters: &'a [u8],
    symbols: Vec<u8>,
}

impl Strand<'_> {
    fn len(&self) -> usize {
        self.symbols.len()
    }

    fn same(&self, p: usize, q: usize) -> bool {
        match (self.symbols.get(p), self.symbols.get(q)) {
            (Some(x), Some(y)) => x == y,
            _ => false,
        }
    }

    /// The symbols from a place on, if all of them are in the strand.
    fn take(&self, p: usize, count: usize) -> Option<&[u8]> {
        self.symbols.get(p..p + count)
    }

    fn stands(&self, p: usize, wanted: &[u8]) -> bool {
        self.take(p, wanted.len()) == Some(wanted)
    }

    /// Whether a clean segment of this shape, with a marker and no unknown letter, starts at p.
    fn clean_at(&self, shape: &Shape, p: usize, f: u8) -> bool {
        match self.take(p + 2, shape.k) {
            Some(message) => {
                self.stands(p, &written(message, Some(f), shape.t))
                    && !any_unknown(&self.letters[p..p + shape.n])
            }
            None => false,
        }
    }
}

/// The edit that links the bits of a layer to its word.
#[derive(Clone, Copy)]
enum Named {
    Changed,
    More,
    Less,
}

/// Step 7 for one layer: the one word of k bits with the written syndrome.
fn repaired_layer(bits: &[u8], named: Named, syndrome: usize) -> Option<Vec<u8>> {
    let mut words: Vec<Vec<u8>> = Vec::new();
    match named {
        Named::Changed => {
            words.push(bits.to_vec());
            for i in 0..bits.len() {
                let mut word = bits.to_vec();
                word[i] = 1 - word[i];
                words.push(word);
            }
        }
        Named::More => {
            for i in 0..bits.len() {
                let mut word = bits.to_vec();
                word.remove(i);
                words.push(word);
            }
        }
        Named::Less => {
            for i in 0..=bits.len() {
                for bit in [0, 1] {
                    let mut word = bits.to_vec();
                    word.insert(i, bit);
                    words.push(word);
                }
            }
        }
    }
    words.retain(|word| layer_syndrome(word) == syndrome);
    words.sort();
    words.dedup();
    assert!(words.len() <= 1, "two words fit");
    words.pop()
}

/// Step 7: both layers, apart, with the syndrome written at q.
fn repaired(t: usize, strand: &Strand, bits: &[u8], named: Named, q: usize) -> Option<Vec<u8>> {
    let a = strand.take(q, t)?;
    let value = |layer: Vec<u8>| layer.iter().fold(0, |v, &bit| 2 * v + bit as usize);
    let high = repaired_layer(&high_layer(bits), named, value(high_layer(a)))?;
    let low = repaired_layer(&low_layer(bits), named, value(low_layer(a)))?;
    Some(high.iter().zip(&low).map(|(h, l)| 2 * h + l).collect())
}

/// Step 2: the place of the separator with its j.
fn separator(k: usize, strand: &Strand, d: usize) -> Option<(usize, i32)> {
    for j in [0, -1, 1] {
        let q = (d + k + 1).checked_add_signed(j as isize).unwrap();
        if strand.same(q, q + 1) && strand.same(q + 1, q + 2) {
            return Some((q, j));
        }
    }
    None
}

/// Steps 1 to 7: the message of the segment at p and the place of its separator.
fn message_at(
    shape: &Shape,
    strand: &Strand,
    p: usize,
    first: bool,
) -> Result<(Vec<u8>, Option<usize>), u32> {
    let (k, t) = (shape.k, shape.t);
    // Step 1.
    let whole = first || strand.same(p, p + 1);
    let d = if first { p } else { p + 2 };
    // Step 2.
    let found = separator(k, strand, d);
    // Step 3.
    if !whole {
        let Some((q, _)) = found else {
            return Err(3);
        };
        let message = strand.take(q - 1 - k, k).unwrap();
        return Ok((message.to_vec(), Some(q)));
    }
    // Step 6.
    let Some((q, j)) = found else {
        let Some(message) = strand.take(d, k) else {
            return Err(6);
        };
        if !strand.stands(d + k, &[check(message)]) {
            return Err(6);
        }
        return Ok((message.to_vec(), None));
    };
    let message = strand.take(d, k).unwrap();
    let syndrome_agrees = strand.stands(q + 3, &syndrome(message, t));
    let (agrees, count, named) = match j {
        // Step 4.
        0 => {
            let check_agrees = strand.stands(d + k, &[check(message)]);
            (check_agrees || syndrome_agrees, k, Named::Changed)
        }
        // Step 5.
        1 => (syndrome_agrees, k + 1, Named::More),
        _ => (syndrome_agrees, k - 1, Named::Less),
    };
    if agrees {
        return Ok((message.to_vec(), Some(q)));
    }
    let bits = strand.take(d, count).unwrap();
    match repaired(t, strand, bits, named, q + 3) {
        Some(message) => Ok((message, Some(q))),
        None => Err(7),
    }
}

/// Step 8: where the segment at p ends; the next one has a shape of its own.
fn end_of(
    shape: &Shape,
    next: &Shape,
    strand: &Strand,
    p: usize,
    message: &[u8],
    separator: Option<usize>,
) -> Option<usize> {
    let a = syndrome(message, shape.t);
    if let Some(q) = separator {
        if strand.stands(q + 3, &a) {
            return Some(q + 3 + shape.t);
        }
    }
    let f = a[shape.t - 1];
    for e in [0, -1, 1] {
        let end = (p + shape.n).checked_add_signed(e).unwrap();
        if strand.clean_at(next, end, f) {
            return Some(end);
        }
    }
    None
}

/// Step 9: the edit that leads from the written segment to the symbols of a piece with these letters.
fn edit_between(written: &[u8], piece: &[u8], letters: &[u8]) -> Option<Edit> {
    if written == piece {
        return Some(Edit::None);
    }
    let n = written.len();
    if piece.len() == n {
        for place in 0..n {
            let mut edited = written.to_vec();
            edited[place] = piece[place];
            if edited == piece {
                let letter = letters[place];
                return Some(Edit::Sub { place, letter });
            }
        }
    }
    if piece.len() + 1 == n {
        for place in 0..n {
            let mut edited = written.to_vec();
            let letter = letter_of(edited.remove(place));
            if edited == piece {
                return Some(Edit::Del { place, letter });
            }
        }
    }
    if piece.len() == n + 1 {
        for place in 0..=n {
            let mut edited = written.to_vec();
            edited.insert(place, piece[place]);
            if edited == piece {
                let letter = letters[place];
                return Some(Edit::Ins { place, letter });
            }
        }
    }
    None
}

/// Steps 1 to 9 for the segment at p, or the step that loses it; the last has no next one.
fn segment_at(
    shape: &Shape,
    next: Option<&Shape>,
    strand: &Strand,
    p: usize,
    f: Option<u8>,
) -> Result<(Vec<u8>, usize, Verdict), u32> {
    let (message, separator) = message_at(shape, strand, p, f.is_none())?;
    let end = match next {
        Some(next) => end_of(shape, next, strand, p, &message, separator).ok_or(8u32)?,
        None => strand.len(),
    };
    let letters = &strand.letters[p..end];
    let anew = written(&message, f, shape.t);
    let verdict = match edit_between(&anew, &strand.symbols[p..end], letters) {
        Some(Edit::None) if any_unknown(letters) => Verdict::Unknown,
        Some(edit) => Verdict::Read(edit),
        None => return Err(9),
    };
    Ok((message, end, verdict))
}

/// Step 10 after a loss at p: the starts tried in their order, and the start of the next clean segment with how many are passed before it.
/// The first shape is that of the lost segment; each further one is sought behind all before it.
fn scan(shapes: &[Shape], strand: &Strand, p: usize) -> (Vec<usize>, Option<(usize, usize)>) {
    let mut tried = Vec::new();
    let mut centre = p;
    for (passed, pair) in shapes.windows(2).enumerate() {
        centre += pair[0].n;
        let mut moves = vec![0];
        for d in 1..=8 * (passed as isize + 1) {
            moves.extend([-d, d]);
        }
        for d in moves {
            let start = centre.checked_add_signed(d).unwrap();
            if start <= p {
                continue;
            }
            tried.push(start);
            // A start past the end has no symbol before it, and nothing stands there.
            let before = strand.symbols.get(start - 1);
            if before.is_some_and(|&f| strand.clean_at(&pair[1], start, f)) {
                return (tried, Some((start, passed)));
            }
        }
    }
    (tried, None)
}

/// All segments of a received strand.
fn all_segments(lay: &Layout, strand: &Strand) -> Vec<Segment> {
    let mut segments: Vec<Segment> = Vec::new();
    let mut p = 0;
    let mut f = None;
    let mut scanned = false;
    while let Some(shape) = lay.shapes.get(segments.len()) {
        let next = lay.shapes.get(segments.len() + 1);
        match segment_at(shape, next, strand, p, f) {
            Ok((message, end, verdict)) => {
                f = syndrome(&message, shape.t).pop();
                segments.push(Segment {
                    start: p,
                    end,
                    scanned,
                    verdict,
                    message,
                    tried: Vec::new(),
                });
                p = end;
                scanned = false;
            }
            Err(step) => {
                let later = &lay.shapes[segments.len() + 1..];
                let (tried, found) = scan(&lay.shapes[segments.len()..], strand, p);
                // Where nothing is found all later ones are passed, up to the strand's end.
                let (start, passed) = found.unwrap_or((strand.len(), later.len()));
                segments.push(Segment {
                    start: p,
                    end: start,
                    scanned,
                    verdict: Verdict::Lost { step },
                    message: vec![0; shape.k],
                    tried,
                });
                for shape in &later[..passed] {
                    segments.push(Segment {
                        start,
                        end: start,
                        scanned: false,
                        verdict: Verdict::NoStart,
                        message: vec![0; shape.k],
                        tried: Vec::new(),
                    });
                }
                p = start;
                f = strand.symbols[..start].last().copied();
                scanned = true;
            }
        }
    }
    segments
}

/// Test 6; an unknown letter is read as A.
fn strand_of(letters: &[u8]) -> Result<Strand<'_>, Refused> {
    let mut symbols = Vec::new();
    for (place, &byte) in letters.iter().enumerate() {
        match letter(byte) {
            Letter::Symbol(symbol) => symbols.push(symbol),
            Letter::Unknown => symbols.push(0),
            Letter::Foreign => return Err(Refused { number: 6, place }),
        }
    }
    Ok(Strand { letters, symbols })
}

/// Test 4.
fn not_overlong(letters: &[u8]) -> Result<(), Refused> {
    if letters.len() > MOST_LETTERS {
        return refuse(4);
    }
    Ok(())
}

/// The segments of a strand with their verdicts.
pub fn segments(lengths: &[u16], b: u32, letters: &[u8]) -> Result<Vec<Segment>, Refused> {
    let lay = layout(lengths, b, None)?;
    not_overlong(letters)?;
    let strand = strand_of(letters)?;
    Ok(all_segments(&lay, &strand))
}

/// How many starts a reading tries in all its scans.
pub fn starts_tried(segments: &[Segment]) -> usize {
    segments.iter().map(|segment| segment.tried.len()).sum()
}

/// Quotes so many strands; the starts are those of a reading of the empty strand, in which none stands.
pub fn quote(lengths: &[u16], b: u32, strands: u16) -> Result<Quote, Refused> {
    let lay = layout(lengths, b, None)?;
    let empty = strand_of(&[])?;
    let of_all = |each: usize| each as u32 * strands as u32;
    Ok(Quote {
        letters: of_all(lay.strand_length()),
        sheet_bytes: of_all(lay.sheet_length()),
        starts: starts_tried(&all_segments(&lay, &empty)) as u32,
    })
}

/// The mark of a verdict in the sheet.
pub fn mark(verdict: Verdict) -> u8 {
    match verdict {
        Verdict::Read(Edit::None) => 0,
        Verdict::Read(_) | Verdict::Unknown => 1,
        Verdict::Lost { .. } | Verdict::NoStart => 2,
    }
}

/// Reads a strand; hands back the counts of clean, corrected and lost segments.
pub fn read(
    lengths: &[u16],
    b: u32,
    letters: &[u8],
    message: &mut [u8],
    sheet: &mut [u8],
) -> Result<[u32; 3], Refused> {
    let lay = layout(lengths, b, None)?;
    not_overlong(letters)?;
    if message.len() < lay.b || sheet.len() < lay.sheet_length() {
        return refuse(5);
    }
    let strand = strand_of(letters)?;
    let segments = all_segments(&lay, &strand);
    let mut symbols = Vec::new();
    let mut marks = Vec::new();
    let mut counts = [0; 3];
    for segment in &segments {
        symbols.extend(&segment.message);
        marks.push(mark(segment.verdict));
        counts[mark(segment.verdict) as usize] += 1;
    }
    marks.resize(4 * lay.sheet_length(), 0);
    message[..lay.b].copy_from_slice(&bytes_of_symbols(&symbols));
    sheet[..lay.sheet_length()].copy_from_slice(&bytes_of_symbols(&marks));
    Ok(counts)
}

/// One of the segments, which count from 1.
fn numbered(segments: &Result<Vec<Segment>, Refused>, segment: u32) -> Result<&Segment, Refused> {
    let segments = segments.as_ref().map_err(|refused| *refused)?;
    if segment < 1 || segment as usize > segments.len() {
        return refuse(9);
    }
    Ok(&segments[segment as usize - 1])
}

/// The start and the length of one segment's piece.
pub fn piece(
    segments: &Result<Vec<Segment>, Refused>,
    segment: u32,
) -> Result<(usize, usize), Refused> {
    let found = numbered(segments, segment)?;
    Ok((found.start, found.end - found.start))
}

/// The verdict on one segment.
pub fn verdict(segments: &Result<Vec<Segment>, Refused>, segment: u32) -> Result<Verdict, Refused> {
    Ok(numbered(segments, segment)?.verdict)
}

/// The words of a line for a verdict.
pub fn words(verdict: Verdict) -> String {
    let named = |name: &str, place: usize, letter: u8| format!("{name} {place} {}", letter as char);
    match verdict {
        Verdict::Read(Edit::None) => String::from("clean"),
        Verdict::Unknown => String::from("unknown"),
        Verdict::Read(Edit::Sub { place, letter }) => named("sub", place, letter),
        Verdict::Read(Edit::Del { place, letter }) => named("del", place, letter),
        Verdict::Read(Edit::Ins { place, letter }) => named("ins", place, letter),
        Verdict::Lost { step } => format!("lost {step}"),
        Verdict::NoStart => String::from("lost start"),
    }
}

/// A line for each segment: its number and the words for its verdict.
pub fn lines(segments: &[Segment]) -> String {
    let line = |(i, segment): (usize, &Segment)| format!("{} {}\n", i + 1, words(segment.verdict));
    segments.iter().enumerate().map(line).collect()
}

/// Writes the lines of the segments; hands back their number of bytes.
pub fn report(segments: &Result<Vec<Segment>, Refused>, out: &mut [u8]) -> Result<usize, Refused> {
    let segments = segments.as_ref().map_err(|refused| *refused)?;
    let lines = lines(segments);
    let Some(front) = out.get_mut(..lines.len()) else {
        return refuse(5);
    };
    front.copy_from_slice(lines.as_bytes());
    Ok(lines.len())
}

/// Whether all lengths are equal; one alone is.
fn equal(lengths: &[u16]) -> bool {
    lengths.iter().all(|k| *k == lengths[0])
}

/// Bits put together, the most significant first.
fn push_bits(bits: &mut Vec<bool>, number: u32, width: usize) {
    bits.extend((0..width).rev().map(|bit| number >> bit & 1 == 1));
}

/// The number in so many bits from a place on.
fn number_at(bits: &[bool], place: usize, width: usize) -> u32 {
    let bits = &bits[place..place + width];
    bits.iter().fold(0, |number, &bit| 2 * number + bit as u32)
}

fn bits_of_bytes(bytes: &[u8]) -> Vec<bool> {
    let mut bits = Vec::new();
    for &byte in bytes {
        push_bits(&mut bits, byte as u32, 8);
    }
    bits
}

/// The bits of B and of each length in an edition that lists the lengths; none for one that does not.
fn listed(edition: u32) -> Option<(usize, usize)> {
    match edition {
        2 => Some((8, 7)),
        3 => Some((10, 9)),
        _ => None,
    }
}

/// The oldest edition that can carry an order.
fn oldest(lengths: &[u16], b: u32) -> u32 {
    match limits(lengths, b, MOST_OLD) {
        Ok(()) if equal(lengths) => 1,
        Ok(()) => 2,
        Err(_) => 3,
    }
}

/// The label of an order in an edition that can carry it.
pub fn label(edition: u32, lengths: &[u16], b: u32) -> Vec<u8> {
    let mut bits = Vec::new();
    push_bits(&mut bits, edition, 4);
    if let Some((b_bits, k_bits)) = listed(edition) {
        push_bits(&mut bits, b, b_bits);
        push_bits(&mut bits, lengths.len() as u32, 7);
        for &k in lengths {
            push_bits(&mut bits, k as u32, k_bits);
        }
        bits.resize(bits.len().next_multiple_of(8), false);
    } else {
        push_bits(&mut bits, lengths[0] as u32, 7);
        push_bits(&mut bits, b, 8);
        push_bits(&mut bits, 0, 13);
    }
    bits.chunks(8).map(|x| number_at(x, 0, 8) as u8).collect()
}

/// Puts a label to the front of a buffer; hands back its number of bytes.
fn put_label(label: &[u8], out: &mut [u8]) -> Result<usize, Refused> {
    let Some(front) = out.get_mut(..label.len()) else {
        return refuse(5);
    };
    front.copy_from_slice(label);
    Ok(label.len())
}

/// Writes the label of a layout and B; hands back its number of bytes.
pub fn write_label(lengths: &[u16], b: u32, out: &mut [u8]) -> Result<usize, Refused> {
    layout(lengths, b, None)?;
    put_label(&label(oldest(lengths, b), lengths, b), out)
}

/// The bytes that a label needs by its own edition and count; none where these are not there.
pub fn label_needs(bytes: &[u8]) -> Option<usize> {
    let edition = bytes.first()? >> 4;
    let Some((b_bits, k_bits)) = listed(edition as u32) else {
        return Some(4);
    };
    let front = bits_of_bytes(bytes.get(..3)?);
    let count = number_at(&front, 4 + b_bits, 7) as usize;
    Some((4 + b_bits + 7 + k_bits * count).div_ceil(8))
}

/// Reads a layout and B from a label.
pub fn read_label(bytes: &[u8]) -> Result<(Vec<u16>, u32), Refused> {
    let label = label_needs(bytes).and_then(|needs| bytes.get(..needs));
    let Some(label) = label else {
        return refuse(5);
    };
    let bits = bits_of_bytes(label);
    let edition = number_at(&bits, 0, 4);
    if edition == 1 {
        return read_one_length(&bits);
    }
    let Some(widths) = listed(edition) else {
        return refuse(8);
    };
    let (lengths, b) = read_listed(&bits, widths)?;
    if edition == 2 {
        if (1..=64).contains(&lengths.len()) && equal(&lengths) {
            return refuse(8);
        }
        limits(&lengths, b, MOST_OLD)?;
    }
    layout(&lengths, b, None)?;
    Ok((lengths, b))
}

/// Edition 1: one length for all, and B.
fn read_one_length(bits: &[bool]) -> Result<(Vec<u16>, u32), Refused> {
    let k = number_at(bits, 4, 7);
    let b = number_at(bits, 11, 8);
    if bits[19..].contains(&true) {
        return refuse(8);
    }
    limits(&[k as u16], b, MOST_OLD)?;
    if !(4 * b).is_multiple_of(k) || 4 * b / k > 64 {
        return refuse(3);
    }
    Ok((vec![k as u16; (4 * b / k) as usize], b))
}

/// The lengths and B of an edition that lists them, if the bits behind the last length are zeros.
fn read_listed(
    bits: &[bool],
    (b_bits, k_bits): (usize, usize),
) -> Result<(Vec<u16>, u32), Refused> {
    let b = number_at(bits, 4, b_bits);
    let count = number_at(bits, 4 + b_bits, 7) as usize;
    let from = 4 + b_bits + 7;
    let length = |i: usize| number_at(bits, from + k_bits * i, k_bits) as u16;
    if bits[from + k_bits * count..].contains(&true) {
        return refuse(8);
    }
    Ok(((0..count).map(length).collect(), b))
}

/// Writes a label of an old edition in edition 3, one of edition 3 in the old edition that can carry it.
/// Hands back its number of bytes.
pub fn convert_label(bytes: &[u8], out: &mut [u8]) -> Result<usize, Refused> {
    let (lengths, b) = read_label(bytes)?;
    let edition = match (bytes[0] >> 4, oldest(&lengths, b)) {
        (3, 3) => return refuse(13),
        (3, oldest) => oldest,
        _ => 3,
    };
    put_label(&label(edition, &lengths, b), out)
}

/// Adds the counts of one strand; all four counts change or none.
pub fn add_to_tally(
    tally: &mut Tally,
    clean: u32,
    corrected: u32,
    lost: u32,
) -> Result<(), Refused> {
    let strands = tally.strands.checked_add(1);
    let clean = tally.clean.checked_add(clean);
    let corrected = tally.corrected.checked_add(corrected);
    let lost = tally.lost.checked_add(lost);
    match (strands, clean, corrected, lost) {
        (Some(strands), Some(clean), Some(corrected), Some(lost)) => {
            *tally = Tally {
                strands,
                clean,
                corrected,
                lost,
            };
            Ok(())
        }
        _ => refuse(7),
    }
}
