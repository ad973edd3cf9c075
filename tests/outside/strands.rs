//! Random layouts, messages and strands, repeatable by their seed.

/// The letters that a received strand may have.
pub const LETTERS: &[u8] = b"ATCGN";

/// The unknown letter.
const UNKNOWN: u8 = b'N';

/// The most that a length, B and the letters of a received strand may be.
pub const MOST_LENGTH: u16 = 256;
pub const MOST_BYTES: u32 = 512;
pub const MOST_LETTERS: usize = 4096;

/// The most that a length and B may be in a label of the old editions, 1 and 2.
pub const OLD_LENGTH: u16 = 64;
pub const OLD_BYTES: u32 = 128;

/// What the letters of one strand's damage are drawn from, often without the unknown one.
const DRAWN: [&[u8]; 5] = [b"ATCG", b"ATCG", LETTERS, b"ATCGNNNN", b"ATCGNNNN"];

/// SplitMix64.
#[derive(Clone)]
pub struct Rng {
    state: u64,
    drawn: &'static [u8],
}

impl Rng {
    /// A sequence of its own for each seed and number.
    pub fn new(seed: u64, number: u64) -> Rng {
        let drawn = DRAWN[0];
        let start = Rng { state: seed, drawn }.next();
        let state = start ^ number.wrapping_mul(0xD6E8_FEB8_6659_FD93);
        let mut rng = Rng { state, drawn };
        rng.drawn = rng.of(&DRAWN);
        rng
    }

    pub fn next(&mut self) -> u64 {
        self.state = self.state.wrapping_add(0x9E37_79B9_7F4A_7C15);
        let mut z = self.state;
        z = (z ^ z >> 30).wrapping_mul(0xBF58_476D_1CE4_E5B9);
        z = (z ^ z >> 27).wrapping_mul(0x94D0_49BB_1331_11EB);
        z ^ z >> 31
    }

    /// A number from 0 up to, but not with, the bound.
    pub fn below(&mut self, bound: usize) -> usize {
        (self.next() % bound as u64) as usize
    }

    /// True once in so many times.
    pub fn once_in(&mut self, times: usize) -> bool {
        self.below(times) == 0
    }

    pub fn of<T: Copy>(&mut self, all: &[T]) -> T {
        all[self.below(all.len())]
    }

    pub fn letter(&mut self) -> u8 {
        self.of(self.drawn)
    }

    fn draws_unknown(&self) -> bool {
        self.drawn.contains(&UNKNOWN)
    }

    pub fn letters(&mut self, count: usize) -> Vec<u8> {
        (0..count).map(|_| self.letter()).collect()
    }

    pub fn bytes(&mut self, count: usize) -> Vec<u8> {
        (0..count).map(|_| self.next() as u8).collect()
    }

    /// So many lengths from one up to, and with, another.
    pub fn lengths(&mut self, count: usize, least: u16, most: u16) -> Vec<u16> {
        let wide = (most - least + 1) as usize;
        (0..count)
            .map(|_| least + self.below(wide) as u16)
            .collect()
    }

    pub fn shuffle<T>(&mut self, all: &mut [T]) {
        for i in (1..all.len()).rev() {
            all.swap(i, self.below(i + 1));
        }
    }
}

/// All pairs of k and B whose equal lengths are taken.
pub fn pairs() -> Vec<(u32, u32)> {
    let mut pairs = Vec::new();
    for k in 2..=MOST_LENGTH as u32 {
        for b in 1..=MOST_BYTES {
            if 4 * b % k == 0 && 4 * b / k <= 64 {
                pairs.push((k, b));
            }
        }
    }
    pairs
}

/// Pairs at the ends of the limits, and at those of the old editions.
const EXTREME: [(u32, u32); 26] = [
    (2, 1),
    (2, 32),
    (3, 3),
    (3, 48),
    (4, 1),
    (4, 64),
    (5, 5),
    (8, 2),
    (8, 128),
    (9, 126),
    (16, 32),
    (32, 8),
    (32, 128),
    (63, 63),
    (64, 16),
    (64, 128),
    (32, 512),
    (33, 495),
    (43, 129),
    (65, 65),
    (128, 128),
    (128, 160),
    (129, 129),
    (255, 255),
    (256, 64),
    (256, 512),
];

/// The equal lengths of k and B.
pub fn equal_lengths(k: u32, b: u32) -> Vec<u16> {
    vec![k as u16; (4 * b / k) as usize]
}

/// One of the pairs up to this k and this B.
fn pair_up_to(rng: &mut Rng, pairs: &[(u32, u32)], most_k: u32, most_b: u32) -> (u32, u32) {
    loop {
        let (k, b) = rng.of(pairs);
        if k <= most_k && b <= most_b {
            return (k, b);
        }
    }
}

/// Equal lengths and their B, with weight on small and on extreme ones.
fn equal(rng: &mut Rng, pairs: &[(u32, u32)]) -> (Vec<u16>, u32) {
    let (k, b) = match rng.below(16) {
        0..=5 => pair_up_to(rng, pairs, 10, 10),
        6..=8 => rng.of(&EXTREME),
        9..=11 => rng.of(&[(2, 1), (2, 2), (2, 3), (3, 3), (4, 2), (4, 3), (6, 3)]),
        12..=13 => pair_up_to(rng, pairs, OLD_LENGTH as u32, OLD_BYTES),
        _ => rng.of(pairs),
    };
    (equal_lengths(k, b), b)
}

/// Lengths at the ends of the limits, in any order: many short, one long, the most letters.
fn extreme_lengths(rng: &mut Rng) -> Vec<u16> {
    let parts: &[(usize, u16)] = match rng.below(16) {
        0 => &[(63, 2), (1, 6)],
        1 => &[(63, 2), (1, 62)],
        2 => &[(48, 9), (16, 5)],
        3 => &[(7, 64), (1, 62), (1, 2)],
        4 => &[(2, 2), (1, 64)],
        5 => &[(5, 2), (3, 64), (1, 2)],
        6 => &[(32, 3), (32, 2)],
        7 => &[(20, 2), (1, 64), (1, 63), (1, 33)],
        8 => &[(60, 33), (4, 17)],
        9 => &[(7, 256), (1, 254), (1, 2)],
        10 => &[(2, 2), (1, 256)],
        11 => &[(63, 2), (1, 254)],
        12 => &[(4, 2), (1, 65), (1, 3)],
        13 => &[(8, 64), (2, 2)],
        14 => &[(1, 128), (1, 129), (1, 255)],
        _ => &[(5, 2), (1, 256), (1, 65), (1, 129)],
    };
    let each = |&(count, length): &(usize, u16)| std::iter::repeat_n(length, count);
    let mut lengths: Vec<u16> = parts.iter().flat_map(each).collect();
    rng.shuffle(&mut lengths);
    lengths
}

/// Lengths of some shape up to this one, whatever their sum.
fn shaped_lengths(rng: &mut Rng, most: u16) -> Vec<u16> {
    let any = 1 + rng.below(64);
    let count = rng.of(&[2, 3, 4, 5, 8, 12, 64, any]);
    let (short, long) = (rng.lengths(count, 2, 8), rng.lengths(count, 9, most));
    let ends = 1 + rng.below(3);
    let at_end = |i: usize| i < ends || i + ends >= count;
    match rng.below(7) {
        0 => rng.lengths(count, 2, most),
        1 => rng.lengths(count, 2, 12),
        2 => short,
        // On both sides of a change of t.
        3 => (0..count)
            .map(|_| rng.of(&[2, 3, 4, 5, 8, 9, 16, 17, 32, 33, 64, 65, 128, 129, 256]))
            .map(|length| most.min(length))
            .collect(),
        4 => (0..count)
            .map(|i| if at_end(i) { short[i] } else { long[i] })
            .collect(),
        5 => (0..count)
            .map(|i| if at_end(i) { long[i] } else { short[i] })
            .collect(),
        _ => (0..count)
            .map(|i| if i % 2 == 0 { short[0] } else { long[0] })
            .collect(),
    }
}

/// Makes lengths sum to 4B, at most to this: the last are dropped, or some made longer.
fn fitted(rng: &mut Rng, mut lengths: Vec<u16>, most_b: u32) -> (Vec<u16>, u32) {
    while sum(&lengths) > 4 * most_b {
        lengths.pop();
    }
    while !sum(&lengths).is_multiple_of(4) {
        let place = rng.below(lengths.len());
        lengths[place] = MOST_LENGTH.min(lengths[place] + 1);
    }
    let b = sum(&lengths) / 4;
    (lengths, b)
}

pub fn sum(lengths: &[u16]) -> u32 {
    lengths.iter().map(|&k| k as u32).sum()
}

/// Lengths of their own for each segment, and their B; small and extreme ones often.
fn mixed(rng: &mut Rng) -> (Vec<u16>, u32) {
    let mut most_b = MOST_BYTES;
    let lengths = match rng.below(16) {
        0..=5 => {
            let count = 2 + rng.below(4);
            rng.lengths(count, 2, 9)
        }
        6..=8 => extreme_lengths(rng),
        9..=11 => {
            let small: [&[u16]; 6] = [&[2, 6], &[6, 2], &[3, 5], &[5, 3], &[2, 4, 2], &[3, 2, 3]];
            rng.of(&small).to_vec()
        }
        12..=13 => {
            most_b = OLD_BYTES;
            shaped_lengths(rng, OLD_LENGTH)
        }
        _ => shaped_lengths(rng, MOST_LENGTH),
    };
    fitted(rng, lengths, most_b)
}

/// A taken layout and its B: equal lengths or mixed ones.
pub fn layout(rng: &mut Rng, pairs: &[(u32, u32)]) -> (Vec<u16>, u32) {
    if rng.once_in(2) {
        equal(rng, pairs)
    } else {
        mixed(rng)
    }
}

/// A taken layout with a length above those of the old editions, and its B.
pub fn long_layout(rng: &mut Rng, pairs: &[(u32, u32)]) -> (Vec<u16>, u32) {
    loop {
        let (lengths, b) = layout(rng, pairs);
        if lengths.iter().any(|&k| k > OLD_LENGTH) {
            return (lengths, b);
        }
    }
}

/// The number of bits of 2k-1.
pub fn syndrome_length(k: u16) -> usize {
    (u32::BITS - (2 * k as u32 - 1).leading_zeros()) as usize
}

/// The lengths of the written segments.
pub fn segment_lengths(lengths: &[u16]) -> Vec<usize> {
    let mut written = Vec::new();
    for &k in lengths {
        let marker = if written.is_empty() { 0 } else { 2 };
        written.push(marker + k as usize + 4 + syndrome_length(k));
    }
    written
}

/// The letters of the written strand.
pub fn strand_length(lengths: &[u16]) -> usize {
    segment_lengths(lengths).iter().sum()
}

/// The written strand cut into its segments.
pub fn cut(lengths: &[u16], strand: &[u8]) -> Vec<Vec<u8>> {
    let mut rest = strand;
    let mut segments = Vec::new();
    for n in segment_lengths(lengths) {
        let (segment, more) = rest.split_at(n);
        segments.push(segment.to_vec());
        rest = more;
    }
    segments
}

/// A message of B bytes; now and then of few ones or few zeros.
pub fn message(rng: &mut Rng, b: u32) -> Vec<u8> {
    let mut bytes = rng.bytes(b as usize);
    match rng.below(10) {
        0 => bytes.fill(0),
        1 => bytes.fill(0xFF),
        2 => {
            let byte = rng.of(&[0x55, 0xAA, 0x1B, 0xE4]);
            bytes.fill(byte);
        }
        3 => {
            let fill = rng.of(&[0, 0xFF]);
            bytes.fill(fill);
            for _ in 0..=rng.below(3) {
                let place = rng.below(bytes.len());
                bytes[place] ^= 1 << rng.below(8);
            }
        }
        _ => {}
    }
    bytes
}

/// One edit of a segment.
#[derive(Clone, Copy, Debug)]
pub enum Change {
    Replace(usize, u8),
    LeaveOut(usize),
    PutIn(usize, u8),
}

impl Change {
    pub fn done(self, segment: &[u8]) -> Vec<u8> {
        let mut stretch = segment.to_vec();
        match self {
            Change::Replace(place, letter) => stretch[place] = letter,
            Change::LeaveOut(place) => {
                stretch.remove(place);
            }
            Change::PutIn(place, letter) => stretch.insert(place, letter),
        }
        stretch
    }

    /// Whether a segment of n letters is hit in its last t+3.
    pub fn hits_tail(self, n: usize, t: usize) -> bool {
        match self {
            Change::Replace(place, _) | Change::LeaveOut(place) | Change::PutIn(place, _) => {
                place >= n - t - 3
            }
        }
    }
}

/// Every edit of a segment.
pub fn changes(segment: &[u8]) -> Vec<Change> {
    let mut all = Vec::new();
    for (place, &written) in segment.iter().enumerate() {
        all.push(Change::LeaveOut(place));
        for &letter in LETTERS {
            if letter != written {
                all.push(Change::Replace(place, letter));
            }
        }
    }
    for place in 0..=segment.len() {
        for &letter in LETTERS {
            all.push(Change::PutIn(place, letter));
        }
    }
    all
}

/// Every edit in separator or syndrome of a segment of this length.
pub fn tail_changes(segment: &[u8], length: u16) -> Vec<Change> {
    let mut all = changes(segment);
    all.retain(|change| change.hits_tail(segment.len(), syndrome_length(length)));
    all
}

/// A random edit of a segment, often at its ends.
pub fn change(rng: &mut Rng, segment: &[u8]) -> Change {
    let n = segment.len();
    let kind = rng.below(3);
    let places = if kind == 2 { n + 1 } else { n };
    let place = match rng.below(4) {
        0 => rng.below(places.min(5)),
        1 => places - 1 - rng.below(places.min(14)),
        _ => rng.below(places),
    };
    let letter = rng.letter();
    match kind {
        0 => Change::LeaveOut(place),
        1 if letter != segment[place] => Change::Replace(place, letter),
        1 => Change::LeaveOut(place),
        _ => Change::PutIn(place, letter),
    }
}

/// At most one edit in each segment, by the one-edit conditions.
pub fn one_edit(rng: &mut Rng, lengths: &[u16], strand: &[u8]) -> Vec<u8> {
    let rare = rng.of(&[1, 1, 2, 8]);
    let mut received = Vec::new();
    let mut spare_next = false;
    for (segment, &k) in cut(lengths, strand).iter().zip(lengths) {
        if spare_next || !rng.once_in(rare) {
            received.extend(segment);
            spare_next = false;
            continue;
        }
        let change = change(rng, segment);
        spare_next = change.hits_tail(segment.len(), syndrome_length(k));
        received.extend(change.done(segment));
    }
    received
}

/// Ways to damage a strand beyond the one-edit conditions.
#[derive(Clone, Copy, Debug, PartialEq, Eq)]
pub enum Damage {
    /// Up to two edits in each segment, anywhere.
    Crowded,
    /// Edits all over the strand.
    Many,
    /// Stretches cut out.
    CutOut,
    /// Stretches put in.
    PutIn,
    /// Segments repeated, left out or exchanged.
    Repeated,
    /// Letters alone.
    Random,
    /// Letters in short runs.
    Runs,
    /// The front or the back alone.
    Truncated,
    /// No letters.
    Empty,
    /// Up to 4,096 letters.
    Long,
    /// One segment badly hit, the others whole.
    OneBad,
    /// Whole segments, their markers made to fit, among other letters.
    Islands,
    /// Some or all of the letters A unknown.
    Undecided,
    /// One segment badly hit and its last letter unknown, before whole ones.
    UnknownBefore,
    /// A segment hit in separator or syndrome, and an unknown letter in the next one.
    UnknownBehind,
    /// Neighbouring segments badly hit, the others whole.
    Neighbours,
    /// Some segments whole, other letters in the places of the rest.
    Scattered,
}

pub const DAMAGES: [Damage; 17] = [
    Damage::Crowded,
    Damage::Many,
    Damage::CutOut,
    Damage::PutIn,
    Damage::Repeated,
    Damage::Random,
    Damage::Runs,
    Damage::Truncated,
    Damage::Empty,
    Damage::Long,
    Damage::OneBad,
    Damage::Islands,
    Damage::Undecided,
    Damage::UnknownBefore,
    Damage::UnknownBehind,
    Damage::Neighbours,
    Damage::Scattered,
];

/// The marker letter after a letter, an unknown one taken as A, and before a message.
fn marker(before: u8, first: u8, second: u8) -> u8 {
    let before = if before == UNKNOWN { b'A' } else { before };
    let mut choices = b"ATCG".iter().cycle().skip_while(|&&x| x != before);
    let [_, next, second_next, third_next] = [0; 4].map(|_| *choices.next().unwrap_or(&b'A'));
    let fits = |x: u8| x != first && x != second;
    match (fits(second_next), fits(third_next)) {
        (true, _) => second_next,
        (_, true) => third_next,
        _ => next,
    }
}

fn edited(rng: &mut Rng, part: &[u8], edits: usize) -> Vec<u8> {
    let mut part = part.to_vec();
    for _ in 0..edits {
        if part.is_empty() {
            break;
        }
        part = change(rng, &part).done(&part);
    }
    part
}

fn runs(rng: &mut Rng, count: usize) -> Vec<u8> {
    let mut letters = Vec::new();
    while letters.len() < count {
        let letter = rng.letter();
        let times = 1 + rng.below(4);
        letters.extend(std::iter::repeat_n(letter, times));
    }
    letters.truncate(count);
    letters
}

/// Puts a segment behind the letters received, its marker made to fit the last of them.
fn island(received: &mut Vec<u8>, segment: &[u8]) {
    let mut island = segment.to_vec();
    if let Some(&before) = received.last() {
        island[..2].fill(marker(before, segment[2], segment[3]));
    }
    received.extend(island);
}

/// Letters in the place of a segment, at most 9 more or less.
fn bad_stretch(rng: &mut Rng, segment: &[u8]) -> Vec<u8> {
    let count = segment.len() + rng.below(19);
    rng.letters(count.saturating_sub(9))
}

/// A segment hit more than once: by edits, by a cut, by other letters or by unknown ones.
fn badly_hit(rng: &mut Rng, segment: &[u8]) -> Vec<u8> {
    let from = rng.below(segment.len());
    let to = from + 1 + rng.below(segment.len() - from);
    let mut part = segment.to_vec();
    match rng.below(5) {
        0 => {
            part.drain(from..to);
        }
        1 => part[from..to].fill(UNKNOWN),
        2 => return bad_stretch(rng, segment),
        _ => {
            let edits = 2 + rng.below(3);
            return edited(rng, segment, edits);
        }
    }
    part
}

/// Letters in the place of neighbouring segments, more or fewer by up to a letter past the window that a scan has behind them.
fn long_stretch(rng: &mut Rng, segments: &[Vec<u8>]) -> Vec<u8> {
    let written: usize = segments.iter().map(Vec::len).sum();
    let (window, random) = (8 * segments.len(), rng.below(8 * segments.len()));
    let moved = rng.of(&[random, random, window - 1, window, window, window + 1]);
    let count = if rng.once_in(2) {
        written + moved
    } else {
        written.saturating_sub(moved)
    };
    rng.letters(count)
}

/// Neighbouring segments badly hit, each by itself or all in one stretch; the next one's marker often fits the letter before.
fn neighbours(rng: &mut Rng, segments: &[Vec<u8>]) -> Vec<u8> {
    let most = segments.len().min(rng.of(&[2, 3, 3, 4, 9]));
    let count = most - rng.below(most.min(2));
    let from = rng.below(segments.len() - count + 1);
    let (bad, behind) = (&segments[from..from + count], &segments[from + count..]);
    let mut received = segments[..from].concat();
    if rng.once_in(2) {
        received.extend(long_stretch(rng, bad));
    } else {
        for segment in bad {
            received.extend(badly_hit(rng, segment));
        }
    }
    if let Some((next, rest)) = behind.split_first() {
        if rng.once_in(4) {
            received.extend(next);
        } else {
            island(&mut received, next);
        }
        received.extend(rest.concat());
    }
    received
}

fn end_unknown(letters: &mut [u8]) {
    if let Some(last) = letters.last_mut() {
        *last = UNKNOWN;
    }
}

/// Makes at most so many of the letters A unknown; where there is none, a letter anywhere.
fn undecided(rng: &mut Rng, letters: &mut [u8], most: usize) {
    let mut places: Vec<usize> = (0..letters.len()).collect();
    places.retain(|&place| letters[place] == b'A');
    if places.is_empty() && !letters.is_empty() {
        places.push(rng.below(letters.len()));
    }
    rng.shuffle(&mut places);
    for &place in places.iter().take(most) {
        letters[place] = UNKNOWN;
    }
}

/// Puts unknown letters into a strand that is drawn with them: a few anywhere, in the places of A, or a run.
fn unknown(rng: &mut Rng, letters: &mut [u8]) {
    if letters.is_empty() || !rng.draws_unknown() {
        return;
    }
    let from = rng.below(letters.len());
    match rng.below(6) {
        0 => letters[from] = UNKNOWN,
        1 => {
            for _ in 0..=rng.below(4) {
                let place = rng.below(letters.len());
                letters[place] = UNKNOWN;
            }
        }
        2 => {
            let most = rng.of(&[1, 1, 2, 5]);
            undecided(rng, letters, most);
        }
        3 => {
            let most = rng.of(&[2, 4, 20, MOST_LETTERS]).min(letters.len() - from);
            let count = rng.below(most + 1);
            letters[from..from + count].fill(UNKNOWN);
        }
        _ => {}
    }
}

/// A segment hit in its last t+3 letters, and in the next one a letter made unknown or an unknown one put in.
fn unknown_behind(rng: &mut Rng, lengths: &[u16], segments: &mut [Vec<u8>]) {
    if segments.len() < 2 {
        return;
    }
    let hit = rng.below(segments.len() - 1);
    let changes = tail_changes(&segments[hit], lengths[hit]);
    segments[hit] = rng.of(&changes).done(&segments[hit]);
    let next = &mut segments[hit + 1];
    let place = rng.below(next.len());
    match rng.below(6) {
        0 => next[place] = UNKNOWN,
        1 => next.insert(place, UNKNOWN),
        _ => undecided(rng, next, 1),
    }
}

/// A badly damaged strand of at most 4,096 letters.
pub fn damaged(rng: &mut Rng, damage: Damage, lengths: &[u16], strand: &[u8]) -> Vec<u8> {
    let mut received = strand.to_vec();
    let mut segments = cut(lengths, strand);
    match damage {
        Damage::Crowded => {
            received.clear();
            for segment in &segments {
                let edits = rng.of(&[0, 1, 1, 2]);
                received.extend(edited(rng, segment, edits));
            }
        }
        Damage::Many => {
            let edits = 1 + rng.below(1 + strand.len() / 4);
            received = edited(rng, strand, edits);
        }
        Damage::CutOut => {
            for _ in 0..=rng.below(3) {
                let from = rng.below(received.len() + 1);
                let most = (received.len() - from).min(rng.of(&[3, 9, 20, MOST_LETTERS]));
                let count = rng.below(most + 1);
                received.drain(from..from + count);
            }
        }
        Damage::PutIn => {
            for _ in 0..=rng.below(3) {
                let at = rng.below(received.len() + 1);
                let most = rng.of(&[3, 9, 20, 90]);
                let count = 1 + rng.below(most);
                let more = rng.letters(count);
                received.splice(at..at, more);
            }
        }
        Damage::Repeated => {
            received.clear();
            for i in 0..segments.len() {
                match rng.below(5) {
                    0 => {}
                    1 => received.extend(segments[i].iter().chain(&segments[i])),
                    2 => received.extend(&segments[rng.below(segments.len())]),
                    _ => received.extend(&segments[i]),
                }
            }
        }
        Damage::Random => {
            let most = rng.of(&[30, 400, MOST_LETTERS]);
            let count = rng.below(most + 1);
            received = rng.letters(count);
        }
        Damage::Runs => {
            let count = rng.below(2 * strand.len());
            received = runs(rng, count);
        }
        Damage::Truncated => {
            let at = rng.below(strand.len() + 1);
            if rng.once_in(4) {
                received.drain(..at);
            } else {
                received.truncate(at);
            }
            if rng.once_in(3) {
                received = edited(rng, &received, 1);
            }
        }
        Damage::Empty => received.clear(),
        Damage::Long => {
            let count = MOST_LETTERS - rng.of(&[0, 0, 1, 2, 50]);
            if rng.once_in(2) {
                received = strand.iter().copied().cycle().take(count).collect();
            } else {
                let more = rng.letters(count);
                received.extend(more);
                received.truncate(count);
            }
        }
        Damage::OneBad => {
            let bad = rng.below(segments.len());
            segments[bad] = bad_stretch(rng, &segments[bad]);
            received = segments.concat();
        }
        Damage::Islands => {
            received.clear();
            if rng.once_in(2) {
                received.extend(&segments[0]);
            }
            let most = rng.of(&[2, 9, 20, segments[0].len() + 10]);
            for segment in segments.iter().skip(1) {
                let count = rng.below(most);
                let between = rng.letters(count);
                received.extend(between);
                if rng.draws_unknown() && rng.once_in(2) {
                    end_unknown(&mut received);
                }
                island(&mut received, segment);
            }
        }
        Damage::Undecided => {
            let most = rng.of(&[1, 2, 9, MOST_LETTERS]);
            undecided(rng, &mut received, most);
        }
        Damage::UnknownBefore => {
            let bad = rng.below(segments.len().max(2) - 1);
            received = segments[..bad].concat();
            received.extend(bad_stretch(rng, &segments[bad]));
            end_unknown(&mut received);
            for segment in &segments[bad + 1..] {
                island(&mut received, segment);
            }
        }
        Damage::UnknownBehind => {
            unknown_behind(rng, lengths, &mut segments);
            received = segments.concat();
        }
        Damage::Neighbours => received = neighbours(rng, &segments),
        Damage::Scattered => {
            received.clear();
            let rare = rng.of(&[2, 2, 3, 5]);
            for segment in &segments {
                if rng.once_in(rare) {
                    island(&mut received, segment);
                } else {
                    received.extend(bad_stretch(rng, segment));
                }
            }
        }
    }
    received.truncate(MOST_LETTERS);
    unknown(rng, &mut received);
    received
}

/// A strand of 4,097 letters or more.
pub fn overlong(rng: &mut Rng) -> Vec<u8> {
    let count = MOST_LETTERS + rng.of(&[1, 1, 2, 64, MOST_LETTERS]);
    rng.letters(count)
}

/// A byte that is no letter of a strand; often one close to them.
pub fn foreign_byte(rng: &mut Rng) -> u8 {
    loop {
        let byte = if rng.once_in(2) {
            rng.of(b"atcgnBDEFHMOSUVX \n\r\0\xC1\xD4\xC3\xC7\xCE@\xFF")
        } else {
            rng.next() as u8
        };
        if !LETTERS.contains(&byte) {
            return byte;
        }
    }
}

/// Puts foreign letters at random places of a strand that is not empty, often with an unknown one before.
pub fn foreign(rng: &mut Rng, strand: &mut [u8]) {
    let last = strand.len() - 1;
    for _ in 0..=rng.below(3) {
        let random = rng.below(strand.len());
        let place = rng.of(&[0, last, random, random, random]);
        strand[place] = foreign_byte(rng);
        if place > 0 && !rng.once_in(6) {
            strand[rng.below(place)] = UNKNOWN;
        }
    }
}

/// A length outside its limits.
pub fn bad_length(rng: &mut Rng) -> u16 {
    rng.of(&[
        0,
        1,
        257,
        258,
        320,
        511,
        512,
        514,
        1 << 15,
        (1 << 15) + 2,
        u16::MAX - 1,
        u16::MAX,
    ])
}

/// Puts lengths outside the limits at random places.
pub fn bad_lengths(rng: &mut Rng, lengths: &mut Vec<u16>) {
    let last = lengths.len().saturating_sub(1);
    for _ in 0..=rng.below(2) {
        let bad = bad_length(rng);
        let random = rng.below(last + 1);
        let place = rng.of(&[0, last, random, random]);
        match lengths.get_mut(place) {
            Some(length) if rng.once_in(2) => *length = bad,
            _ => lengths.insert(place, bad),
        }
    }
}

/// A B outside its limits.
pub fn bad_b(rng: &mut Rng) -> u32 {
    rng.of(&[
        0,
        513,
        514,
        640,
        1023,
        1024,
        1025,
        1 << 16,
        1 << 30,
        (1 << 30) + 1,
        u32::MAX - 1,
        u32::MAX,
    ])
}

/// Lengths and a B within the limits that are no taken cut: none, too many, or another sum.
pub fn bad_cut(rng: &mut Rng) -> (Vec<u16>, u32) {
    let (mut lengths, mut b) = mixed(rng);
    match rng.below(8) {
        0 => lengths.clear(),
        1 => {
            let lengths_65 = rng.lengths(65, 2, 6);
            (lengths, b) = fitted(rng, lengths_65, MOST_BYTES);
        }
        2 => {
            let count = rng.of(&[66, 127, 128, 129, 192, 320, 1100]);
            lengths = rng.lengths(count, 2, MOST_LENGTH);
        }
        3 => b = 1 + rng.below(MOST_BYTES as usize) as u32,
        4 => b = rng.of(&[b + 1, b.max(2) - 1]).min(MOST_BYTES),
        5 => {
            let place = rng.below(lengths.len());
            let more = 1 + rng.below(3) as u16;
            lengths[place] = rng.of(&[lengths[place] + more, lengths[place].max(2 + more) - more]);
            lengths[place] = lengths[place].min(MOST_LENGTH);
        }
        6 => {
            lengths.pop();
        }
        _ => {
            // As many equal lengths as go into 4B, or one more.
            let k = 2 + rng.below(MOST_LENGTH as usize - 1) as u16;
            b = 1 + rng.below(MOST_BYTES as usize) as u32;
            lengths = vec![k; (4 * b / k as u32) as usize + rng.below(2)];
        }
    }
    if (1..=64).contains(&lengths.len()) && sum(&lengths) == 4 * b {
        return bad_cut(rng);
    }
    (lengths, b)
}

/// The bytes of a label by its fields, each a number and its bits; zeros to the byte's end.
fn packed(fields: &[(u32, u32)]) -> Vec<u8> {
    let mut bytes = Vec::new();
    let (mut bits, mut count) = (0u64, 0);
    for &(number, width) in fields {
        bits = bits << width | number as u64 & ((1 << width) - 1);
        count += width;
        while count >= 8 {
            count -= 8;
            bytes.push((bits >> count) as u8);
        }
    }
    if count > 0 {
        bytes.push((bits << (8 - count)) as u8);
    }
    bytes
}

/// A label of edition 1 for any numbers, as far as its fields hold them.
pub fn label_1(k: u16, b: u32) -> Vec<u8> {
    packed(&[(1, 4), (k as u32, 7), (b, 8), (0, 13)])
}

/// A label of edition 2 or 3 for any numbers, as far as its fields hold them.
pub fn label_listed(edition: u32, lengths: &[u16], b: u32) -> Vec<u8> {
    let (b_bits, k_bits) = if edition == 2 { (8, 7) } else { (10, 9) };
    let lengths = &lengths[..lengths.len().min(127)];
    let mut fields = vec![(edition, 4), (b, b_bits), (lengths.len() as u32, 7)];
    fields.extend(lengths.iter().map(|&k| (k as u32, k_bits)));
    packed(&fields)
}

/// Whether the old editions can carry lengths and B.
pub fn fits_old(lengths: &[u16], b: u32) -> bool {
    b <= OLD_BYTES && lengths.iter().all(|&k| k <= OLD_LENGTH)
}

/// The label of a layout and B in its own edition.
pub fn label(lengths: &[u16], b: u32) -> Vec<u8> {
    if !fits_old(lengths, b) {
        return label_listed(3, lengths, b);
    }
    match lengths {
        [k, others @ ..] if others.iter().all(|other| other == k) => label_1(*k, b),
        _ => label_listed(2, lengths, b),
    }
}

/// The bytes of the label that is written for a layout and B.
pub fn label_length(lengths: &[u16], b: u32) -> usize {
    label(lengths, b).len()
}

/// A count for a tally, often close to the limit.
pub fn count(rng: &mut Rng) -> u32 {
    let random = rng.next() as u32;
    rng.of(&[
        0,
        1,
        2,
        64,
        1 << 31,
        u32::MAX - 64,
        u32::MAX - 1,
        u32::MAX,
        random,
        random >> 8,
    ])
}
