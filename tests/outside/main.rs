//! Compares the library, called by its C names, with the oracle.

mod conditions;
#[allow(dead_code)]
mod ffi;
mod labels;
mod lines;
mod old_label;
mod oracle;
#[allow(dead_code)]
mod program;
mod programs;
mod quotes;
mod strands;
mod truth;
mod verdicts;

use ffi::{Counts, Order, Piece, Said, Tallied, Tally, Written};
use oracle::{Edit, Letter, Refused, Segment, Verdict};
use program::hex;
use std::fmt::Debug;
use std::process::exit;
use std::sync::atomic::{AtomicU64, Ordering};
use strands::{Damage, Rng};
use truth::{decided, Reading};

const GUARD: usize = 64;

/// The bytes that are enough for the lines of every strand.
const MOST_REPORT: usize = 960;

/// The bytes that are enough for every label that is written.
const MOST_LABEL: usize = 75;

/// The bytes that are enough for every strand that is written.
const ROOM: usize = 3000;

/// The segments of one strand whose verdicts are asked one by one.
const MOST_VERDICTS: usize = 4;

/// Up to so many bytes every shorter buffer is tried too.
const MANY_ROOMS: usize = 160;

/// How seldom the lines of a strand of demand 3 are compared.
const TOLD_ONCE_IN: u64 = 47;

/// The case under way, for a library that ends the run.
static SEED: AtomicU64 = AtomicU64::new(0);
static CASE: AtomicU64 = AtomicU64::new(0);

extern "C" {
    fn signal(number: i32, handler: extern "C" fn(i32)) -> usize;
}

extern "C" fn ended(number: i32) {
    let (seed, case) = (SEED.load(Ordering::Relaxed), CASE.load(Ordering::Relaxed));
    println!("disagreement: seed {seed} case {case} library ended by signal {number}");
    exit(1);
}

/// Signals 4, 6, 7, 8 and 11 tell the case before the end.
fn watch() {
    for number in [4, 6, 7, 8, 11] {
        unsafe { signal(number, ended) };
    }
}

/// Bytes or lengths, as a disagreement tells them.
trait Shown: Copy + PartialEq + From<u8> {
    fn shown(all: &[Self]) -> String;
}

impl Shown for u8 {
    fn shown(all: &[u8]) -> String {
        hex(all)
    }
}

impl Shown for u16 {
    fn shown(all: &[u16]) -> String {
        let all: Vec<String> = all.iter().map(u16::to_string).collect();
        all.join(",")
    }
}

/// A lent range between guards, or in an allocation of its own.
struct Lent<T> {
    all: Box<[T]>,
    from: usize,
    length: usize,
    dangling: bool,
}

impl<T: Shown> Lent<T> {
    fn new(rng: &mut Rng, exact: bool, content: &[T], after: &[T]) -> Lent<T> {
        let dangling = content.is_empty() && rng.once_in(2);
        let mut all = Vec::new();
        let guard = if exact { 0 } else { GUARD };
        all.extend((0..guard).map(|_| T::from(rng.next() as u8)));
        all.extend(content);
        if !exact {
            all.extend(&after[..after.len().min(GUARD)]);
            while all.len() < content.len() + 2 * GUARD {
                all.push(T::from(rng.next() as u8));
            }
        }
        Lent {
            all: all.into_boxed_slice(),
            from: guard,
            length: content.len(),
            dangling,
        }
    }

    fn as_ptr(&self) -> *const T {
        if self.dangling {
            return std::ptr::NonNull::dangling().as_ptr();
        }
        self.all[self.from..].as_ptr()
    }

    fn as_mut_ptr(&mut self) -> *mut T {
        if self.dangling {
            return std::ptr::NonNull::dangling().as_ptr();
        }
        self.all[self.from..].as_mut_ptr()
    }

    fn content(&self) -> &[T] {
        &self.all[self.from..self.from + self.length]
    }

    /// The same range with another content.
    fn with(&self, content: &[T]) -> Box<[T]> {
        let mut all = self.all.clone();
        all[self.from..self.from + self.length].copy_from_slice(content);
        all
    }
}

#[derive(Clone, Copy, Debug, PartialEq, Eq)]
enum Kind {
    Untouched,
    OneEdit,
    LongSegments,
    Damaged(Damage),
    Overlong,
    Foreign,
    ShortBuffers,
    OutsideLimits,
    ManyFaults,
}

fn kinds() -> Vec<Kind> {
    let mut kinds = vec![
        Kind::Untouched,
        Kind::OneEdit,
        Kind::LongSegments,
        Kind::Overlong,
        Kind::Foreign,
        Kind::ShortBuffers,
        Kind::OutsideLimits,
        Kind::ManyFaults,
    ];
    kinds.extend(strands::DAMAGES.map(Kind::Damaged));
    kinds
}

/// The kinds in turn, the telling ones more often.
fn turns() -> Vec<Kind> {
    let mut turns = kinds();
    turns.extend([
        Kind::OneEdit,
        Kind::OneEdit,
        Kind::Foreign,
        Kind::Damaged(Damage::Crowded),
        Kind::Damaged(Damage::Crowded),
        Kind::Damaged(Damage::Islands),
        Kind::Damaged(Damage::UnknownBehind),
        Kind::Damaged(Damage::Neighbours),
        Kind::Damaged(Damage::Scattered),
        Kind::ManyFaults,
    ]);
    turns
}

/// The verdicts by name.
const VERDICTS: [&str; 11] = [
    "clean", "unknown", "sub", "del", "ins", "step 3", "step 6", "step 7", "step 8", "step 9",
    "no start",
];

fn name_of(verdict: Verdict) -> &'static str {
    match verdict {
        Verdict::Read(Edit::None) => "clean",
        Verdict::Unknown => "unknown",
        Verdict::Read(Edit::Sub { .. }) => "sub",
        Verdict::Read(Edit::Del { .. }) => "del",
        Verdict::Read(Edit::Ins { .. }) => "ins",
        Verdict::Lost { step: 3 } => "step 3",
        Verdict::Lost { step: 6 } => "step 6",
        Verdict::Lost { step: 7 } => "step 7",
        Verdict::Lost { step: 8 } => "step 8",
        Verdict::Lost { .. } => "step 9",
        Verdict::NoStart => "no start",
    }
}

/// A received strand and its layout as they are lent, B, and the segments by the oracle.
struct Received<'a> {
    lengths: &'a [u16],
    b: u32,
    letters: &'a [u8],
    segments: Result<Vec<Segment>, Refused>,
    layout: Lent<u16>,
    layout_before: Box<[u16]>,
    strand: Lent<u8>,
    strand_before: Box<[u8]>,
}

impl Received<'_> {
    /// The bytes of its lines, none where it is refused.
    fn needed(&self) -> usize {
        let segments = self.segments.as_deref().unwrap_or_default();
        oracle::lines(segments).len()
    }

    fn call(&self, name: &str, number: usize) -> String {
        let (lengths, letters) = (u16::shown(self.lengths), self.letters.escape_ascii());
        format!(
            "{name} lengths {lengths} B {} letters {letters} with {number}",
            self.b
        )
    }
}

/// What was met, by name.
struct Met {
    names: Vec<String>,
    counts: Vec<u64>,
}

impl Met {
    fn new() -> Met {
        let mut names: Vec<String> = kinds().iter().map(|kind| format!("{kind:?}")).collect();
        let numbers = (0..=9).chain([13]);
        names.extend(numbers.map(|number| format!("refusal {number}")));
        for call in [
            "write",
            "read",
            "piece",
            "report",
            "verdict",
            "write label",
            "read label",
            "convert label",
            "quote",
            "tally",
        ] {
            names.push(format!("{call} taken"));
            names.push(format!("{call} refused"));
        }
        for verdict in VERDICTS {
            names.push(format!("line {verdict}"));
            names.push(format!("verdict {verdict}"));
        }
        let rooms = ["lines fit", "lines a byte short", "room behind lines"];
        names.extend(rooms.map(String::from));
        let letters = [
            "strand without N",
            "strand with N",
            "N told by sub",
            "N told by ins",
            "scanned",
            "scanned behind N",
            "lost by N",
            "one-edit strand",
            "touched by N alone",
            "foreign behind N",
        ];
        names.extend(letters.map(String::from));
        let scans = [
            "strand with a segment passed",
            "several passed at once",
            "found beyond 8 letters",
            "passed again further on",
            "clean behind the one found",
            "none found of several",
        ];
        names.extend(scans.map(String::from));
        let quotes = [
            "no strands quoted",
            "most strands quoted",
            "first length 2 of several",
            "most starts quoted",
            "starts tried",
            "several scans in one reading",
            "starts tried past the end",
            "all starts tried by a strand with letters",
        ];
        names.extend(quotes.map(String::from));
        let layouts = [
            "equal lengths",
            "mixed lengths",
            "length above 64",
            "B above 128",
            "written above 1,198 letters",
            "read above 2,048 letters",
            "one-edit strand with a length above 64",
            "edit at a place above 64",
            "label of edition 1",
            "label of edition 2",
            "label of edition 3",
            "label of edition 3 for equal lengths",
            "label of edition 3 that an old one could carry",
            "label too large for an old edition by its length",
            "label too large for an old edition by its B",
            "edition 1 written",
            "edition 2 written",
            "edition 3 written",
            "edition 1 converted to 3",
            "edition 2 converted to 3",
            "edition 3 converted to 1",
            "edition 3 converted to 2",
        ];
        names.extend(layouts.map(String::from));
        let counts = vec![0; names.len()];
        Met { names, counts }
    }

    fn add(&mut self, name: &str) {
        let place = self.names.iter().position(|x| x == name);
        self.counts[place.expect(name)] += 1;
    }

    fn line(&self) -> String {
        let pairs = self.names.iter().zip(&self.counts);
        let parts: Vec<String> = pairs
            .map(|(name, count)| format!("{name} {count}"))
            .collect();
        parts.join(", ")
    }

    fn missing(&self) -> Vec<String> {
        let pairs = self.names.iter().zip(&self.counts);
        pairs
            .filter(|(_, &count)| count == 0)
            .map(|(name, _)| name.clone())
            .collect()
    }
}

struct Run {
    seed: u64,
    case: u64,
    kind: Kind,
    exact: bool,
    rng: Rng,
    met: Met,
}

impl Run {
    fn lend<T: Shown>(&mut self, content: &[T], after: &[T]) -> Lent<T> {
        Lent::new(&mut self.rng, self.exact, content, after)
    }

    /// A buffer of random bytes.
    fn buffer(&mut self, length: usize) -> Lent<u8> {
        let content = self.rng.bytes(length);
        self.lend(&content, &[])
    }

    fn count<T>(&mut self, call: &str, answer: &Result<T, Refused>) {
        match answer {
            Ok(_) => {
                self.met.add("refusal 0");
                self.met.add(&format!("{call} taken"));
            }
            Err(refused) => {
                self.met.add(&format!("refusal {}", refused.number));
                self.met.add(&format!("{call} refused"));
            }
        }
    }

    /// Tells both answers and ends the run.
    fn disagree(&self, call: &str, wanted: String, got: String) -> ! {
        println!(
            "disagreement: seed {} case {} kind {:?} call {call} oracle {wanted} library {got}",
            self.seed, self.case, self.kind
        );
        exit(1);
    }

    fn same<T: PartialEq + Debug>(&self, call: &dyn Fn() -> String, wanted: T, got: T) {
        if wanted != got {
            self.disagree(&call(), format!("{wanted:?}"), format!("{got:?}"));
        }
    }

    fn same_all<T: Shown>(
        &self,
        call: &dyn Fn() -> String,
        what: &str,
        wanted: &[T],
        lent: &Lent<T>,
    ) {
        if *wanted == *lent.all {
            return;
        }
        let place = (0..wanted.len()).find(|&i| wanted[i] != lent.all[i]);
        let place = place.unwrap_or(0) as i64 - lent.from as i64;
        let length = lent.length;
        let wanted = &wanted[lent.from..lent.from + length];
        self.disagree(
            &format!("{} {what} differs at {place} of {length}", call()),
            T::shown(wanted),
            T::shown(lent.content()),
        );
    }

    fn check_write(&mut self, lengths: &[u16], b: u32, message: &[u8], out_length: usize) {
        let layout = self.lend(lengths, &[]);
        let lent = self.lend(message, &[]);
        let mut out = self.buffer(out_length);
        let mut wanted_out = out.content().to_vec();
        let answer = oracle::write(lengths, b, message, &mut wanted_out);
        self.count("write", &answer);
        let letters = answer.unwrap_or(0);
        self.met_if(letters > 1198, "written above 1,198 letters");
        let wanted = written_of(answer);
        let (layout_before, message_before) = (layout.with(lengths), lent.with(message));
        let out_wanted = out.with(&wanted_out);
        let out_ptr = out.as_mut_ptr();
        let got = unsafe {
            ffi::dnalm_write(
                layout.as_ptr(),
                lengths.len(),
                b,
                lent.as_ptr(),
                message.len(),
                out_ptr,
                out_length,
            )
        };
        let call = || {
            let (lengths, message) = (u16::shown(lengths), hex(message));
            format!("write lengths {lengths} B {b} message {message} out {out_length}")
        };
        self.same(&call, wanted, got);
        self.same_all(&call, "out", &out_wanted, &out);
        self.same_all(&call, "message", &message_before, &lent);
        self.same_all(&call, "lengths", &layout_before, &layout);
    }

    /// Hands back the library's counts, bytes and sheet.
    fn check_read(
        &mut self,
        lengths: &[u16],
        b: u32,
        letters: &[u8],
        after: &[u8],
        rooms: (usize, usize),
    ) -> (Counts, Vec<u8>, Vec<u8>) {
        let layout = self.lend(lengths, &[]);
        let lent = self.lend(letters, after);
        let mut message = self.buffer(rooms.0);
        let mut sheet = self.buffer(rooms.1);
        let mut wanted_message = message.content().to_vec();
        let mut wanted_sheet = sheet.content().to_vec();
        let answer = oracle::read(lengths, b, letters, &mut wanted_message, &mut wanted_sheet);
        self.count("read", &answer);
        if answer.is_err_and(|refused| letters[..refused.place].contains(&b'N')) {
            self.met.add("foreign behind N");
        }
        let long = answer.is_ok() && letters.len() > 2048;
        self.met_if(long, "read above 2,048 letters");
        let wanted = match answer {
            Ok([clean, corrected, lost]) => Counts {
                refusal: 0,
                place: 0,
                clean,
                corrected,
                lost,
            },
            Err(refused) => Counts {
                refusal: refused.number,
                place: refused.place,
                clean: 0,
                corrected: 0,
                lost: 0,
            },
        };
        let (layout_before, letters_before) = (layout.with(lengths), lent.with(letters));
        let message_wanted = message.with(&wanted_message);
        let sheet_wanted = sheet.with(&wanted_sheet);
        let (message_ptr, sheet_ptr) = (message.as_mut_ptr(), sheet.as_mut_ptr());
        let got = unsafe {
            ffi::dnalm_read(
                layout.as_ptr(),
                lengths.len(),
                b,
                lent.as_ptr(),
                letters.len(),
                message_ptr,
                rooms.0,
                sheet_ptr,
                rooms.1,
            )
        };
        let call = || {
            let (lengths, letters) = (u16::shown(lengths), letters.escape_ascii());
            let (message, sheet) = rooms;
            format!(
                "read lengths {lengths} B {b} letters {letters} message {message} sheet {sheet}"
            )
        };
        self.same(&call, wanted, got);
        self.same_all(&call, "message", &message_wanted, &message);
        self.same_all(&call, "sheet", &sheet_wanted, &sheet);
        self.same_all(&call, "letters", &letters_before, &lent);
        self.same_all(&call, "lengths", &layout_before, &layout);
        (got, message.content().to_vec(), sheet.content().to_vec())
    }

    /// The letters behind the strand are lent with it.
    fn lend_strand<'a>(
        &mut self,
        lengths: &'a [u16],
        b: u32,
        letters: &'a [u8],
        after: &[u8],
    ) -> Received<'a> {
        let (layout, strand) = (self.lend(lengths, &[]), self.lend(letters, after));
        Received {
            lengths,
            b,
            letters,
            segments: oracle::segments(lengths, b, letters),
            layout_before: layout.with(lengths),
            layout,
            strand_before: strand.with(letters),
            strand,
        }
    }

    /// A call has left the strand and its layout as they were.
    fn unchanged(&self, call: &dyn Fn() -> String, received: &Received) {
        self.same_all(call, "letters", &received.strand_before, &received.strand);
        self.same_all(call, "lengths", &received.layout_before, &received.layout);
    }

    /// Hands back the start and the length of the library's piece.
    fn check_piece(&mut self, received: &Received, segment: u32) -> (usize, usize) {
        let answer = oracle::piece(&received.segments, segment);
        self.count("piece", &answer);
        let wanted = match answer {
            Ok((start, length)) => Piece {
                refusal: 0,
                place: 0,
                start,
                length,
            },
            Err(refused) => Piece {
                refusal: refused.number,
                place: refused.place,
                start: 0,
                length: 0,
            },
        };
        let got = unsafe {
            ffi::dnalm_piece(
                received.layout.as_ptr(),
                received.lengths.len(),
                received.b,
                received.strand.as_ptr(),
                received.letters.len(),
                segment,
            )
        };
        let call = || received.call("piece", segment as usize);
        self.same(&call, wanted, got);
        self.unchanged(&call, received);
        (got.start, got.length)
    }

    /// Hands back the kind of the library's verdict.
    fn check_verdict(&mut self, received: &Received, segment: u32) -> u32 {
        let answer = oracle::verdict(&received.segments, segment);
        self.count("verdict", &answer);
        let wanted = match answer {
            Ok(verdict) => {
                self.met.add(&format!("verdict {}", name_of(verdict)));
                verdicts::said_of(verdict)
            }
            Err(refused) => Said {
                refusal: refused.number,
                place: refused.place,
                ..Said::default()
            },
        };
        let got = unsafe {
            ffi::dnalm_verdict(
                received.layout.as_ptr(),
                received.lengths.len(),
                received.b,
                received.strand.as_ptr(),
                received.letters.len(),
                segment,
            )
        };
        let call = || received.call("verdict", segment as usize);
        self.same(&call, wanted, got);
        self.unchanged(&call, received);
        got.kind
    }

    /// Hands back the library's lines.
    fn check_report(&mut self, received: &Received, room: usize) -> Vec<u8> {
        let mut out = self.buffer(room);
        let mut wanted_out = out.content().to_vec();
        let answer = oracle::report(&received.segments, &mut wanted_out);
        self.count("report", &answer);
        match answer {
            Ok(length) if length < room => self.met.add("room behind lines"),
            Ok(_) => self.met.add("lines fit"),
            Err(refused) if refused.number == 5 && room + 1 == received.needed() => {
                self.met.add("lines a byte short")
            }
            Err(_) => {}
        }
        let wanted = written_of(answer);
        let out_wanted = out.with(&wanted_out);
        let out_ptr = out.as_mut_ptr();
        let got = unsafe {
            ffi::dnalm_report(
                received.layout.as_ptr(),
                received.lengths.len(),
                received.b,
                received.strand.as_ptr(),
                received.letters.len(),
                out_ptr,
                room,
            )
        };
        let call = || received.call("report", room);
        self.same(&call, wanted, got);
        self.same_all(&call, "out", &out_wanted, &out);
        self.unchanged(&call, received);
        if got.length > MOST_REPORT {
            let most = format!("at most {MOST_REPORT} bytes");
            self.disagree(&call(), most, format!("{got:?}"));
        }
        out.content()[..got.length].to_vec()
    }

    /// The lines in a buffer just as long, a byte shorter and longer; hands them back.
    fn check_lines(&mut self, received: &Received) -> Vec<u8> {
        let needed = received.needed();
        let more = self.rng.of(&[1, 1, 2, 40]);
        self.check_report(received, needed + more);
        if needed > 0 {
            self.check_report(received, needed - 1);
        }
        self.check_report(received, needed)
    }

    /// The pieces and the verdicts by the numbers of segments, or of none.
    fn check_segments(&mut self, received: &Received, numbers: &[u32]) {
        for &segment in numbers {
            self.check_piece(received, segment);
            self.check_verdict(received, segment);
        }
    }

    /// A label that is written reads back as its own order, so no other order has it.
    fn check_write_label(&mut self, lengths: &[u16], b: u32, length: usize) {
        let layout = self.lend(lengths, &[]);
        let mut out = self.buffer(length);
        let mut wanted_out = out.content().to_vec();
        let answer = oracle::write_label(lengths, b, &mut wanted_out);
        self.count("write label", &answer);
        let wanted = written_of(answer);
        let (layout_before, out_wanted) = (layout.with(lengths), out.with(&wanted_out));
        let out_ptr = out.as_mut_ptr();
        let got =
            unsafe { ffi::dnalm_write_label(layout.as_ptr(), lengths.len(), b, out_ptr, length) };
        let call = || {
            let lengths = u16::shown(lengths);
            format!("write label lengths {lengths} B {b} out {length}")
        };
        self.same(&call, wanted, got);
        self.same_all(&call, "out", &out_wanted, &out);
        self.same_all(&call, "lengths", &layout_before, &layout);
        if got.refusal == 0 {
            let label = &out.content()[..got.length];
            self.same(&call, order_of(Ok((lengths, b))), ffi::read_label(label));
            let edition = label[0] >> 4;
            self.met.add(&format!("edition {edition} written"));
        }
    }

    fn check_read_label(&mut self, label: &[u8]) {
        let behind = self.rng.bytes(4);
        let lent = self.lend(label, &behind);
        let answer = oracle::read_label(label);
        self.count("read label", &answer);
        if let Ok((lengths, b)) = &answer {
            self.count_label(label[0] >> 4, lengths, *b);
        }
        let wanted = answer.as_ref().map(|(lengths, b)| (&lengths[..], *b));
        let wanted = order_of(wanted.map_err(|refused| refused.number));
        let before = lent.with(label);
        let got = unsafe { ffi::dnalm_read_label(lent.as_ptr(), label.len()) };
        let call = || format!("read label {}", hex(label));
        self.same(&call, wanted, got);
        self.same_all(&call, "label", &before, &lent);
        self.check_old_reader(label, got);
    }

    /// Counts a label that is taken.
    fn count_label(&mut self, edition: u8, lengths: &[u16], b: u32) {
        self.met.add(&format!("label of edition {edition}"));
        if edition != 3 {
            return;
        }
        let equal = lengths.iter().all(|&k| k == lengths[0]);
        self.met_if(equal, "label of edition 3 for equal lengths");
        let long = lengths.iter().any(|&k| k > strands::OLD_LENGTH);
        let large = b > strands::OLD_BYTES;
        let either = long || large;
        self.met_if(!either, "label of edition 3 that an old one could carry");
        let by_length = "label too large for an old edition by its length";
        self.met_if(long && !large, by_length);
        let by_b = "label too large for an old edition by its B";
        self.met_if(large && !long, by_b);
    }

    /// A reader of the old editions alone refuses each label of edition 3 that is taken by 8, and reads all others as the library does.
    fn check_old_reader(&self, label: &[u8], got: Order) {
        let old = old_label::read(label);
        let call = || format!("read label by the old editions {}", hex(label));
        if label.first().is_none_or(|first| first >> 4 != 3) {
            let old = old.as_ref().map(|(lengths, b)| (&lengths[..], *b));
            self.same(&call, order_of(old.map_err(|number| *number)), got);
        } else if got.refusal == 0 {
            self.same(&call, Err(8), old);
        }
    }

    fn check_convert_label(&mut self, label: &[u8], room: usize) {
        let behind = self.rng.bytes(4);
        let lent = self.lend(label, &behind);
        let mut out = self.buffer(room);
        let mut wanted_out = out.content().to_vec();
        let answer = oracle::convert_label(label, &mut wanted_out);
        self.count("convert label", &answer);
        let wanted = written_of(answer);
        let (before, out_wanted) = (lent.with(label), out.with(&wanted_out));
        let out_ptr = out.as_mut_ptr();
        let got = unsafe { ffi::dnalm_convert_label(lent.as_ptr(), label.len(), out_ptr, room) };
        let call = || format!("convert label {} out {room}", hex(label));
        self.same(&call, wanted, got);
        self.same_all(&call, "out", &out_wanted, &out);
        self.same_all(&call, "label", &before, &lent);
        if got.refusal == 0 {
            self.check_back(label, &out.content()[..got.length]);
        }
    }

    /// A converted label says what the label says, and is converted back to its bytes.
    fn check_back(&mut self, label: &[u8], converted: &[u8]) {
        let (from, to) = (label[0] >> 4, converted[0] >> 4);
        self.met.add(&format!("edition {from} converted to {to}"));
        let call = || format!("convert label {} to {}", hex(label), hex(converted));
        let said = ffi::read_label(label);
        self.same(&call, said, ffi::read_label(converted));
        let mut back = [0xA5; MOST_LABEL];
        let got = ffi::convert_label(converted, &mut back);
        let needs = oracle::label_needs(label).unwrap_or(0);
        self.same(&call, written_of(Ok(needs)), got);
        self.same(&call, hex(&label[..needs]), hex(&back[..needs]));
    }

    /// A label converted in a buffer about as long as it takes.
    fn convert_about(&mut self, label: &[u8]) {
        let needed = oracle::convert_label(label, &mut [0; MOST_LABEL]).unwrap_or(4);
        let room = self.rng.below(MOST_LABEL + 3);
        let room = self.rng.of(&[needed - 1, needed, needed, needed + 1, room]);
        self.check_convert_label(label, room);
    }

    fn check_tally(&mut self, tally: Tally, [clean, corrected, lost]: [u32; 3]) {
        let mut wanted_tally = oracle::Tally {
            strands: tally.strands,
            clean: tally.clean,
            corrected: tally.corrected,
            lost: tally.lost,
        };
        let answer = oracle::add_to_tally(&mut wanted_tally, clean, corrected, lost);
        self.count("tally", &answer);
        let wanted = Tallied {
            refusal: answer.map_or_else(|refused| refused.number, |()| 0),
            strands: wanted_tally.strands,
            clean: wanted_tally.clean,
            corrected: wanted_tally.corrected,
            lost: wanted_tally.lost,
        };
        let got = unsafe { ffi::dnalm_add_to_tally(tally, clean, corrected, lost) };
        let call = || format!("tally {tally:?} and {clean} {corrected} {lost}");
        self.same(&call, wanted, got);
    }

    /// Counts what is told of unknown letters and of scans.
    fn count_verdicts(&mut self, received: &Received) {
        for segment in received.segments.iter().flatten() {
            match segment.verdict {
                Verdict::Read(Edit::Sub { letter: b'N', .. }) => self.met.add("N told by sub"),
                Verdict::Read(Edit::Ins { letter: b'N', .. }) => self.met.add("N told by ins"),
                _ => {}
            }
            if let Verdict::Read(edit) = segment.verdict {
                let far = edit.place().is_some_and(|place| place > 64);
                self.met_if(far, "edit at a place above 64");
            }
            if segment.scanned {
                self.met.add("scanned");
                if received.letters[segment.start - 1] == b'N' {
                    self.met.add("scanned behind N");
                }
            }
        }
        self.count_passed(received);
    }

    /// Counts what is found behind segments that a scan passed.
    fn count_passed(&mut self, received: &Received) {
        let segments = received.segments.as_deref().unwrap_or_default();
        let written = strands::segment_lengths(received.lengths);
        let no_start = |segment: &Segment| segment.verdict == Verdict::NoStart;
        let mut strand_passed = false;
        // Each is a lost segment with those behind it that have no start.
        for (lost, segment) in segments.iter().enumerate() {
            let behind = &segments[lost + 1..];
            let passed = behind.iter().take_while(|x| no_start(x)).count();
            if no_start(segment) || passed == 0 {
                continue;
            }
            let Some(found) = behind.get(passed) else {
                self.met_if(passed > 1, "none found of several");
                continue;
            };
            let centre = segment.start + written[lost..=lost + passed].iter().sum::<usize>();
            self.met_if(passed > 1, "several passed at once");
            self.met_if(found.start.abs_diff(centre) > 8, "found beyond 8 letters");
            self.met_if(strand_passed, "passed again further on");
            let clean = Verdict::Read(Edit::None);
            let next = behind.get(passed + 1).map(|next| next.verdict);
            self.met_if(next == Some(clean), "clean behind the one found");
            strand_passed = true;
        }
        self.met_if(strand_passed, "strand with a segment passed");
    }

    fn met_if(&mut self, holds: bool, name: &str) {
        if holds {
            self.met.add(name);
        }
    }

    /// Counts what unknown letters do to a strand: the same with A in their place tells it.
    fn count_unknown(&mut self, lengths: &[u16], strand: &[u8], letters: &[u8], lost: u32) {
        if !letters.contains(&b'N') {
            self.met.add("strand without N");
            return;
        }
        self.met.add("strand with N");
        let decided = decided(letters);
        let b = strands::sum(lengths) / 4;
        let segments = oracle::segments(lengths, b, &decided).unwrap_or_default();
        let lost_decided = segments.iter().filter(|x| oracle::mark(x.verdict) == 2);
        if lost as usize > lost_decided.count() {
            self.met.add("lost by N");
        }
        let kept = |letters: &[u8]| conditions::kept(lengths, strand, letters);
        if kept(&decided) && !kept(letters) {
            self.met.add("touched by N alone");
        }
    }

    /// A label is read and converted.
    fn check_label(&mut self, label: &[u8]) {
        self.check_read_label(label);
        self.convert_about(label);
    }

    /// A label whole, cut, with bytes behind it and with a bit changed.
    fn labels_like(&mut self, label: &[u8]) {
        self.check_label(label);
        let length = self.rng.below(label.len() + 1);
        let length = self.rng.of(&[label.len() - 1, length, length.min(4)]);
        self.check_label(&label[..length]);
        let more = 1 + self.rng.below(4);
        let mut longer = label.to_vec();
        longer.extend(self.rng.bytes(more));
        self.check_label(&longer);
        let (bits, random) = (8 * label.len(), self.rng.below(8 * label.len()));
        let near_end = bits - 1 - self.rng.below(8);
        let place = self.rng.of(&[random, random, random % 21, near_end]);
        longer[place / 8] ^= 0x80 >> (place % 8);
        self.check_label(&longer);
        longer.truncate(label.len());
        self.check_label(&longer);
    }

    /// Labels of lengths and B by each edition, of equal lengths, of counts that are none, and random ones.
    fn labels(&mut self, lengths: &[u16], b: u32) {
        let needed = strands::label_length(lengths, b);
        let room = self.rng.below(needed + 3);
        for room in [room, needed - 1, needed] {
            self.check_write_label(lengths, b, room);
        }
        let k = lengths.first().copied().unwrap_or(0);
        self.labels_like(&strands::label_1(k, b));
        for edition in [2, 3] {
            self.labels_like(&strands::label_listed(edition, lengths, b));
        }
        let edition = self.rng.of(&[2, 3]);
        self.equal_labels(edition, k, lengths.len(), b);
        self.uncounted_labels(edition, b);
        self.random_labels();
    }

    /// Labels of an edition that lists equal lengths.
    fn equal_labels(&mut self, edition: u32, k: u16, count: usize, b: u32) {
        let count = self.rng.of(&[1, 1, 2, 3, count.max(1), 63, 64, 65]);
        let bad = strands::bad_length(&mut self.rng);
        let length = self.rng.of(&[k, k, 2, 8, 64, 65, 256, bad]);
        let sum = (count as u32 * length as u32 / 4) & 1023;
        let b = self.rng.of(&[b, sum]);
        self.labels_like(&strands::label_listed(edition, &vec![length; count], b));
    }

    /// Labels of no lengths, or of more than 64.
    fn uncounted_labels(&mut self, edition: u32, b: u32) {
        let count = self.rng.of(&[0, 0, 65, 66, 127]);
        let mut many = self.rng.lengths(count, 2, 7);
        if self.rng.once_in(4) {
            strands::bad_lengths(&mut self.rng, &mut many);
        }
        let b = self.rng.of(&[b, strands::sum(&many) / 4, 0, 129, 513]);
        self.labels_like(&strands::label_listed(edition, &many, b));
    }

    fn random_labels(&mut self) {
        let count = 1 + self.rng.below(80);
        let mut random = self.rng.bytes(count);
        self.check_label(&random);
        random[0] = random[0] & 0x0F | self.rng.of(&[0x10, 0x20, 0x30]);
        self.check_label(&random);
        let field = self.rng.next() as u32 & 0x0FFF_E000 | 1 << 28;
        self.check_label(&field.to_be_bytes());
    }

    fn tallies(&mut self, counts: [u32; 3]) {
        for small in [true, false] {
            let mut number = || match small {
                true => self.rng.below(1000) as u32,
                false => strands::count(&mut self.rng),
            };
            let tally = Tally {
                strands: number(),
                clean: number(),
                corrected: number(),
                lost: number(),
            };
            self.check_tally(tally, counts);
        }
        let random = [0; 3].map(|_| strands::count(&mut self.rng));
        let near = [0; 4].map(|_| self.rng.of(&[0, 0, 0, u32::MAX - 1, u32::MAX]));
        let [strands, clean, corrected, lost] = near;
        let tally = Tally {
            strands,
            clean,
            corrected,
            lost,
        };
        self.check_tally(tally, random);
        let one = self.rng.of(&[[0, 0, 0], [1, 0, 0], [0, 1, 0], [0, 0, 1]]);
        self.check_tally(tally, one);
    }

    /// All pieces, some verdicts and the lines, held against the bytes and the counts that the library has read.
    fn segments(&mut self, received: &Received, read: &[u8], got: Counts) {
        let last = received.lengths.len() as u32;
        let random = self.rng.next() as u32;
        self.check_segments(received, &[0, last + 1, u32::MAX, random]);
        let mut pieces = Vec::new();
        let mut numbers: Vec<u32> = (1..=last).collect();
        for &segment in &numbers {
            pieces.push(self.check_piece(received, segment));
        }
        self.rng.shuffle(&mut numbers);
        numbers.truncate(MOST_VERDICTS);
        let mut kinds = [0; 7];
        for &segment in &numbers {
            kinds[self.check_verdict(received, segment) as usize] += 1;
        }
        let lines = self.check_lines(received);
        if got.refusal != 0 {
            return;
        }
        if numbers.len() == pieces.len() {
            let [clean, corrected @ .., lost, no_start] = kinds;
            let counts = [clean, corrected.iter().sum(), lost + no_start];
            let call = || received.call("kinds of verdicts", pieces.len());
            self.same(&call, counts, [got.clean, got.corrected, got.lost]);
        }
        self.check_truth(received, read, got, &pieces, &lines);
    }

    /// What the lines tell is true of the pieces and the message, and sums to the counts.
    fn check_truth(
        &mut self,
        received: &Received,
        read: &[u8],
        got: Counts,
        pieces: &[(usize, usize)],
        lines: &[u8],
    ) {
        let verdicts = verdicts::verdicts_of(lines).unwrap_or_default();
        let reading = Reading {
            lengths: received.lengths,
            letters: received.letters,
            message: read,
            pieces,
            verdicts: &verdicts,
        };
        let call = || received.call("truth of lines", lines.len());
        if let Some((segment, what)) = reading.fault() {
            let wanted = format!("segment {segment} has {what}");
            self.disagree(&call(), wanted, lines.escape_ascii().to_string());
        }
        let mut counts = [0; 3];
        for verdict in verdicts {
            self.met.add(&format!("line {}", name_of(verdict)));
            counts[oracle::mark(verdict) as usize] += 1;
        }
        self.same(&call, counts, [got.clean, got.corrected, got.lost]);
    }

    /// Lengths of a buffer from 0 up to past the needed one; of very many some, and those next to both ends.
    fn rooms(&mut self, needed: usize) -> Vec<usize> {
        if needed <= MANY_ROOMS {
            return (0..=needed + 2).collect();
        }
        let mut rooms: Vec<usize> = (0..10).chain(needed - 10..=needed + 2).collect();
        rooms.extend((0..MANY_ROOMS / 4).map(|_| self.rng.below(needed)));
        rooms
    }

    /// Each buffer shorter than needed, just as long and longer.
    fn short_buffers(&mut self, lengths: &[u16], b: u32, message: &[u8], letters: &[u8]) {
        let needed = strands::strand_length(lengths);
        for room in self.rooms(needed) {
            self.check_write(lengths, b, message, room);
        }
        let (bytes, sheet) = (b as usize, lengths.len().div_ceil(4));
        for room in self.rooms(bytes) {
            self.check_read(lengths, b, letters, &[], (room, sheet));
        }
        for room in 0..=sheet + 2 {
            self.check_read(lengths, b, letters, &[], (bytes, room));
            self.check_read(lengths, b, letters, &[], (bytes + 1, room));
        }
        for room in 0..=MOST_LABEL + 2 {
            self.check_write_label(lengths, b, room);
            self.check_convert_label(&strands::label(lengths, b), room);
            self.check_convert_label(&strands::label_listed(3, lengths, b), room);
        }
        let received = self.lend_strand(lengths, b, letters, &[]);
        let lines = received.needed();
        let random = self.rng.below(lines + 1);
        for room in (0..12).chain([random]).chain(lines.max(14) - 2..lines + 3) {
            self.check_report(&received, room);
        }
        for length in self.rooms(bytes) {
            let message = self.rng.bytes(length);
            self.check_write(lengths, b, &message, needed);
        }
    }

    /// Some faults at once: the first in the table's order is told.
    fn many_faults(&mut self, pairs: &[(u32, u32)]) {
        let (mut lengths, mut b) = strands::layout(&mut self.rng, pairs);
        let seldom = self.rng.of(&[2, 8, 30]);
        if self.rng.once_in(seldom) {
            (lengths, b) = strands::bad_cut(&mut self.rng);
        }
        if self.rng.once_in(seldom) {
            b = strands::bad_b(&mut self.rng);
        }
        if self.rng.once_in(seldom) {
            strands::bad_lengths(&mut self.rng, &mut lengths);
        }
        let often = self.rng.of(&[2, 3]);
        let taken = oracle::layout(&lengths, b, None).is_ok();
        let bytes = b.min(600) as usize;
        let sheet = if taken { lengths.len().div_ceil(4) } else { 16 };
        let mut letters = if self.rng.once_in(often) {
            strands::overlong(&mut self.rng)
        } else {
            let count = self.rng.of(&[0, 1, 20, 200, 2049, 4096]);
            self.rng.letters(count)
        };
        if !letters.is_empty() && self.rng.once_in(often) {
            strands::foreign(&mut self.rng, &mut letters);
        }
        let mut room = |needed: usize| match self.rng.once_in(often) {
            true => self.rng.below(needed + 1),
            false => needed + self.rng.below(3),
        };
        let (message_room, sheet_room) = (room(bytes), room(sheet));
        let label_room = room(strands::label_length(&lengths, b));
        let lines_room = room(200);
        let message_length = room(bytes).min(bytes + 1);
        let out_room = room(if taken {
            strands::strand_length(&lengths)
        } else {
            ROOM
        });
        self.check_read(&lengths, b, &letters, &[], (message_room, sheet_room));
        let l = if taken { lengths.len() as u32 } else { 64 };
        let inside = 1 + self.rng.below(l as usize) as u32;
        let received = self.lend_strand(&lengths, b, &letters, &[]);
        self.check_segments(&received, &[0, inside, l + 1, u32::MAX]);
        self.check_report(&received, lines_room);
        self.check_lines(&received);
        let message = self.rng.bytes(message_length);
        self.check_write(&lengths, b, &message, out_room);
        self.check_write_label(&lengths, b, label_room);
        self.labels(&lengths, b);
        let starts = self.quotes(&lengths, b);
        self.check_starts(&received, false, starts);
    }

    fn one_case(&mut self, pairs: &[(u32, u32)]) {
        self.met.add(&format!("{:?}", self.kind));
        if self.kind == Kind::ManyFaults {
            for _ in 0..4 {
                self.many_faults(pairs);
            }
            return;
        }
        let (mut lengths, mut b) = match self.kind {
            Kind::LongSegments => strands::long_layout(&mut self.rng, pairs),
            _ => strands::layout(&mut self.rng, pairs),
        };
        let equal = lengths.iter().all(|&k| k == lengths[0]);
        self.met.add(if equal {
            "equal lengths"
        } else {
            "mixed lengths"
        });
        let long = lengths.iter().any(|&k| k > strands::OLD_LENGTH);
        self.met_if(long, "length above 64");
        self.met_if(b > strands::OLD_BYTES, "B above 128");
        let message = strands::message(&mut self.rng, b);
        let needed = strands::strand_length(&lengths);
        let more = self.rng.of(&[0, 0, 1, 40]);
        self.check_write(&lengths, b, &message, needed + more);
        let mut strand = vec![0; needed];
        oracle::write(&lengths, b, &message, &mut strand).expect("a taken message");
        let letters = self.received(&lengths, &strand);
        if self.kind == Kind::OutsideLimits {
            match self.rng.below(3) {
                0 => strands::bad_lengths(&mut self.rng, &mut lengths),
                1 => b = strands::bad_b(&mut self.rng),
                _ => (lengths, b) = strands::bad_cut(&mut self.rng),
            }
        }
        let rest = strand.get(letters.len()..).unwrap_or(&[]);
        let taken = oracle::layout(&lengths, b, None).is_ok();
        let (bytes, sheet) = if taken {
            (b as usize, lengths.len().div_ceil(4))
        } else {
            (600, 20)
        };
        let more = (self.rng.of(&[0, 0, 1, 30]), self.rng.of(&[0, 0, 1, 30]));
        let rooms = (bytes + more.0, sheet + more.1);
        let (got, read, marks) = self.check_read(&lengths, b, &letters, rest, rooms);
        let received = self.lend_strand(&lengths, b, &letters, rest);
        self.count_verdicts(&received);
        if got.refusal == 0 {
            self.count_unknown(&lengths, &strand, &letters, got.lost);
        }
        let kept = taken && self.keeps_conditions(&lengths, &strand, &letters);
        if kept {
            self.demand(&lengths, &message, &letters, got, &read, &marks);
        }
        if taken {
            self.segments(&received, &read, got);
        } else {
            let written = self.rng.of(&[message.len(), b.min(600) as usize]);
            let message = self.rng.bytes(written);
            self.check_write(&lengths, b, &message, ROOM);
            self.check_segments(&received, &[0, 1, 64, u32::MAX]);
            self.check_lines(&received);
        }
        if self.kind == Kind::ShortBuffers {
            self.short_buffers(&lengths, b, &message, &letters);
        }
        self.labels(&lengths, b);
        self.tallies([got.clean, got.corrected, got.lost]);
        let starts = self.quotes(&lengths, b);
        self.check_starts(&received, kept, starts);
    }

    /// The letters that come of a written strand.
    fn received(&mut self, lengths: &[u16], strand: &[u8]) -> Vec<u8> {
        let rng = &mut self.rng;
        match self.kind {
            Kind::OneEdit | Kind::LongSegments | Kind::ShortBuffers => {
                strands::one_edit(rng, lengths, strand)
            }
            Kind::Damaged(damage) => strands::damaged(rng, damage, lengths, strand),
            Kind::Overlong => strands::overlong(rng),
            Kind::Foreign => {
                let damage = rng.of(&strands::DAMAGES);
                let mut letters = strands::damaged(rng, damage, lengths, strand);
                if letters.is_empty() {
                    letters = strand.to_vec();
                }
                strands::foreign(rng, &mut letters);
                letters
            }
            Kind::Untouched | Kind::OutsideLimits | Kind::ManyFaults => strand.to_vec(),
        }
    }

    /// Whether the one-edit conditions are kept; strands drawn by them keep them.
    fn keeps_conditions(&mut self, lengths: &[u16], strand: &[u8], letters: &[u8]) -> bool {
        let kept = conditions::kept(lengths, strand, letters);
        let drawn = matches!(
            self.kind,
            Kind::Untouched | Kind::OneEdit | Kind::LongSegments | Kind::ShortBuffers
        );
        let (seed, case) = (self.seed, self.case);
        assert!(
            kept || !drawn,
            "seed {seed} case {case} breaks the conditions"
        );
        self.met_if(kept, "one-edit strand");
        let long = kept && lengths.iter().any(|&k| k > strands::OLD_LENGTH);
        self.met_if(long, "one-edit strand with a length above 64");
        kept
    }

    /// What demand 3 claims of a strand that keeps the one-edit conditions.
    fn demand(
        &self,
        lengths: &[u16],
        message: &[u8],
        letters: &[u8],
        got: Counts,
        read: &[u8],
        sheet: &[u8],
    ) {
        let fits = read[..message.len()] == *message
            && none_lost(lengths, got, sheet)
            && (self.kind != Kind::Untouched || got.clean as usize == lengths.len());
        if !fits {
            let (lengths, letters) = (u16::shown(lengths), letters.escape_ascii());
            self.disagree(
                &format!("demand 3 lengths {lengths} letters {letters}"),
                hex(message),
                format!("{} {got:?} sheet {}", hex(read), hex(sheet)),
            );
        }
    }
}

/// Whether each segment is clean or corrected, by the counts and by the sheet.
fn none_lost(lengths: &[u16], got: Counts, sheet: &[u8]) -> bool {
    let mut counts = [0; 4];
    for i in 0..lengths.len() {
        counts[(sheet[i / 4] >> (6 - 2 * (i % 4)) & 3) as usize] += 1;
    }
    got.refusal == 0
        && (got.clean + got.corrected) as usize == lengths.len()
        && counts == [got.clean, got.corrected, 0, 0]
        && got.lost == 0
}

/// What a writing answers, by the oracle.
fn written_of(answer: Result<usize, Refused>) -> Written {
    match answer {
        Ok(length) => Written {
            refusal: 0,
            place: 0,
            length,
        },
        Err(refused) => Written {
            refusal: refused.number,
            place: refused.place,
            length: 0,
        },
    }
}

/// What a reading of a label answers: the lengths and B, or the number of the refusal.
fn order_of(answer: Result<(&[u16], u32), u32>) -> Order {
    let mut order = Order {
        refusal: 0,
        b: 0,
        count: 0,
        lengths: [0; 64],
    };
    match answer {
        Ok((lengths, b)) => {
            (order.b, order.count) = (b, lengths.len());
            order.lengths[..lengths.len()].copy_from_slice(lengths);
        }
        Err(number) => order.refusal = number,
    }
    order
}

fn compare(seed: u64, count: u64, small: bool) {
    println!("outside: seed {seed}, {count} strands");
    let pairs = strands::pairs();
    let turns = turns();
    let mut run = Run {
        seed,
        case: 0,
        kind: turns[0],
        exact: false,
        rng: Rng::new(seed, 0),
        met: Met::new(),
    };
    for case in 0..count {
        run.case = case;
        SEED.store(seed, Ordering::Relaxed);
        CASE.store(case, Ordering::Relaxed);
        run.kind = turns[(case % turns.len() as u64) as usize];
        // Allocations of their own let a memory checker see both ends.
        run.exact = small && (case / turns.len() as u64).is_multiple_of(2);
        run.rng = Rng::new(seed, case);
        run.one_case(&pairs);
    }
    println!("agreed: seed {seed}, {count} strands: {}", run.met.line());
    let missing = run.met.missing();
    if !missing.is_empty() {
        println!("never met: {}", missing.join(", "));
        exit(1);
    }
}

/// Reads by the library with buffers of the needed lengths.
fn library_read(lengths: &[u16], b: u32, letters: &[u8]) -> (Counts, Vec<u8>, Vec<u8>) {
    let mut message = vec![0xA5; b.min(600) as usize];
    let mut sheet = vec![0xA5; lengths.len().div_ceil(4)];
    let got = ffi::read(lengths, b, letters, &mut message, &mut sheet);
    (got, message, sheet)
}

/// The lines by the library in a buffer that is long enough.
fn library_report(lengths: &[u16], b: u32, letters: &[u8]) -> (Written, Vec<u8>) {
    let mut out = vec![0; MOST_REPORT];
    let got = ffi::report(lengths, b, letters, &mut out);
    out.truncate(got.length);
    (got, out)
}

fn library_write(lengths: &[u16], b: u32, message: &[u8]) -> (Written, Vec<u8>) {
    let mut out = vec![0; ROOM];
    let got = ffi::write(lengths, b, message, &mut out);
    out.truncate(got.length);
    (got, out)
}

/// Demand 3 for one message and every allowed edit.
struct Demand {
    lengths: Vec<u16>,
    message: Vec<u8>,
    segments: Vec<Vec<u8>>,
    /// The starts that are quoted.
    starts: usize,
    /// Strands read that keep the conditions.
    strands: u64,
    /// Those whose lines were compared.
    told: u64,
    /// Strands that an unknown letter alone puts outside the conditions.
    outside: u64,
    /// Those of them with a lost segment.
    lost: u64,
}

impl Demand {
    /// Both readers agree and, where it is claimed, the message comes out whole; hands back the lost segments.
    fn check(&self, letters: &[u8], claimed: bool) -> u32 {
        let (lengths, b) = (&self.lengths, self.message.len() as u32);
        let (got, message, sheet) = library_read(lengths, b, letters);
        let (mut steps_message, mut steps_sheet) = (vec![0; b as usize], vec![0; sheet.len()]);
        let steps = oracle::read(lengths, b, letters, &mut steps_message, &mut steps_sheet);
        let agreed = steps == Ok([got.clean, got.corrected, got.lost])
            && message == steps_message
            && sheet == steps_sheet;
        let whole = message == self.message && none_lost(lengths, got, &sheet);
        if !agreed || claimed && !whole {
            println!(
                "disagreement: demand 3 lengths {} letters {} message {} oracle {} {} {steps:?} \
                 library {} {} {got:?}",
                u16::shown(lengths),
                letters.escape_ascii(),
                hex(&self.message),
                hex(&steps_message),
                hex(&steps_sheet),
                hex(&message),
                hex(&sheet)
            );
            exit(1);
        }
        got.lost
    }

    /// Both readers tell the same lines, and verdicts by number; no more starts are tried than are quoted, and none where it is claimed.
    fn check_lines(&self, letters: &[u8], claimed: bool) {
        let (lengths, b) = (&self.lengths, self.message.len() as u32);
        let (_, lines) = library_report(lengths, b, letters);
        let segments = oracle::segments(lengths, b, letters).unwrap_or_default();
        let wanted = oracle::lines(&segments);
        let said = |number: u32| ffi::verdict(lengths, b, letters, number);
        let said_same = (1..)
            .zip(&segments)
            .all(|(number, segment)| said(number) == verdicts::said_of(segment.verdict));
        let tried = oracle::starts_tried(&segments);
        let most = if claimed { 0 } else { self.starts };
        if lines != wanted.as_bytes() || !said_same || tried > most {
            println!(
                "disagreement: demand 3 lengths {} letters {} oracle {wanted:?} library {}, \
                 {tried} starts tried of {most}",
                u16::shown(lengths),
                letters.escape_ascii(),
                lines.escape_ascii()
            );
            exit(1);
        }
    }

    /// Every stretch of the next segment after those already received.
    fn segment(&mut self, number: usize, received: &[u8], spared: bool) {
        if number == self.segments.len() {
            self.check(received, true);
            self.strands += 1;
            // Another message has other edits told.
            let turn = self.strands + u64::from(self.message[0]);
            if turn.is_multiple_of(TOLD_ONCE_IN) {
                self.check_lines(received, true);
                self.told += 1;
            }
            return;
        }
        let segment = self.segments[number].clone();
        let t = strands::syndrome_length(self.lengths[number]);
        self.segment(number + 1, &[received, &segment].concat(), false);
        if spared {
            return;
        }
        for change in strands::changes(&segment) {
            let stretch = change.done(&segment);
            let hit = change.hits_tail(segment.len(), t);
            self.segment(number + 1, &[received, &stretch].concat(), hit);
        }
    }

    /// Each edit in separator or syndrome of a segment, with each A of the next one unknown in turn, which touches it.
    fn touched_next(&mut self) {
        for next in 1..self.segments.len() {
            let hit = next - 1;
            for change in strands::tail_changes(&self.segments[hit], self.lengths[hit]) {
                let mut segments = self.segments.clone();
                segments[hit] = change.done(&segments[hit]);
                for place in 0..segments[next].len() {
                    if segments[next][place] == b'A' {
                        segments[next][place] = b'N';
                        self.touched(&segments.concat());
                        segments[next][place] = b'A';
                    }
                }
            }
        }
    }

    /// Both readers agree on a strand that an unknown letter puts outside the conditions, if no other cut keeps them.
    fn touched(&mut self, letters: &[u8]) {
        let kept = conditions::kept(&self.lengths, &self.segments.concat(), letters);
        let lost = self.check(letters, kept);
        self.check_lines(letters, kept);
        self.outside += u64::from(!kept);
        self.lost += u64::from(lost > 0);
    }
}

/// Every allowed edit of the strand of one message, and what an unknown letter touches.
fn demand_of(lengths: &[u16], message: &[u8]) -> Demand {
    let b = message.len() as u32;
    let (written, strand) = library_write(lengths, b, message);
    let mut wanted = vec![0; ROOM];
    let answer = oracle::write(lengths, b, message, &mut wanted);
    wanted.truncate(answer.unwrap_or(0));
    if written.refusal != 0 || strand.is_empty() || strand != wanted {
        println!(
            "disagreement: write lengths {} message {} oracle {} library {written:?} {}",
            u16::shown(lengths),
            hex(message),
            wanted.escape_ascii(),
            strand.escape_ascii()
        );
        exit(1);
    }
    let mut demand = Demand {
        lengths: lengths.to_vec(),
        message: message.to_vec(),
        segments: strands::cut(lengths, &strand),
        starts: ffi::quote(lengths, b, 1).starts as usize,
        strands: 0,
        told: 0,
        outside: 0,
        lost: 0,
    };
    demand.segment(0, &[], false);
    demand.touched_next();
    demand
}

/// Every message of one byte, some of two, and one each for segments longer than the old editions can carry.
fn demand3() {
    let bytes: Vec<Vec<u8>> = (0..=255).map(|byte| vec![byte]).collect();
    let pairs: Vec<Vec<u8>> = (0..=255u8)
        .step_by(29)
        .map(|byte| vec![byte, byte.wrapping_mul(29).wrapping_add(7)])
        .collect();
    let long = |b: u32| -> Vec<u8> { (0..b).map(|i| (29 * i + 7) as u8).collect() };
    let layouts: [(&[u16], &[Vec<u8>]); 10] = [
        (&[2, 2], &bytes),
        (&[4], &bytes),
        (&[2, 6], &pairs),
        (&[6, 2], &pairs),
        (&[3, 5], &pairs),
        (&[5, 3], &pairs),
        (&[2, 4, 2], &pairs[3..4]),
        (&[3, 2, 3], &pairs[5..6]),
        (&[65, 3], &[long(17)]),
        (&[256], &[long(64)]),
    ];
    for (lengths, messages) in layouts {
        let (mut strands, mut told, mut outside, mut lost) = (0, 0, 0, 0);
        for demand in messages.iter().map(|message| demand_of(lengths, message)) {
            strands += demand.strands;
            told += demand.told;
            outside += demand.outside;
            lost += demand.lost;
        }
        let (lengths, count) = (u16::shown(lengths), messages.len());
        println!(
            "demand 3: lengths {lengths}, {count} messages, {strands} strands hold, \
             {told} of them with their lines; \
             {outside} outside by an unknown letter agree, {lost} of them with a segment lost"
        );
    }
}

fn sample<T: PartialEq + std::fmt::Debug>(name: &str, got: T, wanted: T) {
    if got != wanted {
        println!("disagreement: sample {name}: document {wanted:?} library {got:?}");
        exit(1);
    }
}

fn letters_of(symbols: &str) -> Vec<u8> {
    symbols
        .bytes()
        .map(|x| oracle::letter_of(x - b'0'))
        .collect()
}

/// The sample strands of docs/SPECIFICATION.md.
fn samples() {
    let sample_write = |lengths: &[u16], b, message: &[u8]| {
        let (got, strand) = library_write(lengths, b, message);
        (got.refusal, got.length, strand)
    };
    // The message 013 210 000 000.
    let (_, _, strand) = sample_write(&[3; 4], 3, &[0x1E, 0x40, 0x00]);
    sample("013", strand[..10].to_vec(), letters_of("0130333123"));
    sample("210", strand[10..22].to_vec(), letters_of("002103222012"));
    for ((a, b, c), s) in [((0, 1, 2), 3), ((3, 2, 1), 0), ((3, 0, 1), 2)] {
        sample("Sep", oracle::sep(a, b, c), s);
    }
    let strand4 = b"ATCGCAAAGGC".to_vec();
    sample("1B k=4", sample_write(&[4], 1, &[0x1B]), (0, 11, strand4));
    let strand2 = b"ATTGGGTATTCGTAAAGC".to_vec();
    let wanted = (0, 18, strand2.clone());
    sample("1B k=2", sample_write(&[2, 2], 1, &[0x1B]), wanted);
    let sample_read = |letters: &[u8]| {
        let (got, message, sheet) = library_read(&[2, 2], 1, letters);
        let counts = [got.refusal, got.clean, got.corrected, got.lost];
        (counts, message, sheet)
    };
    let mut received = strand2.clone();
    received.remove(2);
    sample("third out", received.clone(), b"ATGGGTATTCGTAAAGC".to_vec());
    let wanted = ([0, 1, 1, 0], vec![0x1B], vec![0x40]);
    sample("third letter out", sample_read(&received), wanted.clone());
    let mut received = strand2.clone();
    received[7] = b'C';
    sample("eighth C", sample_read(&received), wanted);
    received[8] = b'A';
    let lost = ([0, 0, 0, 2], vec![0x00], vec![0xA0]);
    sample("eighth C, ninth A", sample_read(&received), lost.clone());
    sample("empty strand", sample_read(b""), lost);
    let untouched = ([0, 2, 0, 0], vec![0x1B], vec![0x00]);
    sample("untouched", sample_read(&strand2), untouched);
    let letters = [(16, 214), (32, 174), (64, 152)];
    for (k, letters) in letters {
        let lengths = strands::equal_lengths(k, 32);
        sample("letters", sample_write(&lengths, 32, &[7; 32]).1, letters);
    }
    let longest = [&[33; 60][..], &[17; 4]].concat();
    sample(
        "most letters",
        sample_write(&longest, 512, &[7; 512]).1,
        2874,
    );
    let limits: [(&[u16], u32, u32); 19] = [
        (&[1; 4], 1, 1),
        (&[2; 64], 32, 0),
        (&[2; 66], 33, 3),
        (&[2; 65], 32, 3),
        (&[3], 1, 3),
        (&[3, 3], 1, 3),
        (&[65; 4], 65, 0),
        (&[64; 8], 128, 0),
        (&[64; 8], 129, 3),
        (&[43; 12], 129, 0),
        (&[257; 4], 257, 1),
        (&[2, 257], 513, 1),
        (&[256; 8], 512, 0),
        (&[256; 8], 513, 2),
        (&[], 1, 3),
        (&[], 0, 2),
        (&[2, 3, 2], 2, 3),
        (&[2, 1, 5], 2, 1),
        (&[2, 6], 2, 0),
    ];
    for (lengths, b, number) in limits {
        let name = format!("lengths {} B {b}", u16::shown(lengths));
        let message = vec![9; b as usize];
        sample(&name, sample_write(lengths, b, &message).0, number);
        sample(&name, library_read(lengths, b, b"ATCG").0.refusal, number);
        let label = ffi::write_label(lengths, b, &mut [0; MOST_LABEL]);
        sample(&name, label.refusal, number);
        sample(&name, ffi::quote(lengths, b, 1).refusal, number);
    }
    let refusal = |letters: &[u8]| library_read(&[16; 8], 32, letters).0.refusal;
    sample("4,096", refusal(&[b'A'; 4096]), 0);
    sample("4,097", refusal(&[b'A'; 4097]), 4);
    labels::written();
    labels::read();
    labels::converted();
    sample_letters();
    sample_unknown();
    lines::told();
    lines::passed();
    lines::refused();
    quotes::quoted();
    quotes::refused();
    quotes::tried();
    println!("samples hold");
}

/// What each byte is: the symbol, 4 for an unknown letter, 5 for a foreign one.
fn sample_letters() {
    let numbers = [
        (b'A', 0),
        (b'T', 1),
        (b'C', 2),
        (b'G', 3),
        (b'N', 4),
        (b'n', 5),
        (b'U', 5),
        (0, 5),
        (255, 5),
    ];
    for (byte, number) in numbers {
        sample(&format!("letter {byte}"), ffi::letter(byte), number);
    }
    for byte in 0..=255 {
        let number = match oracle::letter(byte) {
            Letter::Symbol(symbol) => symbol,
            Letter::Unknown => 4,
            Letter::Foreign => 5,
        };
        sample(&format!("letter {byte}"), ffi::letter(byte), number);
    }
}

/// The strand ATTGGGTATTCGTAAAGC of 1B with unknown letters, worked out by hand: clean, corrected, lost, byte and sheet.
fn sample_unknown() {
    let read: [(&str, [u32; 3], u8, u8); 12] = [
        // In the place of A: message, syndrome, separator, and all of them.
        ("NTTGGGTATTCGTAAAGC", [1, 1, 0], 0x1B, 0x40),
        ("ATTGGGTNTTCGTAAAGC", [1, 1, 0], 0x1B, 0x40),
        ("ATTGGGTATTCGTNAAGC", [1, 1, 0], 0x1B, 0x10),
        ("NTTGGGTNTTCGTNNNGC", [0, 2, 0], 0x1B, 0x50),
        // In the place of another letter, and one more.
        ("ATTGGGTATTCNTAAAGC", [1, 1, 0], 0x1B, 0x10),
        ("ATTGGGTANTCGTAAAGC", [1, 1, 0], 0x1B, 0x10),
        ("ATTNGGGTATTCGTAAAGC", [1, 1, 0], 0x1B, 0x40),
        // In the syndrome: the next segment settles the end if it has no unknown letter.
        ("ATTGGGNATTCGTAAAGC", [1, 1, 0], 0x1B, 0x40),
        ("ATTGGGNATTCGTNAAGC", [0, 0, 2], 0x00, 0xA0),
        ("ATTGGGTCTTCGTNAAGC", [0, 0, 2], 0x00, 0xA0),
        // Before a segment found by a scan, and in it.
        ("GCGCGCGNTTCGTAAAGC", [1, 0, 1], 0x0B, 0x80),
        ("GCGCGCGATTCGTAANGC", [0, 0, 2], 0x00, 0xA0),
    ];
    for (letters, counts, byte, sheet) in read {
        let (got, message, marks) = library_read(&[2, 2], 1, letters.as_bytes());
        let got = (got.refusal, [got.clean, got.corrected, got.lost]);
        sample(letters, got, (0, counts));
        sample(letters, (message, marks), (vec![byte], vec![sheet]));
    }
    let refused = [
        ("NTTXGGTATTCGTAAAGC", 3),
        ("Nn", 1),
        ("nN", 0),
        ("NA\0N", 2),
    ];
    for (letters, place) in refused {
        let got = library_read(&[2, 2], 1, letters.as_bytes()).0;
        sample(letters, (got.refusal, got.place), (6, place));
    }
}

fn usage() -> ! {
    eprintln!(
        "usage: outside SEED COUNT | small SEED COUNT | programs SEED COUNT | demand3 | samples"
    );
    exit(2);
}

fn number(text: &str) -> u64 {
    text.parse().unwrap_or_else(|_| usage())
}

fn main() {
    let arguments: Vec<String> = std::env::args().skip(1).collect();
    let arguments: Vec<&str> = arguments.iter().map(String::as_str).collect();
    watch();
    match arguments[..] {
        ["demand3"] => demand3(),
        ["samples"] => samples(),
        ["small", seed, count] => compare(number(seed), number(count), true),
        ["programs", seed, count] => programs::agree(number(seed), number(count)),
        [seed, count] => compare(number(seed), number(count), false),
        _ => usage(),
    }
}
