//! Letters written and read a second: the library against the tuned rival, or against the library of another commit.
//! The strand whose reading costs most, beside an untouched one.
//! Letters reported a second: the library's report beside its reading. Letters quoted a second: its quote of a strand beside its writing.

#[allow(dead_code)]
#[path = "../tests/outside/ffi.rs"]
mod ffi;
#[allow(dead_code)]
#[path = "../tests/outside/strands.rs"]
mod strands;
#[allow(dead_code)]
#[cfg_attr(against = "lengths", path = "against.rs")]
#[cfg_attr(against = "k", path = "against_k.rs")]
mod tuned;

use std::hint::black_box;
use std::process::exit;
use std::time::Instant;
use strands::{Damage, Rng};

/// The other side's name in the table.
const RIVAL: &str = if cfg!(any(against = "lengths", against = "k")) {
    "other"
} else {
    "tuned"
};
const SEED: u64 = 20;
const STRANDS: usize = 64;
const ROUNDS: usize = 400;
/// Letters a side handles in one round.
const ROUND_LETTERS: usize = 100_000;
/// Readings of the worst strand in one round.
const WORST_STRANDS: usize = 8;

#[derive(Clone, Copy, PartialEq, Eq)]
enum Side {
    Library,
    Tuned,
}

/// The lent buffers of one side.
struct Room {
    strand: [u8; 3072],
    message: [u8; 512],
    sheet: [u8; 16],
    lines: [u8; 960],
}

impl Room {
    fn new() -> Room {
        Room {
            strand: [0; 3072],
            message: [0; 512],
            sheet: [0; 16],
            lines: [0; 960],
        }
    }
}

#[inline(never)]
fn write_one(side: Side, lengths: &[u16], b: u32, message: &[u8], room: &mut Room) -> usize {
    let out = &mut room.strand;
    match side {
        Side::Library => ffi::write(lengths, b, message, out).length,
        Side::Tuned => tuned::write(lengths, b, message, out).unwrap_or(0),
    }
}

#[inline(never)]
fn read_one(side: Side, lengths: &[u16], b: u32, letters: &[u8], room: &mut Room) -> [u32; 3] {
    let (message, sheet) = (&mut room.message, &mut room.sheet);
    match side {
        Side::Library => {
            let got = ffi::read(lengths, b, letters, message, sheet);
            [got.clean, got.corrected, got.lost]
        }
        Side::Tuned => tuned::read(lengths, b, letters, message, sheet).unwrap_or([0; 3]),
    }
}

#[inline(never)]
fn report_one(lengths: &[u16], b: u32, letters: &[u8], room: &mut Room) -> usize {
    ffi::report(lengths, b, letters, &mut room.lines).length
}

#[derive(Clone, Copy, PartialEq, Eq)]
enum Job {
    Write,
    Untouched,
    OneEdit,
    Damaged,
    WithN,
    Worst,
}

struct Set {
    lengths: Vec<u16>,
    b: u32,
    messages: Vec<Vec<u8>>,
    strands: Vec<Vec<u8>>,
    /// Letters of all strands.
    letters: usize,
    /// Passes over the set in one round.
    passes: usize,
}

/// The first sequence of a number whose letters are A, T, C and G alone.
fn sequence(number: u64) -> Rng {
    let mut seed = SEED;
    loop {
        let rng = Rng::new(seed, number);
        if !rng.clone().letters(200).contains(&b'N') {
            return rng;
        }
        seed += 1;
    }
}

fn set(job: Job, lengths: &[u16], b: u32) -> Set {
    let mut rng = sequence((lengths[0] as u32 * 1000 + b) as u64);
    let mut messages = Vec::new();
    let mut all = Vec::new();
    let count = match job {
        Job::Worst => WORST_STRANDS,
        _ => STRANDS,
    };
    for _ in 0..count {
        let message = rng.bytes(b as usize);
        let mut room = Room::new();
        let letters = write_one(Side::Tuned, lengths, b, &message, &mut room);
        let strand = &room.strand[..letters];
        all.push(match job {
            Job::Write | Job::Untouched => strand.to_vec(),
            Job::OneEdit => strands::one_edit(&mut rng, lengths, strand),
            Job::Damaged => {
                let damages = [
                    Damage::Crowded,
                    Damage::Crowded,
                    Damage::OneBad,
                    Damage::Many,
                    Damage::CutOut,
                    Damage::PutIn,
                    Damage::Repeated,
                    Damage::OneBad,
                ];
                let damage = rng.of(&damages);
                strands::damaged(&mut rng, damage, lengths, strand)
            }
            Job::WithN => strand
                .iter()
                .map(|&letter| if rng.once_in(100) { b'N' } else { letter })
                .collect(),
            Job::Worst => worst_letters(),
        });
        messages.push(message);
    }
    let letters: usize = all.iter().map(Vec::len).sum();
    let passes = match job {
        Job::Worst => 1,
        _ => ROUND_LETTERS / letters.max(1) + 1,
    };
    Set {
        lengths: lengths.to_vec(),
        b,
        messages,
        strands: all,
        letters,
        passes,
    }
}

/// One pass over the set.
fn pass(side: Side, job: Job, set: &Set, room: &mut Room) {
    let (lengths, b) = (black_box(&set.lengths), black_box(set.b));
    if job == Job::Write {
        for message in &set.messages {
            black_box(write_one(side, lengths, b, black_box(message), room));
        }
    } else {
        for strand in &set.strands {
            black_box(read_one(side, lengths, b, black_box(strand), room));
        }
    }
    black_box(room);
}

/// One pass of reports over the set.
fn report_pass(set: &Set, room: &mut Room) {
    let (lengths, b) = (black_box(&set.lengths), black_box(set.b));
    for strand in &set.strands {
        black_box(report_one(lengths, b, black_box(strand), room));
    }
    black_box(room);
}

/// One pass of quotes over the set, one strand each.
fn quote_pass(set: &Set) {
    let (lengths, b) = (black_box(&set.lengths), black_box(set.b));
    for _ in &set.strands {
        black_box(ffi::quote(lengths, b, 1));
    }
}

/// So many symbols of a message, or marks of a sheet.
fn symbols(bytes: &[u8], count: usize) -> Vec<u8> {
    let symbol = |i: usize| bytes[i / 4] >> (6 - i % 4 * 2) & 3;
    (0..count).map(symbol).collect()
}

/// Whether the library passed a segment and found a later one, where the other side lost all from there on.
/// All before the one found is the same.
fn passed(lengths: &[u16], one: &Room, other: &Room) -> bool {
    let [marks, others] = [one, other].map(|room| symbols(&room.sheet, lengths.len()));
    let Some(found) = (0..marks.len()).find(|&i| marks[i] != others[i]) else {
        return false;
    };
    let (all, before) = (strands::sum(lengths), strands::sum(&lengths[..found]));
    let [read, others_read] = [one, other].map(|room| symbols(&room.message, all as usize));
    let (same, zeros) = others_read.split_at(before as usize);
    marks[..found].ends_with(&[2, 2])
        && others[found..].iter().all(|&mark| mark == 2)
        && read.starts_with(same)
        && zeros.iter().all(|&symbol| symbol == 0)
}

/// Both sides give the same answers on the set; hands back how many strands are left out, since a segment is passed.
fn agree(job: Job, set: &Set) -> usize {
    let (mut one, mut other) = (Room::new(), Room::new());
    let (lengths, b) = (&set.lengths, set.b);
    let mut left_out = 0;
    for (message, strand) in set.messages.iter().zip(&set.strands) {
        let same = if job == Job::Write {
            write_one(Side::Library, lengths, b, message, &mut one)
                == write_one(Side::Tuned, lengths, b, message, &mut other)
        } else {
            read_one(Side::Library, lengths, b, strand, &mut one)
                == read_one(Side::Tuned, lengths, b, strand, &mut other)
        };
        if same
            && one.strand == other.strand
            && one.message == other.message
            && one.sheet == other.sheet
        {
            continue;
        }
        if job == Job::Write || !passed(lengths, &one, &other) {
            println!("disagreement: lengths {lengths:?} B {b}");
            exit(1);
        }
        left_out += 1;
    }
    left_out
}

/// The reports on the set have a line for each segment and tell as many clean and lost as the readings.
fn told(set: &Set) {
    let mut room = Room::new();
    let (lengths, b) = (&set.lengths, set.b);
    for strand in &set.strands {
        let [clean, _, lost] = read_one(Side::Library, lengths, b, strand, &mut room);
        let end = report_one(lengths, b, strand, &mut room);
        let lines = String::from_utf8_lossy(&room.lines[..end]);
        let with = |word| lines.lines().filter(|line| line.contains(word)).count();
        if !lines.starts_with("1 ")
            || lines.lines().count() != lengths.len()
            || [with(" clean"), with(" lost ")] != [clean as usize, lost as usize]
        {
            println!("the report is not that of the reading: lengths {lengths:?} B {b}");
            exit(1);
        }
    }
}

/// What was measured of both sides.
struct Measured {
    /// Letters a second in the best round, in millions.
    best: [f64; 2],
    /// The median of the ratios of neighbouring rounds.
    ratio: f64,
}

/// Measures passes over the set by two sides, which are 0 and 1.
fn measure(set: &Set, pass: impl Fn(usize, &mut Room)) -> Measured {
    let mut room = Room::new();
    let mut best = [0f64; 2];
    let mut ratios = Vec::new();
    for round in 0..ROUNDS {
        let mut speeds = [0f64; 2];
        for turn in 0..2 {
            let which = (turn + round) % 2;
            let start = Instant::now();
            for _ in 0..set.passes {
                pass(which, &mut room);
            }
            let seconds = start.elapsed().as_secs_f64();
            speeds[which] = (set.letters * set.passes) as f64 / seconds / 1e6;
            best[which] = best[which].max(speeds[which]);
        }
        ratios.push(speeds[0] / speeds[1]);
    }
    ratios.sort_by(f64::total_cmp);
    Measured {
        best,
        ratio: ratios[ROUNDS / 2],
    }
}

/// Short segments at the ends.
const MIXED: [u16; 12] = [8, 8, 16, 16, 32, 64, 64, 32, 16, 16, 8, 8];

/// Of 64 segments the longest last: the later a segment, the more starts is it sought at.
fn worst_lengths() -> Vec<u16> {
    let parts = [(2, 2), (2, 3), (1, 5), (57, 7), (2, 49)];
    let each = |(count, length)| std::iter::repeat_n(length, count);
    parts.into_iter().flat_map(each).collect()
}

/// The worst strand that was found for them: marker and separator stand at one start in four, a clean segment at none.
fn worst_letters() -> Vec<u8> {
    let period = b"CCCAACCAACCAACCCCCCCC";
    period.iter().copied().cycle().take(2048).collect()
}

/// Whether the other side takes an order; one whose limits are smaller refuses it.
fn rival_takes(lengths: &[u16], b: u32) -> bool {
    let message = vec![0; b as usize];
    write_one(Side::Tuned, lengths, b, &message, &mut Room::new()) > 0
}

/// The layouts of the table, by name; those that the other side refuses are left out.
fn layouts() -> Vec<(&'static str, Vec<u16>, u32)> {
    let equal = |name, k, b| (name, strands::equal_lengths(k, b), b);
    let mut layouts = vec![
        equal("k=16 B=32", 16, 32),
        equal("k=64 B=128", 64, 128),
        equal("k=8 B=128", 8, 128),
        equal("k=2 B=1", 2, 1),
        equal("k=24 B=72", 24, 72),
        equal("k=256 B=512", 256, 512),
        equal("k=32 B=512", 32, 512),
    ];
    if tuned::MIXED {
        layouts.push(("8 to 64 B=72", MIXED.to_vec(), 72));
    }
    layouts.retain(|(_, lengths, b)| rival_takes(lengths, *b));
    layouts
}

/// Whether the other side takes N; one that does not refuses the strand.
fn rival_takes_n() -> bool {
    read_one(Side::Tuned, &[4], 1, b"ATCGCANAGGC", &mut Room::new()) != [0; 3]
}

fn put_row(layout: &str, name: &str, measured: &Measured) {
    let row = format!("{layout} {name}");
    let ([one, other], ratio) = (measured.best, measured.ratio);
    println!("{row:<28} {one:>9.1} {other:>9.1} {ratio:>7.2}");
}

fn table() {
    let mut jobs = vec![
        ("write", Job::Write),
        ("read untouched", Job::Untouched),
        ("read one-edit", Job::OneEdit),
        ("read damaged", Job::Damaged),
    ];
    if rival_takes_n() {
        jobs.push(("read with N", Job::WithN));
    }
    println!("million letters a second, best of {ROUNDS} rounds; ratio library/{RIVAL}, median");
    println!("{:<28} {:>9} {:>9} {:>7}", "", "library", RIVAL, "ratio");
    let (mut left_out, mut readings) = (0, 0);
    // Hands back the microseconds that one strand takes each side.
    let mut row = |layout: &str, lengths: &[u16], b, name: &str, job| {
        let set = set(job, lengths, b);
        left_out += agree(job, &set);
        if job != Job::Write {
            readings += set.strands.len();
        }
        let sides = [Side::Library, Side::Tuned];
        let measured = measure(&set, |which, room| pass(sides[which], job, &set, room));
        put_row(layout, name, &measured);
        let letters = set.letters as f64 / set.strands.len() as f64;
        measured.best.map(|speed| letters / speed)
    };
    for (layout, lengths, b) in layouts() {
        for &(name, job) in &jobs {
            row(layout, &lengths, b, name, job);
        }
    }
    if tuned::MIXED {
        let lengths = worst_lengths();
        let mut row = |name, job| row("2 to 49 B=128", &lengths, 128, name, job);
        let untouched = row("read untouched", Job::Untouched);
        let worst = row("read worst", Job::Worst);
        let [one, other] = [0, 1].map(|which| worst[which] / untouched[which]);
        println!(
            "untouched readings in the time of a worst one: library {one:.1}, {RIVAL} {other:.1}"
        );
    }
    if left_out > 0 {
        println!("{RIVAL} gives up where the library passes a segment;");
        println!("{left_out} of {readings} strands are measured but not compared");
    }
}

/// The library's report beside its reading.
fn report_table() {
    let jobs = [
        ("untouched", Job::Untouched),
        ("one-edit", Job::OneEdit),
        ("damaged", Job::Damaged),
        ("with N", Job::WithN),
    ];
    println!(
        "million letters a second, best of {ROUNDS} rounds; ratio of times report/read, median"
    );
    println!("{:<28} {:>9} {:>9} {:>7}", "", "read", "report", "ratio");
    for (layout, lengths, b) in layouts() {
        for (name, job) in jobs {
            let set = set(job, &lengths, b);
            told(&set);
            let measured = measure(&set, |which, room| match which {
                0 => pass(Side::Library, job, &set, room),
                _ => report_pass(&set, room),
            });
            put_row(layout, name, &measured);
        }
    }
}

fn quote_table() {
    println!(
        "million letters a second, best of {ROUNDS} rounds; ratio of times quote/write, median"
    );
    println!("{:<28} {:>9} {:>9} {:>7}", "", "write", "quote", "ratio");
    for (layout, lengths, b) in layouts() {
        let set = set(Job::Write, &lengths, b);
        let quoted = ffi::quote(&lengths, b, set.strands.len() as u16);
        assert_eq!(quoted.letters as usize, set.letters);
        let measured = measure(&set, |which, room| match which {
            0 => pass(Side::Library, Job::Write, &set, room),
            _ => quote_pass(&set),
        });
        put_row(layout, "quote", &measured);
    }
}

/// N readings or reports for counting instructions: of a fixed set of strands with k=16, or on the lengths of the worst strand.
fn work(side: &str, strands: &str, count: usize) {
    let mixed = [Job::Untouched, Job::OneEdit, Job::Damaged];
    let (lengths, b, jobs) = match (strands, strands.parse()) {
        ("worst", _) => (worst_lengths(), 128, &[Job::Worst][..]),
        ("untouched", _) => (worst_lengths(), 128, &[Job::Untouched][..]),
        (_, Ok(b @ (8 | 32 | 128 | 256))) => (strands::equal_lengths(16, b), b, &mixed[..]),
        _ => usage(),
    };
    let mut all = Vec::new();
    for &job in jobs {
        all.extend(set(job, &lengths, b).strands.into_iter().take(8));
    }
    let mut room = Room::new();
    let mut letters = 0;
    for strand in all.iter().cycle().take(count) {
        letters += strand.len();
        let strand = black_box(strand);
        black_box(match side {
            "library" => read_one(Side::Library, &lengths, b, strand, &mut room),
            "tuned" => read_one(Side::Tuned, &lengths, b, strand, &mut room),
            "report" => [report_one(&lengths, b, strand, &mut room) as u32; 3],
            "none" => [0; 3],
            _ => usage(),
        });
    }
    println!("{side} {strands}: {count} readings, {letters} letters");
}

fn usage() -> ! {
    eprintln!(
        "usage: bench | bench report | bench quote | bench work library|tuned|report|none 8|32|128|256|untouched|worst N"
    );
    exit(2);
}

fn main() {
    let arguments: Vec<String> = std::env::args().skip(1).collect();
    let arguments: Vec<&str> = arguments.iter().map(String::as_str).collect();
    match arguments[..] {
        [] => table(),
        ["report"] => report_table(),
        ["quote"] => quote_table(),
        ["work", side, strands, count] => match count.parse() {
            Ok(count) => work(side, strands, count),
            _ => usage(),
        },
        _ => usage(),
    }
}
