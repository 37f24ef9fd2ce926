//! Times the proved library beside the reference in 64 bits.

use std::cell::RefCell;
use std::hint::black_box;
use std::time::Instant;

use compare::library;
use compare::narrow::reference as rust;
use compare::random::{entries_of, is_admitted, lengths, Random};
use compare::refusal::Refusal;
use compare::types::{Design, LineReading, RecordReading, Tables};

/// The sets that are timed: w 16, q 16, g 4, for each of the three forms of function the admitted
/// design that has the fewest entries, with 2 tables for the reciprocal and 3 for the others.
const DESIGNS: [Design; 3] = [
    Design::cut([0, 16, 16, 4, 10], &[[5, 3], [7, 3]]),
    Design::cut([2, 16, 16, 4, 9], &[[3, 3], [4, 2], [6, 2]]),
    Design::cut([3, 16, 16, 4, 9], &[[4, 2], [5, 3], [7, 2]]),
];

/// The smallest cuts that are timed, by kind, w and q.
const CUTS: [(u32, u32, u32); 4] = [(0, 16, 16), (1, 16, 16), (3, 16, 16), (0, 16, 12)];

/// Room for the longest record, and more than the longest line takes.
const ROOM: usize = 43;

const BATCH: usize = 1 << 20;
const ROUNDS: usize = 51;
/// A single measurement repeats its call until it lasts about this long.
const SECONDS: f64 = 0.0003;

fn main() {
    println!("median of {ROUNDS} runs, microseconds; a batch is {BATCH} random words");
    for d in DESIGNS {
        assert!(is_admitted(&d), "not admitted: {d:?}");
        time_design(&d);
    }
    print_head("smallest cut");
    for (kind, w, q) in CUTS {
        let name = format!("kind {kind}, w {w}, q {q}");
        print_row(&name, time_smallest(kind, w, q));
    }
}

fn time_design(d: &Design) {
    let pairs: Vec<_> = d.read_pairs().iter().map(|&[a, b]| (a, b)).collect();
    let head = format!("kind {}, w {}, q {}, g {}", d.kind, d.w, d.q, d.g);
    let (alpha, entries) = (d.alpha, entries_of(d));
    print_head(&format!(
        "{head}, alpha {alpha}, pairs {pairs:?}, {entries} entries"
    ));
    let mut set = Set::new(d);
    let [rattle, rust, bare] = time_batch(&mut set);
    print_row("evaluate a batch", [rattle, rust]);
    print_row("the batch, bare lookups in Rust", [rattle, bare]);
    let [check, count] = time_check_and_count(&set);
    print_row("check", check);
    print_row("count", count);
    print_ratios("count over check", count, check);
    print_row("fill", time_fill(&mut set));
    let budget = time_measure(d, library::budget, rust::budget);
    print_row("budget", budget);
    let size = time_measure(d, library::size, rust::size);
    print_row("size, in Rust from every offset", size);
    time_storage(&mut set);
}

/// Whole sets written and read, a call for each line or record.
fn time_storage(set: &mut Set) {
    let lines = time_write(set, &set.lines, library::write_line, rust::write_line);
    print_row("write a whole set, line by line", lines);
    print_row("read a whole set, line by line", time_read_lines(set));
    let records = time_write(set, &set.records, library::write_record, rust::write_record);
    print_row("write a whole set as records", records);
    print_row("read a whole set from records", time_read_records(set));
}

/// Everything that is lent to the calls, written to once before it is timed.
struct Set {
    d: Design,
    tables: Tables,
    words: Vec<u32>,
    output: Vec<u32>,
    lines: Vec<Vec<u8>>,
    records: Vec<Vec<u8>>,
}

/// A version of a writer, of lines or of records.
type Write = fn(&Design, &Tables, usize, &mut [u8]) -> Result<usize, Refusal>;

impl Set {
    fn new(d: &Design) -> Set {
        let mut random = Random::new(1);
        let mut tables = random.tables(lengths(d));
        assert_eq!(rust::fill(d, &mut tables), Ok(()));
        let mut by_library = random.tables(lengths(d));
        let filled = library::fill(d, &mut by_library);
        assert_eq!((filled, &by_library), (Ok(()), &tables));
        let words = (0..BATCH).map(|_| random.word() >> (32 - d.w)).collect();
        let mut set = Set {
            d: *d,
            tables,
            words,
            output: vec![1; BATCH],
            lines: vec![],
            records: vec![],
        };
        set.lines = set.written(rust::write_line);
        set.records = set.written(rust::write_record);
        set
    }

    /// All lines or records of the set.
    fn written(&self, write: Write) -> Vec<Vec<u8>> {
        let text = |number| {
            let mut text = vec![0; ROOM];
            let length = write(&self.d, &self.tables, number, &mut text).ok()?;
            text.truncate(length);
            Some(text)
        };
        (0..).map_while(text).collect()
    }
}

/// The library, the reference, and the bare lookups, with no check but Rust's own of the bounds.
fn time_batch(set: &mut Set) -> [f64; 3] {
    let Set {
        d,
        tables,
        words,
        output,
        ..
    } = set;
    // All write to the same output, one after the other.
    let output = RefCell::new(output);
    medians([
        &mut || {
            let output = &mut output.borrow_mut()[..];
            let answer = library::evaluate_batch(black_box(d), tables, words, output);
            assert_eq!(black_box(answer), Ok(BATCH));
        },
        &mut || {
            let output = &mut output.borrow_mut()[..];
            let answer = rust::evaluate_batch(black_box(d), tables, words, output);
            assert_eq!(black_box(answer), Ok(BATCH));
        },
        &mut || {
            let output = &mut output.borrow_mut()[..];
            match d.m {
                2 => bare::<2>(black_box(d), tables, words, output),
                _ => bare::<3>(black_box(d), tables, words, output),
            }
            black_box(output);
        },
    ])
}

/// The m+1 lookups, their sum and the shift by g.
fn bare<const M: usize>(d: &Design, lent: &Tables, words: &[u32], output: &mut [u32]) {
    let (initial, mut rest) = (&lent.initial[..], &lent.offsets[..]);
    let mut p = 0;
    let tables: [_; M] = std::array::from_fn(|i| {
        let [a, b] = d.pairs[i];
        let (table, after) = rest.split_at(1 << (a + b));
        let lookup = (table, d.w - a - b, p, (1u32 << b) - 1);
        (p, rest) = (p + b, after);
        lookup
    });
    let low = d.w - d.alpha;
    for (&x, word) in words.iter().zip(output) {
        let mut y = initial[(x >> low) as usize] as i32;
        for (table, shift, p, mask) in tables {
            let place = (x >> shift) & !mask | (x >> p) & mask;
            y += table[place as usize];
        }
        *word = (y >> d.g) as u32;
    }
}

/// The check and the count of the same set, each by the library and by the reference, all four
/// in turn.
fn time_check_and_count(set: &Set) -> [[f64; 2]; 2] {
    let Set { d, tables, .. } = set;
    let [check, check_rust, count, count_rust] = medians([
        &mut || ignore(library::check(black_box(d), tables)),
        &mut || ignore(rust::check(black_box(d), tables)),
        &mut || ignore(library::count(black_box(d), tables)),
        &mut || ignore(rust::count(black_box(d), tables)),
    ]);
    [[check, check_rust], [count, count_rust]]
}

fn time_fill(set: &mut Set) -> [f64; 2] {
    let Set { d, tables, .. } = set;
    let tables = RefCell::new(tables);
    medians([
        &mut || ignore(library::fill(black_box(d), &mut tables.borrow_mut())),
        &mut || ignore(rust::fill(black_box(d), &mut tables.borrow_mut())),
    ])
}

/// A number of the design, its budget or its size.
fn time_measure(
    d: &Design,
    by_library: impl Fn(&Design) -> Result<u64, Refusal>,
    by_rust: impl Fn(&Design) -> Result<u64, Refusal>,
) -> [f64; 2] {
    medians([&mut || ignore(by_library(black_box(d))), &mut || {
        ignore(by_rust(black_box(d)))
    }])
}

/// A writer of both versions, of lines or of records, which are all written.
fn time_write(
    set: &Set,
    written: &[Vec<u8>],
    by_library: impl Fn(&Design, &Tables, usize, &mut [u8]) -> Result<usize, Refusal>,
    by_rust: impl Fn(&Design, &Tables, usize, &mut [u8]) -> Result<usize, Refusal>,
) -> [f64; 2] {
    let Set { d, tables, .. } = set;
    let (mut left, mut right) = ([0; ROOM], [0; ROOM]);
    medians([
        &mut || {
            for number in 0..written.len() {
                ignore(by_library(d, tables, number, black_box(&mut left)));
            }
        },
        &mut || {
            for number in 0..written.len() {
                ignore(by_rust(d, tables, number, black_box(&mut right)));
            }
        },
    ])
}

fn time_read_lines(set: &mut Set) -> [f64; 2] {
    let (design, taken) = (set.d, 0);
    time_read(
        (&mut set.tables, &set.lines),
        LineReading { design, taken },
        |state, tables, line| library::read_line(state, tables, line).1,
        |state, tables, line| rust::read_line(state, tables, line).1,
        |state| library::lines_finished(state) && rust::lines_finished(state),
    )
}

fn time_read_records(set: &mut Set) -> [f64; 2] {
    let d = &set.d;
    time_read(
        (&mut set.tables, &set.records),
        RecordReading::default(),
        |state, tables, record| library::read_record(state, d, tables, record).1,
        |state, tables, record| rust::read_record(state, d, tables, record).1,
        |state| library::records_finished(state, d) && rust::records_finished(state, d),
    )
}

/// A reader of both versions, from the state with nothing taken to the one that is finished.
fn time_read<S: Copy>(
    (tables, texts): (&mut Tables, &[Vec<u8>]),
    first: S,
    by_library: impl Fn(S, &mut Tables, &[u8]) -> S,
    by_rust: impl Fn(S, &mut Tables, &[u8]) -> S,
    finished: impl Fn(&S) -> bool,
) -> [f64; 2] {
    let tables = RefCell::new(tables);
    medians([
        &mut || {
            let (tables, mut state) = (&mut **tables.borrow_mut(), first);
            for text in texts {
                state = by_library(black_box(state), tables, text);
            }
            assert!(finished(&state));
        },
        &mut || {
            let (tables, mut state) = (&mut **tables.borrow_mut(), first);
            for text in texts {
                state = by_rust(black_box(state), tables, text);
            }
            assert!(finished(&state));
        },
    ])
}

/// The search for the smallest cut, which both must find.
fn time_smallest(kind: u32, w: u32, q: u32) -> [f64; 2] {
    let found = library::smallest(kind, w, q);
    assert_eq!(found, rust::quick_smallest(kind, w, q));
    medians([
        &mut || ignore(library::smallest(black_box(kind), w, q)),
        &mut || ignore(rust::quick_smallest(black_box(kind), w, q)),
    ])
}

/// Drops the answer of a call, which has to be worked out all the same.
fn ignore<T>(answer: T) {
    black_box(answer);
}

/// The seconds of one call, from enough calls in a row to be measured.
fn seconds(call: &mut dyn FnMut(), times: u32) -> f64 {
    let start = Instant::now();
    for _ in 0..times {
        call();
    }
    start.elapsed().as_secs_f64() / f64::from(times)
}

/// How many calls make a measurement. The first calls also warm the caches.
fn repetitions(call: &mut dyn FnMut()) -> u32 {
    call();
    let once = seconds(call, 1);
    (SECONDS / once).clamp(1.0, 100_000.0) as u32
}

fn median(mut times: Vec<f64>) -> f64 {
    times.sort_by(f64::total_cmp);
    times[times.len() / 2]
}

/// The median times of some calls, measured in turn. Another one goes first in each round, so
/// that other work on the machine does not fall on the same one again and again.
fn medians<const N: usize>(mut calls: [&mut dyn FnMut(); N]) -> [f64; N] {
    let mut repeated = [0; N];
    for (times, call) in repeated.iter_mut().zip(&mut calls) {
        *times = repetitions(call);
    }
    let mut measured = [const { Vec::new() }; N];
    for round in 0..ROUNDS {
        for turn in 0..N {
            let n = (round + turn) % N;
            measured[n].push(seconds(calls[n], repeated[n]));
        }
    }
    measured.map(median)
}

/// Microseconds with 3 significant digits.
fn microseconds(seconds: f64) -> String {
    let time = seconds * 1e6;
    let digits = time.log10().floor() as i32 + 1;
    if digits < 3 {
        let decimals = (3 - digits) as usize;
        return format!("{time:.decimals$}");
    }
    let unit = 10f64.powi(digits - 3);
    format!("{:.0}", (time / unit).round() * unit)
}

/// What the rows below are about, and what stands in their columns.
fn print_head(name: &str) {
    println!();
    println!("{name}");
    println!(
        "{:34} {:>9} {:>9} {:>12}",
        "", "Rattle", "Rust", "Rattle/Rust"
    );
}

fn print_row(name: &str, [rattle, rust]: [f64; 2]) {
    let ratio = rattle / rust;
    let (rattle, rust) = (microseconds(rattle), microseconds(rust));
    println!("{name:34} {rattle:>9} {rust:>9} {ratio:>12.2}");
}

/// How many times longer one call took than another, in each version.
fn print_ratios(name: &str, longer: [f64; 2], shorter: [f64; 2]) {
    let (rattle, rust) = (longer[0] / shorter[0], longer[1] / shorter[1]);
    println!("{name:34} {rattle:>9.2} {rust:>9.2}");
}
