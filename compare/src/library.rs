//! The C boundary: the proved library's functions under the signatures of the reference.

use std::ptr::{from_mut, from_ref};

use crate::refusal::Refusal;
use crate::types::{Checked, Counts, Design, LineReading, RecordReading, Tables, Value};

/// Declares functions that take a set for reading, before all else: a design as its 14 numbers, and
/// two tables with their lengths. They return a refusal's number, 0 if they accept.
macro_rules! functions_of_a_set {
    ($(fn $name:ident($($rest:ident: $type:ty),*);)*) => {
        extern "C" {
            $(pub fn $name(
                design: *const u32,
                initial: *const u32,
                initial_len: usize,
                offsets: *const i32,
                offsets_len: usize,
                $($rest: $type),*
            ) -> u8;)*
        }
    };
}

mod c {
    functions_of_a_set! {
        fn dorykleth_sum(x: u32, sum: *mut i64);
        fn dorykleth_evaluate(x: u32, word: *mut u32);
        fn dorykleth_evaluate_batch(
            words: *const u32, words_len: usize, output: *mut u32, output_len: usize, place: *mut usize
        );
        fn dorykleth_check(first: *mut u64);
        fn dorykleth_count(counts: *mut u32);
        fn dorykleth_write_line(
            number: usize, line: *mut u8, line_len: usize, length: *mut usize
        );
        fn dorykleth_write_record(
            number: usize, record: *mut u8, record_len: usize, length: *mut usize
        );
    }

    extern "C" {
        pub fn dorykleth_value(
            kind: u32,
            w: u32,
            q: u32,
            g: u32,
            x: u32,
            units: *mut i64,
            whole: *mut bool,
        ) -> u8;
        pub fn dorykleth_budget(design: *const u32, budget: *mut u64) -> u8;
        pub fn dorykleth_size(design: *const u32, bits: *mut u64) -> u8;
        pub fn dorykleth_smallest(
            kind: u32,
            w: u32,
            q: u32,
            design: *mut u32,
            bits: *mut u64,
        ) -> u8;
        pub fn dorykleth_fill(
            design: *const u32,
            initial: *mut u32,
            initial_len: usize,
            offsets: *mut i32,
            offsets_len: usize,
        ) -> u8;
        pub fn dorykleth_read_line(
            design: *mut u32,
            taken: *mut usize,
            initial: *mut u32,
            initial_len: usize,
            offsets: *mut i32,
            offsets_len: usize,
            line: *const u8,
            line_len: usize,
        ) -> u8;
        pub fn dorykleth_is_finished(design: *const u32, taken: usize) -> bool;
        pub fn dorykleth_read_record(
            design: *const u32,
            taken: *mut usize,
            held: *mut u8,
            initial: *mut u32,
            initial_len: usize,
            offsets: *mut i32,
            offsets_len: usize,
            record: *const u8,
            record_len: usize,
        ) -> u8;
        pub fn dorykleth_records_finished(
            design: *const u32,
            taken: usize,
            held: *const u8,
        ) -> bool;
        pub fn dorykleth_report(line: *const u8, line_len: usize, text: *mut u8) -> usize;
    }
}

/// Calls a function over tables: what comes before them (a design, a state), the tables, each as a
/// pointer and its length, and what comes behind them (numbers, buffers, the place of the result).
macro_rules! call {
    ($name:ident, [$($before:expr),*], $tables:ident.$pointer:ident, [$($behind:expr),*]) => {
        // SAFETY: every pointer is to something live of its type, as long as the length behind it
        // says, and what is written to is lent alone. A design is 14 numbers, held bytes are two.
        unsafe {
            c::$name(
                $($before,)*
                $tables.initial.$pointer(),
                $tables.initial.len(),
                $tables.offsets.$pointer(),
                $tables.offsets.len(),
                $($behind),*
            )
        }
    };
}

/// What result variables hold before a call. They must hold it still after a refused one.
const UNTOUCHED: u64 = 0x5A5A_5A5A_5A5A_5A5A;

const _: () = assert!(size_of::<Design>() == size_of::<[u32; 14]>());

/// A design's 14 numbers.
fn numbers(d: &Design) -> *const u32 {
    from_ref(d).cast()
}

/// The refusal with a number, none for 0.
fn refusal(number: u8) -> Result<(), Refusal> {
    match (number, Refusal::with_number(number)) {
        (0, _) => Ok(()),
        (_, Some(refusal)) => Err(refusal),
        (_, None) => {
            println!("the library refused with {number}");
            Err(Refusal::Other)
        }
    }
}

/// The result that an accepted call stores. A refused one must have left the variable alone.
fn stored<T: PartialEq + Copy>(before: T, call: impl FnOnce(&mut T) -> u8) -> Result<T, Refusal> {
    let mut result = before;
    match refusal(call(&mut result)) {
        Ok(()) => Ok(result),
        Err(refusal) if result == before => Err(refusal),
        Err(_) => Err(Refusal::Other),
    }
}

/// A refused call must leave both variables alone, whatever stands in them.
pub fn value(kind: u32, w: u32, q: u32, g: u32, x: u32) -> Result<Value, Refusal> {
    let before = Value {
        floor: UNTOUCHED as i64,
        whole: x % 2 == 1,
    };
    // SAFETY: the pointers are to live variables of their types.
    stored(before, |Value { floor, whole }| unsafe {
        c::dorykleth_value(kind, w, q, g, x, floor, whole)
    })
}

/// The budget is refused for the same causes as the design itself.
pub fn legal(d: &Design) -> Result<(), Refusal> {
    budget(d).map(|_| ())
}

pub fn budget(d: &Design) -> Result<u64, Refusal> {
    // SAFETY: 14 numbers to read and a live variable to write.
    stored(UNTOUCHED, |budget| unsafe {
        c::dorykleth_budget(numbers(d), budget)
    })
}

pub fn size(d: &Design) -> Result<u64, Refusal> {
    // SAFETY: 14 numbers to read and a live variable to write.
    stored(UNTOUCHED, |bits| unsafe {
        c::dorykleth_size(numbers(d), bits)
    })
}

pub fn smallest(kind: u32, w: u32, q: u32) -> Result<(Design, u64), Refusal> {
    let untouched = UNTOUCHED as u32;
    let before = Design::new([untouched; 6], [[untouched; 2]; 4]);
    // SAFETY: 14 numbers and a live variable to write.
    stored((before, UNTOUCHED), |(design, bits)| unsafe {
        c::dorykleth_smallest(kind, w, q, from_mut(design).cast(), bits)
    })
}

pub fn fill(d: &Design, tables: &mut Tables) -> Result<(), Refusal> {
    refusal(call!(dorykleth_fill, [numbers(d)], tables.as_mut_ptr, []))
}

pub fn sum(d: &Design, tables: &Tables, x: u32) -> Result<i64, Refusal> {
    stored(UNTOUCHED as i64, |sum| {
        call!(dorykleth_sum, [numbers(d)], tables.as_ptr, [x, sum])
    })
}

pub fn evaluate(d: &Design, tables: &Tables, x: u32) -> Result<u32, Refusal> {
    stored(UNTOUCHED as u32, |word| {
        call!(dorykleth_evaluate, [numbers(d)], tables.as_ptr, [x, word])
    })
}

pub fn evaluate_batch(
    d: &Design,
    tables: &Tables,
    words: &[u32],
    output: &mut [u32],
) -> Result<usize, (Refusal, usize)> {
    let mut place = UNTOUCHED as usize;
    let (words, length) = (words.as_ptr(), words.len());
    let (output, room) = (output.as_mut_ptr(), output.len());
    let number = call!(
        dorykleth_evaluate_batch,
        [numbers(d)],
        tables.as_ptr,
        [words, length, output, room, &mut place]
    );
    match refusal(number) {
        Ok(()) => Ok(place),
        Err(refusal) => Err((refusal, place)),
    }
}

pub fn check(d: &Design, tables: &Tables) -> Result<Checked, Refusal> {
    let first = stored(UNTOUCHED, |first| {
        call!(dorykleth_check, [numbers(d)], tables.as_ptr, [first])
    })?;
    // An accepted design has few bits; 2^w stands for none.
    if first == 1 << d.w {
        return Ok(Checked::Faithful);
    }
    Ok(Checked::Unfaithful(
        u32::try_from(first).unwrap_or(u32::MAX),
    ))
}

pub fn count(d: &Design, tables: &Tables) -> Result<Counts, Refusal> {
    let [outside, nearest, faithful, low, high] = stored([UNTOUCHED as u32; 5], |counts| {
        let counts = counts.as_mut_ptr();
        call!(dorykleth_count, [numbers(d)], tables.as_ptr, [counts])
    })?;
    Ok(Counts {
        outside,
        nearest,
        faithful,
        low,
        high,
    })
}

pub fn write_line(
    d: &Design,
    tables: &Tables,
    number: usize,
    line: &mut [u8],
) -> Result<usize, Refusal> {
    let (line, room) = (line.as_mut_ptr(), line.len());
    stored(UNTOUCHED as usize, |length| {
        call!(
            dorykleth_write_line,
            [numbers(d)],
            tables.as_ptr,
            [number, line, room, length]
        )
    })
}

pub fn write_record(
    d: &Design,
    tables: &Tables,
    number: usize,
    record: &mut [u8],
) -> Result<usize, Refusal> {
    let (record, room) = (record.as_mut_ptr(), record.len());
    stored(UNTOUCHED as usize, |length| {
        call!(
            dorykleth_write_record,
            [numbers(d)],
            tables.as_ptr,
            [number, record, room, length]
        )
    })
}

/// Returns the state that the call leaves.
pub fn read_line(
    mut state: LineReading,
    tables: &mut Tables,
    line: &[u8],
) -> (Result<(), Refusal>, LineReading) {
    let design = from_mut(&mut state.design).cast();
    let number = call!(
        dorykleth_read_line,
        [design, &mut state.taken],
        tables.as_mut_ptr,
        [line.as_ptr(), line.len()]
    );
    (refusal(number), state)
}

pub fn lines_finished(state: &LineReading) -> bool {
    // SAFETY: 14 numbers to read.
    unsafe { c::dorykleth_is_finished(numbers(&state.design), state.taken) }
}

/// Returns the state that the call leaves.
pub fn read_record(
    mut state: RecordReading,
    d: &Design,
    tables: &mut Tables,
    record: &[u8],
) -> (Result<(), Refusal>, RecordReading) {
    let held = state.held.as_mut_ptr();
    let number = call!(
        dorykleth_read_record,
        [numbers(d), &mut state.taken, held],
        tables.as_mut_ptr,
        [record.as_ptr(), record.len()]
    );
    (refusal(number), state)
}

pub fn records_finished(state: &RecordReading, d: &Design) -> bool {
    // SAFETY: 14 numbers and two bytes to read.
    unsafe { c::dorykleth_records_finished(numbers(d), state.taken, state.held.as_ptr()) }
}

pub fn report(line: &[u8]) -> String {
    let mut text = [UNTOUCHED as u8; 96];
    // SAFETY: a slice with its length to read, and 96 bytes to write.
    let length = unsafe { c::dorykleth_report(line.as_ptr(), line.len(), text.as_mut_ptr()) };
    match text.split_at_checked(length) {
        Some((text, zeros)) if zeros.iter().all(|&byte| byte == 0) => {
            String::from_utf8_lossy(text).into_owned()
        }
        _ => format!("length {length}, and all 96 bytes: {text:?}"),
    }
}
