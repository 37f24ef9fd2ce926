//! What each program should print for an input.

use compare::by_hand::{design_line, text};
use compare::refusal::Refusal;
use compare::types::{Checked, Design, LineReading, RecordReading, Tables};
use compare::wide::reference;

/// A writer, of lines or of records.
type Write = fn(&Design, &Tables, usize, &mut [u8]) -> Result<usize, Refusal>;

/// Tables that hold every legal set.
fn largest_tables() -> Tables {
    Tables::alike((1 << 13, 4 << 12), 0, 0)
}

fn begin() -> LineReading {
    let (design, taken) = (Design::default(), 0);
    LineReading { design, taken }
}

fn refused(refusal: Refusal) -> String {
    format!("REFUSED {refusal}\n")
}

/// The lines of a set, each with a newline; none from an entry on that no line carries.
pub fn lines_of(d: &Design, tables: &Tables) -> Vec<String> {
    written(reference::write_line, d, tables).0
}

/// The records of a set, likewise.
pub fn records_of(d: &Design, tables: &Tables) -> Vec<String> {
    written(reference::write_record, d, tables).0
}

/// What a writer gives of a set, from its start on, and the refusal at which it ends.
fn written(write: Write, d: &Design, tables: &Tables) -> (Vec<String>, Refusal) {
    let (mut texts, mut buffer) = (vec![], [0; 43]);
    loop {
        match write(d, tables, texts.len(), &mut buffer) {
            Ok(length) => texts.push(text(buffer[..length].to_vec()) + "\n"),
            Err(refusal) => return (texts, refusal),
        }
    }
}

/// The lines of an input: a last one without a newline counts, if it has a byte.
fn input_lines(input: &[u8]) -> Vec<&[u8]> {
    let mut lines: Vec<&[u8]> = input.split(|&byte| byte == b'\n').collect();
    if lines.last().is_some_and(|line| line.is_empty()) {
        lines.pop();
    }
    lines
}

fn first_line(input: &[u8]) -> &[u8] {
    input_lines(input).first().copied().unwrap_or_default()
}

pub fn report(input: &[u8]) -> String {
    reference::report(first_line(input))
}

pub fn make_set(input: &[u8]) -> String {
    match filled_set(first_line(input)) {
        Ok((d, tables)) => lines_of(&d, &tables).concat(),
        Err(refusal) => refused(refusal),
    }
}

/// The filled tables of a design's line.
fn filled_set(line: &[u8]) -> Result<(Design, Tables), Refusal> {
    let (d, mut tables) = (reference::read_design(line)?, largest_tables());
    reference::fill(&d, &mut tables)?;
    Ok((d, tables))
}

/// What is printed where the input ends too early, by the number of all its lines, and for a line
/// that is refused, by its own. Empty lines count, too.
fn unfinished(lines: usize) -> String {
    format!("UNFINISHED {lines}\n")
}

fn line_refused(number: usize, refusal: Refusal) -> String {
    format!("LINE {number} REFUSED {refusal}\n")
}

/// What is printed for a file of sets: something for each set, and at last why not all of the input
/// was taken, if so. The tables keep what the sets before have left.
fn parts_of_file(input: &[u8], part: fn(&Design, &Tables) -> String) -> Vec<String> {
    let (mut state, mut tables, mut parts) = (begin(), largest_tables(), vec![]);
    let lines = input_lines(input);
    for (number, line) in lines.iter().enumerate() {
        let (answer, next) = reference::read_line(state, &mut tables, line);
        if let Err(refusal) = answer {
            parts.push(line_refused(number, refusal));
            return parts;
        }
        state = next;
        if reference::lines_finished(&state) {
            parts.push(part(&state.design, &tables));
        }
    }
    let between_sets = state.taken == 0 && !parts.is_empty();
    if !reference::lines_finished(&state) && !between_sets {
        parts.push(unfinished(lines.len()));
    }
    parts
}

/// The first set of an input with the lines behind it, or what is printed instead.
fn first_set(input: &[u8]) -> Result<(Design, Tables, Vec<&[u8]>), String> {
    let (mut state, mut tables) = (begin(), largest_tables());
    let lines = input_lines(input);
    for (number, line) in lines.iter().enumerate() {
        let (answer, next) = reference::read_line(state, &mut tables, line);
        answer.map_err(|refusal| line_refused(number, refusal))?;
        state = next;
        if reference::lines_finished(&state) {
            return Ok((state.design, tables, lines[number + 1..].to_vec()));
        }
    }
    Err(unfinished(lines.len()))
}

pub fn check_set(input: &[u8]) -> String {
    parts_of_file(input, verdict).concat()
}

fn verdict(d: &Design, tables: &Tables) -> String {
    match reference::check(d, tables) {
        Ok(Checked::Faithful) => "FAITHFUL\n".into(),
        Ok(Checked::Unfaithful(x)) => format!("UNFAITHFUL {x}\n"),
        Err(refusal) => refused(refusal),
    }
}

pub fn count_set(input: &[u8]) -> String {
    parts_of_file(input, counts).concat()
}

fn counts(d: &Design, tables: &Tables) -> String {
    match reference::count(d, tables) {
        Ok(counts) => {
            let [outside, nearest, faithful, low, high] = counts.all();
            let passing = format!("NEAREST {nearest} FAITHFUL {faithful}");
            format!("OUTSIDE {outside} {passing} LOW {low} HIGH {high}\n")
        }
        Err(refusal) => refused(refusal),
    }
}

/// A decimal number below 2^32: digits and nothing else.
fn decimal(line: &[u8]) -> Option<u32> {
    let text = std::str::from_utf8(line).ok()?;
    let digits = text.bytes().all(|byte| byte.is_ascii_digit());
    text.parse().ok().filter(|_| digits)
}

pub fn evaluate_set(input: &[u8]) -> String {
    let (d, tables, words) = match first_set(input) {
        Ok(set) => set,
        Err(text) => return text,
    };
    let answer = |line: &&[u8]| match decimal(line) {
        None => "NOT A WORD\n".into(),
        Some(x) => match reference::evaluate(&d, &tables, x) {
            Ok(word) => format!("{word}\n"),
            Err(refusal) => refused(refusal),
        },
    };
    words.iter().map(answer).collect()
}

/// The files of all sets with an empty line between them, and before a message behind one.
pub fn set_to_hex(input: &[u8]) -> String {
    parts_of_file(input, |d, tables| records_of(d, tables).concat()).join("\n")
}

/// The lines of an input from a device programmer: a carriage return before the newline is no part
/// of a line.
fn programmer_lines(input: &[u8]) -> impl Iterator<Item = &[u8]> {
    let lines = input.split_inclusive(|&byte| byte == b'\n');
    lines.map(|line| match line {
        [line @ .., b'\r', b'\n'] => line,
        [line @ .., b'\n'] => line,
        _ => line,
    })
}

/// A set that is read from a design's line and records to its end, or what is printed instead.
fn read_records(input: &[u8]) -> Result<(Design, Tables), String> {
    let mut tables = largest_tables();
    let mut lines = programmer_lines(input);
    let line = lines.next().ok_or_else(|| unfinished(0))?;
    let d = reference::read_design(line).map_err(|refusal| line_refused(0, refusal))?;
    let mut state = RecordReading::default();
    while !reference::records_finished(&state, &d) {
        let taken = 1 + state.taken;
        let line = lines.next().ok_or_else(|| unfinished(taken))?;
        let (answer, next) = reference::read_record(state, &d, &mut tables, line);
        answer.map_err(|refusal| line_refused(taken, refusal))?;
        state = next;
    }
    Ok((d, tables))
}

/// All lines of the set, or none where one of them is refused: the writer must end past the set.
pub fn hex_to_set(input: &[u8]) -> String {
    let (d, tables) = match read_records(input) {
        Ok(set) => set,
        Err(text) => return text,
    };
    match written(reference::write_line, &d, &tables) {
        (lines, Refusal::PastSet) => lines.concat(),
        (_, refusal) => refused(refusal),
    }
}

/// Three decimal numbers with exactly one space between them.
fn three_numbers(line: &[u8]) -> Option<[u32; 3]> {
    let mut numbers = line.split(|&byte| byte == b' ').map(decimal);
    let three = [numbers.next()??, numbers.next()??, numbers.next()??];
    numbers.next().is_none().then_some(three)
}

/// The smallest design for a kind and two widths, as its line, and the report on it.
pub fn smallest_design(input: &[u8]) -> String {
    let Some([kind, w, q]) = three_numbers(first_line(input)) else {
        return "NOT THREE NUMBERS\n".into();
    };
    match reference::quick_smallest(kind, w, q) {
        Ok((d, _)) => {
            let line = design_line(&d, d.m as usize);
            let report = reference::report(&line);
            text(line) + "\n" + &report
        }
        Err(refusal) => refused(refusal),
    }
}
