//! Each call made on both versions with the same input, and everything it leaves compared.

use std::fmt::{Debug, Write as _};
use std::process::exit;

use super::tally::Tally;
use crate::library;
use crate::refusal::{number_of, Refusal};
use crate::types::{Checked, Counts, Design, LineReading, RecordReading, Tables};
use crate::wide::reference;

/// A version of the smallest cut.
pub type Search = fn(u32, u32, u32) -> Result<(Design, u64), Refusal>;

/// A version of a writer, of lines or of records.
type Write = fn(&Design, &Tables, usize, &mut [u8]) -> Result<usize, Refusal>;

/// What a call answers.
trait Answer: PartialEq + Debug {
    /// The refusal's number, 0 if the call accepts.
    fn refusal(&self) -> u8;
}

impl<T: PartialEq + Debug> Answer for Result<T, Refusal> {
    fn refusal(&self) -> u8 {
        number_of(self)
    }
}

/// A batch is refused at a place.
impl Answer for Result<usize, (Refusal, usize)> {
    fn refusal(&self) -> u8 {
        self.map_or_else(|(refusal, _)| refusal.number(), |_| 0)
    }
}

/// A reader gives its next state, too.
impl<S: PartialEq + Debug> Answer for (Result<(), Refusal>, S) {
    fn refusal(&self) -> u8 {
        number_of(&self.0)
    }
}

/// Whether a reading is finished, which is never refused.
impl Answer for bool {
    fn refusal(&self) -> u8 {
        0
    }
}

/// A report prints its refusal.
impl Answer for String {
    fn refusal(&self) -> u8 {
        let number = self.strip_prefix("REFUSED ");
        number.map_or(0, |number| number.trim_end().parse().unwrap_or(0))
    }
}

/// What is lent to a call for writing. All of its contents are compared.
trait Lent: Clone + PartialEq {
    /// Where it differs after the reference from what it is after the library.
    fn differences(&self, library: &Self) -> String;
}

impl Lent for () {
    fn differences(&self, (): &()) -> String {
        String::new()
    }
}

impl<T: Clone + PartialEq + Debug> Lent for Vec<T> {
    fn differences(&self, library: &Vec<T>) -> String {
        let mut text = String::new();
        for (place, (left, right)) in self.iter().zip(library).enumerate() {
            if left != right {
                let _ = writeln!(text, "[{place}]: reference {left:?}, library {right:?}");
            }
        }
        text
    }
}

impl Lent for Tables {
    fn differences(&self, library: &Tables) -> String {
        let initial = self.initial.differences(&library.initial);
        let offsets = self.offsets.differences(&library.offsets);
        format!("initial:\n{initial}offsets:\n{offsets}")
    }
}

fn shown<T: Debug>(name: &str, entries: &[T]) -> String {
    let mut text = format!("{name}, {} elements:\n", entries.len());
    for row in entries.chunks(16) {
        let _ = writeln!(text, "  {row:?}");
    }
    text
}

/// An input with tables in a form that can be read.
fn input(d: &Design, tables: &Tables, rest: String) -> String {
    let initial = shown("initial", &tables.initial);
    let offsets = shown("offsets", &tables.offsets);
    format!("{d:?}\n{initial}{offsets}{rest}")
}

/// The classes of the counts, in their order, as they are noted when a word is in them.
const CLASSES: [&str; 5] = [
    "count: some outside",
    "count: some nearest",
    "count: some faithful",
    "count: some low",
    "count: some high",
];

#[derive(Default)]
pub struct Calls {
    pub tally: Tally,
}

impl Calls {
    /// Makes a call on both versions, each with what is lent for writing as it is before. Counts it
    /// and ends the program at a difference. Returns what the call leaves.
    fn same<A: Answer, L: Lent>(
        &mut self,
        call: &'static str,
        before: &L,
        reference: impl FnOnce(&mut L) -> A,
        library: impl FnOnce(&mut L) -> A,
        input: impl FnOnce() -> String,
    ) -> (A, L) {
        let (mut lent, mut lent_library) = (before.clone(), before.clone());
        let (answer, answer_library) = (reference(&mut lent), library(&mut lent_library));
        self.tally.count(call, answer.refusal());
        if answer != answer_library || lent != lent_library {
            println!("{call} differs\n{}", input());
            println!("reference: {answer:?}\nlibrary:   {answer_library:?}");
            print!("{}", lent.differences(&lent_library));
            exit(1);
        }
        (answer, lent)
    }

    /// The same for a call that leaves nothing but its answer.
    fn same_answer<A: Answer>(
        &mut self,
        call: &'static str,
        (reference, library): (A, A),
        input: impl FnOnce() -> String,
    ) -> A {
        self.same(call, &(), |()| reference, |()| library, input).0
    }

    pub fn value(&mut self, kind: u32, w: u32, q: u32, g: u32, x: u32) {
        let reference = reference::value(kind, w, q, g, x);
        let library = library::value(kind, w, q, g, x);
        let input = || format!("kind {kind}, w {w}, q {q}, g {g}, x {x}");
        let value = self.same_answer("value", (reference, library), input);
        if value.is_ok_and(|value| value.whole) {
            let place = if x == 0 { "at x = 0" } else { "elsewhere" };
            self.tally
                .note(&format!("value: whole {place}, kind {kind}"));
        }
    }

    /// Legality, budget and size.
    pub fn design(&mut self, d: &Design) {
        let input = || format!("{d:?}");
        let _ = self.same_answer("legal", (reference::legal(d), library::legal(d)), input);
        let budgets = (reference::budget(d), library::budget(d));
        let budget = self.same_answer("budget", budgets, input);
        if budget.is_ok_and(|budget| budget >> 32 != 0) {
            self.tally.note("budget of 2^32 or more");
        }
        let _ = self.size(d);
    }

    pub fn size(&mut self, d: &Design) -> Result<u64, Refusal> {
        let sizes = (reference::size(d), library::size(d));
        self.same_answer("size", sizes, || format!("{d:?}"))
    }

    pub fn fill(&mut self, d: &Design, before: &Tables) -> Result<Tables, Refusal> {
        let (answer, tables) = self.same(
            "fill",
            before,
            |tables| reference::fill(d, tables),
            |tables| library::fill(d, tables),
            || input(d, before, String::new()),
        );
        if answer.is_ok() {
            self.tally.note(&format!("fill: kind {}", d.kind));
        }
        answer.map(|()| tables)
    }

    /// Y and the word.
    pub fn word(&mut self, d: &Design, tables: &Tables, x: u32) {
        let shown = || input(d, tables, format!("x {x}"));
        let sums = (reference::sum(d, tables, x), library::sum(d, tables, x));
        let sum = self.same_answer("sum", sums, shown);
        let reference = reference::evaluate(d, tables, x);
        let library = library::evaluate(d, tables, x);
        let word = self.same_answer("evaluate", (reference, library), shown);
        if word == Err(Refusal::Range) {
            let below = sum.is_ok_and(|sum| sum < 0);
            self.tally.note(if below {
                "sum below 0"
            } else {
                "sum out of range"
            });
        }
    }

    pub fn batch(&mut self, d: &Design, tables: &Tables, words: &[u32], before: &Vec<u32>) {
        let (answer, _) = self.same(
            "evaluate_batch",
            before,
            |output| reference::evaluate_batch(d, tables, words, output),
            |output| library::evaluate_batch(d, tables, words, output),
            || input(d, tables, shown("words", words) + &shown("output", before)),
        );
        if answer.is_err_and(|(_, place)| place > 0) {
            self.tally.note("batch refused at a place above 0");
        }
    }

    /// The verdict and the counts, which are returned.
    pub fn check_and_count(&mut self, d: &Design, tables: &Tables) -> Result<Counts, Refusal> {
        let (checked, counts) = (self.check(d, tables), self.count(d, tables));
        let (checked, counts) = (checked?, counts?);
        if !counts.agree_with(d, checked) {
            let input = input(d, tables, String::new());
            println!("check and count do not agree\n{input}{checked:?}\n{counts:?}");
            exit(1);
        }
        Ok(counts)
    }

    fn check(&mut self, d: &Design, tables: &Tables) -> Result<Checked, Refusal> {
        let answers = (reference::check(d, tables), library::check(d, tables));
        let shown = || input(d, tables, String::new());
        let checked = self.same_answer("check", answers, shown);
        match checked {
            Ok(Checked::Faithful) => self.tally.note("check: faithful"),
            Ok(Checked::Unfaithful(0)) => self.tally.note("check: unfaithful, word 0"),
            Ok(_) => self.tally.note("check: unfaithful, another word"),
            Err(_) => {}
        }
        checked
    }

    fn count(&mut self, d: &Design, tables: &Tables) -> Result<Counts, Refusal> {
        let answers = (reference::count(d, tables), library::count(d, tables));
        let shown = || input(d, tables, String::new());
        let counts = self.same_answer("count", answers, shown)?;
        for (class, count) in CLASSES.into_iter().zip(counts.all()) {
            if count > 0 {
                self.tally.note(class);
            }
        }
        Ok(counts)
    }

    /// Returns the written line. The buffer is lent as it is before.
    pub fn write_line(
        &mut self,
        d: &Design,
        tables: &Tables,
        number: usize,
        before: &[u8],
    ) -> Result<Vec<u8>, Refusal> {
        let both = [reference::write_line, library::write_line];
        self.written("write_line", both, (d, tables), number, before)
    }

    /// Returns the written record, likewise.
    pub fn write_record(
        &mut self,
        d: &Design,
        tables: &Tables,
        number: usize,
        before: &[u8],
    ) -> Result<Vec<u8>, Refusal> {
        let both = [reference::write_record, library::write_record];
        self.written("write_record", both, (d, tables), number, before)
    }

    /// Returns what both versions of a writer put at the start of the buffer.
    fn written(
        &mut self,
        call: &'static str,
        [reference, library]: [Write; 2],
        (d, tables): (&Design, &Tables),
        number: usize,
        before: &[u8],
    ) -> Result<Vec<u8>, Refusal> {
        let (answer, mut text) = self.same(
            call,
            &before.to_vec(),
            |text| reference(d, tables, number, text),
            |text| library(d, tables, number, text),
            || {
                let buffer = shown("buffer", before);
                input(d, tables, format!("number {number}\n{buffer}"))
            },
        );
        text.truncate(answer?);
        Ok(text)
    }

    /// Returns the answer with the state and the tables that are left.
    pub fn read_line(
        &mut self,
        state: LineReading,
        before: &Tables,
        line: &[u8],
    ) -> (Result<(), Refusal>, LineReading, Tables) {
        let ((answer, next), tables) = self.same(
            "read_line",
            before,
            |tables| reference::read_line(state, tables, line),
            |tables| library::read_line(state, tables, line),
            || {
                let text = String::from_utf8_lossy(line);
                let rest = format!("lines taken {}\nline {text:?}", state.taken);
                input(&state.design, before, rest)
            },
        );
        self.lines_finished(&next);
        (answer, next, tables)
    }

    /// Returns the answer with the state and the tables that are left.
    pub fn read_record(
        &mut self,
        d: &Design,
        state: RecordReading,
        before: &Tables,
        record: &[u8],
    ) -> (Result<(), Refusal>, RecordReading, Tables) {
        let ((answer, next), tables) = self.same(
            "read_record",
            before,
            |tables| reference::read_record(state, d, tables, record),
            |tables| library::read_record(state, d, tables, record),
            || {
                let text = String::from_utf8_lossy(record);
                input(d, before, format!("{state:?}\nrecord {text:?}"))
            },
        );
        self.records_finished(d, &next);
        (answer, next, tables)
    }

    pub fn lines_finished(&mut self, state: &LineReading) {
        let reference = reference::lines_finished(state);
        let answers = (reference, library::lines_finished(state));
        self.same_answer("is_finished", answers, || format!("{state:?}"));
        self.tally.note(match reference {
            true => "is_finished: yes",
            false => "is_finished: no",
        });
    }

    pub fn records_finished(&mut self, d: &Design, state: &RecordReading) {
        let reference = reference::records_finished(state, d);
        let answers = (reference, library::records_finished(state, d));
        self.same_answer("records_finished", answers, || format!("{d:?}\n{state:?}"));
        self.tally.note(match reference {
            true => "records_finished: yes",
            false => "records_finished: no",
        });
    }

    pub fn report(&mut self, line: &[u8]) {
        let answers = (reference::report(line), library::report(line));
        let shown = || format!("line {:?}", String::from_utf8_lossy(line));
        let report = self.same_answer("report", answers, shown);
        let refusal = report.refusal();
        if report.ends_with("BITS 0 NOT ADMITTED\n") {
            self.tally.note("report: BITS 0 NOT ADMITTED");
        } else if refusal == 0 {
            self.tally.note("report: ADMITTED");
        }
        if line.is_empty() {
            self.tally
                .note(&format!("report: empty line refused {refusal}"));
        }
    }

    /// The smallest cut, by one of the reference's versions of it.
    pub fn smallest(
        &mut self,
        search: Search,
        kind: u32,
        w: u32,
        q: u32,
    ) -> Result<(Design, u64), Refusal> {
        let answers = (search(kind, w, q), library::smallest(kind, w, q));
        self.same_answer("smallest", answers, || format!("kind {kind}, w {w}, q {q}"))
    }
}
