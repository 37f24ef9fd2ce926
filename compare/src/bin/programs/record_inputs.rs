//! The inputs of the program that reads records.

use super::expected::{lines_of, records_of};
use super::inputs::behind;
use super::Runs;
use compare::by_hand::{record, text};
use compare::types::{Design, Tables};

/// What may end a line, or does not: two of them do.
const ENDS: [&str; 6] = ["\n", "\r\n", "\r\r\n", "\r", "\n\r", "\n\n"];

/// The end record.
const END: &str = ":00000001FF";

/// A design's line and the records of a set, without their newlines.
pub fn file_of(d: &Design, tables: &Tables) -> Vec<String> {
    let first = lines_of(d, tables).into_iter().take(1);
    let lines = first.chain(records_of(d, tables));
    lines.map(|line| line.trim_end().to_string()).collect()
}

/// The lines with the same end each.
pub fn with_ends(lines: &[String], end: &str) -> String {
    lines.iter().map(|line| format!("{line}{end}")).collect()
}

/// A well-formed record of so many zeros. Its text has 11 characters and two a byte.
pub fn zeros(bytes: usize) -> String {
    text(record(0, 0, &vec![0; bytes]))
}

/// Records that are not well-formed, made from one that is; but a carriage return behind one is dropped.
fn ill_formed(text: &str) -> Vec<String> {
    let mut texts = ["", ":", "\0", "00", "\r", "é"].map(String::from).to_vec();
    let (start, last) = text.split_at(text.len() - 1);
    let other = if last == "0" { "1" } else { "0" };
    texts.extend([
        text[1..].to_string(),
        text.to_lowercase(),
        start.to_string(),
        start.to_string() + other,
        format!(":F{}", &text[2..]),
        format!(" {text}"),
        format!(":{text}"),
        format!("{text}{text}"),
        text.replacen('0', "\r", 1),
        "0".repeat(521),
        zeros(254) + "00",
        zeros(255) + "0",
        zeros(255) + "00",
        zeros(255) + &"0".repeat(100_000),
    ]);
    texts.extend(behind().iter().map(|behind| format!("{text}{behind}")));
    texts
}

/// Well-formed records, which are not expected anywhere.
fn never_expected() -> Vec<String> {
    let mut texts: Vec<String> = [0, 1, 15, 17, 254, 255].map(zeros).to_vec();
    for (address, kind) in [(0, 1), (1, 0), (0xFFF0, 0), (0, 2), (0, 4), (0, 255)] {
        texts.push(text(record(address, kind, &[0; 16])));
    }
    texts
}

impl Runs {
    /// A set as records: whole, with line ends of both sorts, and with a damaged line.
    pub fn file(&mut self, d: &Design, tables: &Tables) {
        let mut lines = file_of(d, tables);
        self.records(with_ends(&lines, "\n").as_bytes());
        self.records(with_ends(&lines, "\r\n").as_bytes());
        let place = self.random.place(lines.len());
        lines[place] = self.damaged(&lines[place]);
        self.records(with_ends(&lines, "\n").as_bytes());
    }

    /// A small set as records that are spoilt in every way.
    pub fn spoilt_files(&mut self, kind: u32) {
        let d = self.random.small(kind);
        let tables = self.random.plausible(&d);
        let lines = file_of(&d, &tables);
        self.line_ends(&lines);
        self.cut_off(&lines);
        self.lines_moved(&lines);
        for behind in behind() {
            self.with_line(&lines, 0, &format!("{}{behind}", lines[0]));
        }
        for place in [1, 1 + self.random.place(lines.len() - 1), lines.len() - 1] {
            for text in ill_formed(&lines[place]).iter().chain(&never_expected()) {
                self.with_line(&lines, place, text);
            }
        }
    }

    /// A line in the place of another, with each end that lines may have.
    fn with_line(&mut self, lines: &[String], place: usize, text: &str) {
        let (before, after) = (&lines[..place], &lines[place + 1..]);
        for end in ["\n", "\r\n"] {
            let changed = [before, &[text.to_string()], after].concat();
            self.records(with_ends(&changed, end).as_bytes());
        }
    }

    /// Ends of all sorts: of all lines, of one line, and of the last one with nothing behind it.
    fn line_ends(&mut self, lines: &[String]) {
        let last = lines.len() - 1;
        for end in ENDS {
            self.records(with_ends(lines, end).as_bytes());
            for place in [0, 1 + self.random.place(last), last] {
                let (before, after) = lines.split_at(place + 1);
                let before = with_ends(before, "\n");
                let input = [before.trim_end(), end, &with_ends(after, "\n")].concat();
                self.records(input.as_bytes());
            }
        }
        self.records(lines.join("\n").as_bytes());
        self.records(lines.join("\r\n").as_bytes());
    }

    /// Cut off behind a line, within a line, and between the two characters of a line end.
    fn cut_off(&mut self, lines: &[String]) {
        let within = self.random.place(lines.len());
        for place in [0, 1, 2, within, lines.len() - 1] {
            for end in ["\n", "\r\n"] {
                let input = with_ends(&lines[..place], end);
                self.records(input.as_bytes());
                self.records(input.trim_end_matches('\n').as_bytes());
                self.records([&input, &lines[place][..1]].concat().as_bytes());
            }
        }
    }

    /// A line left out, repeated, swapped with the next one, or in the place of the end record;
    /// the end record too early; and lines behind it.
    fn lines_moved(&mut self, lines: &[String]) {
        let last = lines.len() - 1;
        for place in [1, 1 + self.random.place(last - 1), last - 1] {
            let (before, after) = (&lines[..place], &lines[place + 1..]);
            let line = &lines[place..=place];
            let swapped = [before, &after[..1], line, &after[1..]].concat();
            for changed in [
                [before, after].concat(),
                [before, line, line, after].concat(),
                [before, &[String::new()], line, after].concat(),
                [before, &[END.to_string()], line, after].concat(),
                [&lines[..last], line].concat(),
                [lines, line].concat(),
                [lines, lines].concat(),
                swapped,
            ] {
                self.records(with_ends(&changed, "\n").as_bytes());
            }
        }
    }
}
