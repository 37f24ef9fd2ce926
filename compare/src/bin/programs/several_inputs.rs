//! The inputs with several sets, and with empty lines.

use super::expected::lines_of;
use super::inputs::{behind, SHORT, SMALLEST};
use super::{Runs, RECORDS_PROGRAM, SET_TO_HEX};
use compare::by_hand::{design_line, initial_line, sealed, text};
use compare::random::{is_admitted, largest, sum_limit, LARGEST};
use compare::types::{Design, Tables, KINDS};

/// Sets as texts, one after the other, with so many empty lines before, between and behind them.
pub fn with_empty_lines(sets: &[String], [before, between, behind]: [usize; 3]) -> String {
    let [before, between, behind] = [before, between, behind].map(|lines| "\n".repeat(lines));
    [before, sets.join(&between), behind].concat()
}

/// A line with its newline.
fn ended(line: Vec<u8>) -> String {
    text(line) + "\n"
}

/// The entries moved to where lines carry them.
fn storable(d: &Design, mut tables: Tables) -> Tables {
    for entry in &mut tables.initial {
        *entry = (*entry).min(sum_limit(d) - 1);
    }
    for entry in &mut tables.offsets {
        *entry = (*entry).clamp(-(1 << 23), (1 << 23) - 1);
    }
    tables
}

/// The first lines of designs that are refused with 1 to 9, each with one wrong number.
fn refused_designs() -> [String; 9] {
    let d = SMALLEST;
    let pair = |pair| Design {
        pairs: [pair, [1, 1], [1, 1], [1, 1]],
        ..d
    };
    [
        Design { kind: 5, ..d },
        Design { w: 5, ..d },
        Design { q: 17, ..d },
        Design { g: 7, ..d },
        Design { alpha: 6, ..d },
        Design { m: 0, ..d },
        pair([3, 1]),
        pair([1, 9]),
        pair([1, 2]),
    ]
    .map(|d| ended(design_line(&d, d.m as usize)))
}

/// Lines that are not well-formed, made from one that is.
fn ill_formed(line: &str) -> Vec<String> {
    let line = line.trim_end();
    let mut texts: Vec<String> = behind().iter().map(|end| format!("{line}{end}")).collect();
    texts.extend([
        line[1..].to_string(),
        line.to_lowercase(),
        format!(" {line}"),
        line.replacen('0', "1", 1),
        line.replacen('0', "\r", 1),
        "\r".into(),
        "0".repeat(33),
        "00".repeat(16),
        "00".repeat(17),
        "0".repeat(5_000),
    ]);
    texts.into_iter().map(|line| line + "\n").collect()
}

impl Runs {
    pub fn several_inputs(&mut self) {
        for kind in KINDS {
            for _ in 0..6 {
                self.several_sets(kind);
            }
        }
        let first = self.any_set(1).concat();
        let second = self.set_of(&SHORT);
        self.empty_lines_around(&first);
        self.empty_lines_alone();
        self.broken_off(&first, &second);
        self.empty_lines_inside(&first, &second);
        self.refused_behind(&first, &second);
        self.not_one_empty_line_between(&first, &second);
        self.records_split();
        self.larger_and_smaller();
        self.many_sets();
    }

    /// A set of few words: filled, with some damage, or with any entries.
    pub fn any_set(&mut self, kind: u32) -> Vec<String> {
        let filled = self.random.once_in(2);
        let d = loop {
            let d = self.random.small(kind);
            if is_admitted(&d) || !filled {
                break d;
            }
        };
        if filled {
            self.set_of(&d)
        } else {
            let mut tables = self.random.plausible(&d);
            self.random.damage(&d, &mut tables);
            lines_of(&d, &storable(&d, tables))
        }
    }

    /// A filled set, every second one with some damage; with any entries if it cannot be filled.
    pub fn set_of(&mut self, d: &Design) -> Vec<String> {
        let mut tables = self.random.filled(d);
        if self.random.once_in(2) {
            self.random.damage(d, &mut tables);
        }
        lines_of(d, &storable(d, tables))
    }

    /// Two or three sets of different kinds, with any number of empty lines.
    fn several_sets(&mut self, kind: u32) {
        let count = self.random.within(2..=3);
        let sets: Vec<String> = (kind..kind + count)
            .map(|kind| self.any_set(kind % 5).concat())
            .collect();
        let empty = [0, 1, 0].map(|least| least + self.random.pick(&[0, 0, 1, 2, 7]));
        let mut input = with_empty_lines(&sets, empty);
        if self.random.once_in(4) {
            // The last line may have no newline.
            input.pop();
        }
        self.set(input.as_bytes());
    }

    /// A set alone, and one twice, with few and with many empty lines in each place.
    fn empty_lines_around(&mut self, set: &str) {
        let once = [set.to_string()];
        let twice = [set.to_string(), set.to_string()];
        for lines in [1, 2, 3, 100, 5_000, 70_000] {
            self.set(with_empty_lines(&once, [lines, 0, 0]).as_bytes());
            self.set(with_empty_lines(&once, [0, 0, lines]).as_bytes());
            self.set(with_empty_lines(&twice, [0, lines, 0]).as_bytes());
        }
        self.set(with_empty_lines(&twice, [2, 3, 4]).as_bytes());
        // No set has so few lines.
        let start: String = set.split_inclusive('\n').take(20).collect();
        for lines in [1, 3, 100] {
            let input = "\n".repeat(lines) + &start;
            self.set(input.as_bytes());
            self.set((input + "\n").as_bytes());
        }
    }

    /// No set at all, but empty lines, so many of them that their number takes more than 16 bits, and
    /// lines that look empty.
    fn empty_lines_alone(&mut self) {
        for lines in [3, 4, 34] {
            self.all("\n".repeat(lines).as_bytes());
        }
        for lines in [4_095, 4_096, 4_097, 65_535, 65_536, 65_537, 1_234_567] {
            self.set("\n".repeat(lines).as_bytes());
        }
        self.set(("\n".repeat(123_456) + "0\n").as_bytes());
        for input in [
            "\r",
            "\r\n",
            "\n\r",
            "\n\r\n",
            "\n\n\r\n\n",
            "\n ",
            "\n0",
            "\n\0\n",
        ] {
            self.set(input.as_bytes());
        }
    }

    /// A second set that ends behind any of its lines, with its newline or without, or in one.
    fn broken_off(&mut self, first: &str, second: &[String]) {
        for place in 0..=second.len() {
            let input = [first, "\n", &second[..place].concat()].concat();
            self.every_set(input.as_bytes());
            self.every_set(input.trim_end_matches('\n').as_bytes());
        }
        for place in [0, 1, 5, second.len() - 1] {
            let part = &second[place][..second[place].len() / 2];
            let input = [first, "\n\n", &second[..place].concat(), part].concat();
            self.set(input.as_bytes());
        }
    }

    /// An empty line behind any line of a set, the first of a file or another one.
    fn empty_lines_inside(&mut self, first: &str, second: &[String]) {
        for place in 1..second.len() {
            let (before, after) = second.split_at(place);
            let set = [&before.concat(), "\n", &after.concat()].concat();
            self.every_set(set.as_bytes());
        }
        for place in [1, 2, 7, second.len() - 1] {
            let (before, after) = second.split_at(place);
            for lines in ["\n", "\n\n", "\r\n"] {
                let set = [&before.concat(), lines, &after.concat()].concat();
                self.every_set([first, "\n", &set].concat().as_bytes());
            }
        }
    }

    /// A second set with a refused line.
    fn refused_behind(&mut self, first: &str, second: &[String]) {
        let before = [first, "\n"].concat();
        for line in refused_designs() {
            self.with_line_behind(&before, second, 0, &line);
        }
        let limit = sum_limit(&SHORT);
        for (place, entry) in [(1, limit), (2, limit + 1), (4, (1 << 24) - 1)] {
            let line = ended(initial_line(place - 1, entry));
            self.with_line_behind(&before, second, place, &line);
        }
        let places = [0, 3, 12, second.len() - 1];
        for (number, place) in places.into_iter().enumerate() {
            // Not every one in every place.
            for line in ill_formed(&second[place]).iter().skip(number).step_by(4) {
                self.with_line_behind(&before, second, place, line);
            }
        }
        for (place, line) in [(0, 1), (1, 2), (2, 1), (5, 6), (21, 0), (21, 20)] {
            self.with_line_behind(&before, second, place, &second[line]);
        }
        for place in [0, 1, 21] {
            self.with_line_behind(&before, second, place, &ended(sealed(&[4, 0, 20])));
            self.with_line_behind(&before, second, place, "\n");
        }
    }

    /// A line in the place of another one of the second set.
    fn with_line_behind(&mut self, before: &str, second: &[String], place: usize, line: &str) {
        let (start, rest) = (second[..place].concat(), second[place + 1..].concat());
        self.every_set([before, &start, line, &rest].concat().as_bytes());
    }

    /// What is not an empty line where one is expected, and what is no set behind one.
    fn not_one_empty_line_between(&mut self, first: &str, second: &[String]) {
        let last = first.lines().last().unwrap_or_default();
        let second = second.concat();
        let long = "0".repeat(70_000) + "\n";
        for between in ["", "\r\n", " \n", "0\n", "\0\n", "\r", &long] {
            self.set([first, between, &second].concat().as_bytes());
        }
        for between in ["\r\n", "\n \n", "\n0\n\n", &long] {
            self.set([first, "\n", between, &second].concat().as_bytes());
        }
        self.set([first, last].concat().as_bytes());
        self.set([first.trim_end(), &second].concat().as_bytes());
        let ends = second.replace('\n', "\r\n");
        self.set([first, "\n", &ends].concat().as_bytes());
        self.set([&ends, "\r\n", &ends].concat().as_bytes());
    }

    /// What is written for several sets, split at empty lines, reads back to each of them.
    fn records_split(&mut self) {
        let sets = [3, 0, 2].map(|kind| self.any_set(kind));
        let input = with_empty_lines(&sets.each_ref().map(|set| set.concat()), [1, 2, 3]);
        let printed = self.compare(SET_TO_HEX, input.as_bytes());
        let files: Vec<&str> = printed.split("\n\n").collect();
        assert_eq!(files.len(), sets.len(), "files of records");
        for (set, file) in sets.iter().zip(files) {
            let input = [&set[0], file].concat();
            let lines = self.compare(RECORDS_PROGRAM, input.as_bytes());
            assert_eq!(lines, set.concat(), "a set split from others");
        }
    }

    /// Sets of very different lengths, so that a shorter one follows a longer one, whose entries may
    /// be left in the tables.
    fn larger_and_smaller(&mut self) {
        let small = self.set_of(&SMALLEST).concat();
        let [first, second] = LARGEST.map(|cut| self.set_of(&largest(3, (14, 6), cut)).concat());
        let sets = [small.clone(), first, small.clone(), second, small];
        self.every_set(with_empty_lines(&sets, [0, 1, 0]).as_bytes());
        self.words(sets[1..].concat().as_bytes());
    }

    /// So many sets that what is printed for them takes more than a block of output.
    fn many_sets(&mut self) {
        let sets: Vec<String> = (0..16).map(|_| self.set_of(&SHORT).concat()).collect();
        for count in [600, 8_000] {
            let sets: Vec<String> = sets.iter().cycle().take(count).cloned().collect();
            self.every_set_on_file(&with_empty_lines(&sets, [0, 1, 0]));
        }
    }
}
