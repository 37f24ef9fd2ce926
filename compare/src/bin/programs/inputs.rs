//! The inputs that the programs are run on.

use std::ops::RangeInclusive;

use super::expected::lines_of;
use super::{Runs, LINE_PROGRAMS};
use compare::by_hand::{design_line, initial_line, sealed, text};
use compare::random::{is_admitted, largest, lengths, sum_limit, LARGEST};
use compare::types::{Design, Tables, KINDS};

/// Empty lines; G, G with (2,3) and G behind an empty line; two of the longest reports that there
/// are, the second with the greatest budget.
const LINES: [&str; 9] = [
    "",
    "\n",
    "\n\n",
    "\r\n",
    "010008080405010303DF",
    "010008080405010203E0\n",
    "\n010008080405010303DF\n",
    "01001010040403040804030101BF\n",
    "010010100402040108010401010101C3\n",
];

/// The design with the fewest entries there are.
pub const SMALLEST: Design = Design::cut([0, 6, 6, 2, 2], &[[1, 1]; 4]);

/// An admitted design with as few.
pub const SHORT: Design = Design::cut([2, 6, 6, 3, 3], &[[1, 1], [1, 2]]);

/// A design with few entries and the most words.
pub const FEW_ENTRIES: Design = Design::new([1, 16, 14, 6, 2, 2], [[1, 7]; 4]);

/// What may stand behind a line that is well-formed without it: a character, two, and so many that no
/// program should wait for the last.
pub fn behind() -> Vec<String> {
    let mut texts = ["0", "00", "\r", " ", "\0", " \t", "é"]
        .map(String::from)
        .to_vec();
    texts.push("0".repeat(100));
    texts.push("00".repeat(100_000));
    texts
}

/// Words with other characters, and numbers at 2^32 and beyond: some are small modulo 2^32 or 2^64.
const ODD_WORDS: [&str; 16] = [
    "",
    "007",
    "-1",
    "+1",
    " 7",
    "7\r",
    "7\0",
    "/",
    ":",
    "٣",
    "1e3",
    "0x1",
    "4294967295",
    "4294967296",
    "42949672967",
    "18446744073709551623",
];

/// Words of many digits, one of them small.
pub fn long_words(digits: usize) -> [String; 2] {
    ["0".repeat(digits) + "7\n", "7".repeat(digits) + "\n"]
}

/// A range of words, one a line.
pub fn words(range: RangeInclusive<u32>) -> impl Iterator<Item = String> {
    range.map(|x| format!("{x}\n"))
}

/// The lines of a set as somebody may write them who knows no limit on initial entries: of one that
/// does not fit, its last 3 bytes.
fn unlimited_lines(d: &Design, tables: &Tables) -> Vec<String> {
    let mut limited = tables.clone();
    for entry in &mut limited.initial {
        *entry = (*entry).min(sum_limit(d) - 1);
    }
    let mut lines = lines_of(d, &limited);
    let entries = tables.initial.iter().take(lengths(d).0).enumerate();
    for (index, &entry) in entries.filter(|&(_, &entry)| entry >= sum_limit(d)) {
        lines[index + 1] = text(initial_line(index, entry)) + "\n";
    }
    lines
}

impl Runs {
    pub fn inputs(&mut self) {
        for input in LINES {
            self.all(input.as_bytes());
        }
        self.design_lines();
        self.lines_of_any_length();
        self.other_set(&SMALLEST);
        self.sets_of_one_sum();
        for kind in KINDS {
            self.sets(kind);
        }
        for (kind, cut) in [0, 2].into_iter().zip(LARGEST) {
            self.largest_set(&largest(kind, (14, 6), cut));
        }
        self.width_inputs();
        self.several_inputs();
        self.block_inputs();
        self.stepwise();
    }

    /// Sets of a kind: filled ones, one that nobody filled, and one with four tables.
    fn sets(&mut self, kind: u32) {
        for _ in 0..8 {
            let d = self.random.admitted(kind);
            self.filled_set(&d);
        }
        let d = self.random.legal(kind);
        self.other_set(&d);
        let d = self.four_tables(kind);
        self.filled_set(&d);
        self.longer_lines(&d);
        self.nothing_behind(&d);
        self.spoilt_files(kind);
    }

    /// Lines of designs of any sort, legal or not.
    fn design_lines(&mut self) {
        for _ in 0..120 {
            let d = self.random.any_design();
            let mut line = design_line(&d, d.m.min(5) as usize);
            line.push(b'\n');
            self.all(&line);
        }
    }

    /// Well-formed lines of every number of bytes up to one too many.
    fn lines_of_any_length(&mut self) {
        let mut body = [0; 16];
        body[0] = 1;
        for length in 0..=16 {
            self.all(&sealed(&body[..length]));
        }
    }

    /// An admitted design with four tables, whose line has 32 digits, the most there are.
    fn four_tables(&mut self, kind: u32) -> Design {
        let given = [Some(kind), None, None, None, None, Some(4)];
        loop {
            let d = self.random.design(given);
            if is_admitted(&d) {
                return d;
            }
        }
    }

    /// A filled set, every second one with some damage.
    fn filled_set(&mut self, d: &Design) {
        let mut tables = self.random.filled(d);
        if self.random.once_in(2) {
            self.random.damage(d, &mut tables);
        }
        self.set_and_words(d, &tables);
    }

    /// Nothing is read behind the one line that is asked for, nor is anything waited for.
    fn nothing_behind(&mut self, d: &Design) {
        let line = text(design_line(d, d.m as usize)) + "\n";
        for (name, _) in LINE_PROGRAMS {
            self.reads_only(name, &line, &line);
        }
    }

    /// A set that nobody filled, of a legal design, admitted or not.
    fn other_set(&mut self, d: &Design) {
        let tables = self.random.plausible(d);
        self.set_and_words(d, &tables);
    }

    /// A set alone, with words behind it, and with a damaged line.
    fn set_and_words(&mut self, d: &Design, tables: &Tables) {
        let mut lines = unlimited_lines(d, tables);
        self.all(lines[0].as_bytes());
        self.all(lines.concat().trim_end().as_bytes());
        self.file(d, tables);
        lines.extend(self.any_words(d.w));
        self.all(lines.concat().as_bytes());
        let place = self.random.place(lines.len());
        lines[place] = self.damaged(&lines[place]);
        self.all(lines.concat().as_bytes());
    }

    /// A set with characters behind one of its lines, which is well-formed without them: behind the
    /// first, and behind another.
    fn longer_lines(&mut self, d: &Design) {
        let tables = self.random.filled(d);
        let lines = lines_of(d, &tables);
        for text in behind() {
            let place = 1 + self.random.place(lines.len() - 1);
            for place in [0, place] {
                let mut longer = lines.clone();
                longer[place] = format!("{}{text}\n", lines[place].trim_end());
                self.set(longer.concat().as_bytes());
            }
            let line = lines[0].trim_end();
            self.line(format!("{line}{text}\n").as_bytes());
            self.line(format!("{line}{text}").as_bytes());
        }
    }

    /// Sets of 16 bits with the same sum for all words, at the ends of the range and beyond, so
    /// that all words land in one class; the initial entries of the last are those that lines refuse.
    fn sets_of_one_sum(&mut self) {
        let end = sum_limit(&FEW_ENTRIES);
        for (entry, offset) in [(0, 0), (1, -1), (end - 1, 0), (end - 1, 1), (end, 0)] {
            let tables = Tables::alike(lengths(&FEW_ENTRIES), entry, offset);
            self.set_and_words(&FEW_ENTRIES, &tables);
        }
    }

    /// A set with the most entries there are: made, cut off before its last line, with another
    /// last line, and with every word behind it.
    fn largest_set(&mut self, d: &Design) {
        assert!(is_admitted(d), "{d:?} is not admitted");
        let tables = self.random.filled(d);
        let mut lines = lines_of(d, &tables);
        self.line(lines[0].as_bytes());
        let last = lines.pop().unwrap_or_default();
        self.set(lines.concat().as_bytes());
        self.set((lines.concat() + &lines[0]).as_bytes());
        lines.push(last);
        self.file(d, &tables);
        lines.extend(words(0..=1 << d.w));
        lines.extend(long_words(70_000));
        self.set(lines.concat().as_bytes());
        self.last_entries_changed(d, tables);
    }

    /// The last entries of both sorts as far from the others as lines carry them, so that the last
    /// words have sums out of range; then with an initial entry that only records carry.
    fn last_entries_changed(&mut self, d: &Design, mut tables: Tables) {
        let (initial, offsets) = lengths(d);
        tables.offsets[offsets - 1] = -(1 << 23);
        let end = 1 << d.w;
        for entry in [sum_limit(d) - 1, (1 << 24) - 1] {
            tables.initial[initial - 1] = entry;
            let mut lines = unlimited_lines(d, &tables);
            lines.extend(words(end - 100..=end));
            self.set(lines.concat().as_bytes());
            self.file(d, &tables);
        }
    }

    /// Words of all sorts.
    fn any_words(&mut self, w: u32) -> Vec<String> {
        let mut words = vec![];
        for text in ODD_WORDS {
            words.push(format!("{text}\n"));
            words.push(format!("{}\n", self.random.good_word(w)));
            words.push(format!("{}\n", self.random.bad_word(w)));
        }
        words.extend(long_words(100));
        // The last line may have no newline.
        if self.random.once_in(2) {
            words.push("7".into());
        }
        words
    }

    pub fn damaged(&mut self, line: &str) -> String {
        let mut text = line.to_string();
        match self.random.within(0..=5) {
            0 => String::new(),
            1 => "\n".into(),
            2 => text.to_lowercase() + "\n",
            3 => line.repeat(2),
            4 => text.replacen(self.random.pick(&['0', '1', '2', 'F']), "3", 1),
            _ => {
                text.insert(0, '0');
                text
            }
        }
    }
}
