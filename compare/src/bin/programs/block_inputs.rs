//! Inputs and outputs longer than the blocks that programs may read and write at once. Empty lines
//! before a set move all that follows to any place.

use super::expected::lines_of;
use super::inputs::{long_words, words, FEW_ENTRIES, SHORT, SMALLEST};
use super::record_inputs::{file_of, with_ends, zeros};
use super::several_inputs::with_empty_lines;
use super::{run_on_file, Runs, FILE_PROGRAMS, RECORDS_PROGRAM, WORDS_PROGRAM};
use compare::types::{Design, G};

/// The lengths of blocks, each a multiple of the others there may be.
pub const BLOCKS: [usize; 2] = [4_096, 65_536];

/// A design of 1,024 entries.
fn medium(kind: u32) -> Design {
    Design::cut([kind, 12, 10, 6, 8], &[[6, 2], [7, 2]])
}

/// A design of 12,288 entries, whose records take more than a block of each length.
const LONG: Design = Design::cut([2, 16, 14, 6, 13], &[[9, 3]]);

/// The text with empty lines before it, so that it ends where it is asked to.
pub fn ending_at(end: usize, text: &str) -> String {
    "\n".repeat(end - text.len()) + text
}

/// Words for G whose answers, 4 bytes for a word and 11 for what is none, have a length.
fn answered_by(length: usize) -> String {
    let others = 3 * length % 4;
    "0\n".repeat((length - 11 * others) / 4) + &"x\n".repeat(others)
}

/// The lines, so many of them with a carriage return before their newline.
fn with_returns(lines: &[String], returns: usize) -> String {
    let (first, rest) = lines.split_at(returns);
    with_ends(first, "\r\n") + &with_ends(rest, "\n")
}

/// The numbers around a length.
fn around(length: usize, before: usize, behind: usize) -> std::ops::RangeInclusive<usize> {
    length - before..=length + behind
}

impl Runs {
    pub fn block_inputs(&mut self) {
        self.lines_across_blocks();
        self.words_across_blocks();
        self.records_across_blocks();
        for block in BLOCKS {
            self.first_lines_across(block);
            self.sets_that_end_at(block);
            self.inputs_that_end_at(block);
            self.answers_that_end_at(block);
        }
    }

    /// The programs that go through a file of sets, on one that is no pipe.
    pub fn every_set_on_file(&mut self, input: &str) {
        for program in FILE_PROGRAMS {
            self.compare_run(run_on_file, program, input.as_bytes());
        }
    }

    fn words_on_file(&mut self, input: &str) {
        self.compare_run(run_on_file, WORDS_PROGRAM, input.as_bytes());
    }

    /// Lines of every sort, cut by the end of a block behind each of their characters.
    fn lines_across_blocks(&mut self) {
        let sets = [1, 3, 0, 4].map(|kind| self.set_of(&medium(kind)).concat());
        for before in 0..=17 {
            let input = with_empty_lines(&sets, [before, 1, 0]);
            self.every_set_on_file(&input);
            self.words_on_file(&input);
        }
    }

    /// Words, likewise.
    fn words_across_blocks(&mut self) {
        let tables = self.random.plausible(&FEW_ENTRIES);
        let set = lines_of(&FEW_ENTRIES, &tables).concat();
        let words = words(0..=1 << FEW_ENTRIES.w).chain(long_words(5_000));
        let words: String = words.chain(long_words(70_000)).collect();
        for before in 0..=6 {
            self.words_on_file(&["\n".repeat(before).as_str(), &set, &words].concat());
        }
    }

    /// Records with their two line ends, likewise: each carriage return moves those behind it. Then
    /// without the end record, up to the end of a block.
    fn records_across_blocks(&mut self) {
        let tables = self.random.filled(&LONG);
        let lines = file_of(&LONG, &tables);
        for returns in 0..=46 {
            self.records_on_file(&with_returns(&lines, returns));
        }
        let unfinished = &lines[..lines.len() - 1];
        let length = with_returns(unfinished, 0).len();
        let exact = length.next_multiple_of(BLOCKS[0]) - length;
        for returns in around(exact, 1, 1) {
            self.records_on_file(&with_returns(unfinished, returns));
        }
        for block in BLOCKS {
            self.other_records_across(&lines, block);
        }
    }

    fn records_on_file(&mut self, input: &str) {
        self.compare_run(run_on_file, RECORDS_PROGRAM, input.as_bytes());
    }

    /// Cut by the end of a block: a record of the most bytes there are, one with a digit too many, and
    /// a line with a carriage return that does not end it. Only the first is well-formed.
    fn other_records_across(&mut self, lines: &[String], block: usize) {
        let mut changed = lines.to_vec();
        // A line has 44 characters, its newline included, and the longest one 521.
        let place = block / 44 - 5;
        for text in [zeros(255), zeros(255) + "0"] {
            changed[place] = text;
            self.records_on_file(&with_returns(&changed, 0));
        }
        let mut input = with_returns(lines, 0);
        input.insert(block - 1, '\r');
        self.records_on_file(&input);
    }

    /// A set whose first line, which has as many digits as there may be, is cut by the end of a block.
    fn first_lines_across(&mut self, block: usize) {
        let set = self.set_of(&SMALLEST).concat();
        for before in [1, 16, 31, 32, 33] {
            let input = "\n".repeat(block - before) + &set;
            self.every_set_on_file(&input);
            self.words_on_file(&input);
        }
    }

    /// A set with its end about that of a block, and another one behind an empty line.
    fn sets_that_end_at(&mut self, block: usize) {
        let [first, second] = [(); 2].map(|()| self.set_of(&SHORT).concat());
        for end in around(block, 4, 10) {
            let input = [&ending_at(end, &first), "\n", &second].concat();
            self.every_set_on_file(&input);
            self.words_on_file(&input);
        }
    }

    /// An input that ends about where a block does: with a set, with or without the newline, in a set,
    /// with empty lines, and with a word.
    fn inputs_that_end_at(&mut self, block: usize) {
        let lines = self.set_of(&SHORT);
        let set = lines.concat();
        let part = lines[..lines.len() - 1].concat();
        for end in around(block, 1, 1) {
            for text in [&set, set.trim_end(), &part, part.trim_end(), ""] {
                self.every_set_on_file(&ending_at(end, text));
            }
            for word in ["7\n", "7", "63\n", "\n"] {
                self.words_on_file(&ending_at(end, &[&set, word].concat()));
            }
            let behind = "\n".repeat(end - set.len());
            self.every_set_on_file(&[set.clone(), behind].concat());
        }
    }

    /// Words whose answers end about where a block of output does.
    fn answers_that_end_at(&mut self, block: usize) {
        let set = lines_of(&G, &self.random.filled(&G)).concat();
        for length in around(block, 5, 5) {
            let input = [set.as_str(), &answered_by(length)].concat();
            let printed = self.compare(WORDS_PROGRAM, input.as_bytes());
            assert_eq!(printed.len(), length, "what is printed for words of G");
        }
    }
}
