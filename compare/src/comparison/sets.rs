//! Values, designs, filled sets, words, batches, verdicts and counts.

use super::Comparison;
use crate::random::{entries_of, lengths, number, sum_limit, HUGE, NUMBERS};
use crate::types::{Design, Tables, G, KINDS};
use crate::wide::reference;

/// Designs whose budget is exactly the limit, one of each kind.
const AT_LIMIT: [Design; 5] = [
    Design::cut([0, 12, 9, 3, 7], &[[4, 2], [7, 1], [6, 1], [3, 1]]),
    Design::cut([1, 15, 11, 3, 5], &[[2, 1], [5, 1], [4, 2], [5, 6]]),
    Design::cut([2, 14, 8, 3, 6], &[[3, 1], [4, 2], [2, 1], [1, 4]]),
    Design::cut([3, 12, 9, 3, 7], &[[7, 1], [7, 1], [2, 1], [2, 2]]),
    Design::cut([4, 11, 13, 4, 7], &[[3, 1], [7, 1], [4, 1], [5, 1]]),
];

/// Designs whose budget is one less.
const BELOW_LIMIT: [Design; 5] = [
    Design::cut([0, 15, 8, 3, 7], &[[7, 5], [6, 1], [1, 1], [3, 1]]),
    Design::cut([1, 12, 6, 3, 3], &[[1, 1], [1, 3], [3, 4], [1, 1]]),
    Design::cut([2, 14, 10, 3, 5], &[[2, 3], [4, 1], [1, 1], [5, 4]]),
    Design::cut([3, 14, 9, 3, 5], &[[3, 3], [5, 3], [4, 2], [5, 1]]),
    Design::cut([4, 14, 11, 3, 7], &[[2, 3], [1, 1], [2, 1], [7, 2]]),
];

/// Ends the program if tables lent for reading were changed.
pub fn stayed(d: &Design, tables: &Tables, before: &Tables) {
    if tables != before {
        println!("tables lent for reading were changed: {d:?}");
        std::process::exit(1);
    }
}

impl Comparison {
    /// Budgets at the limit, where a design is not admitted, and one below, where it is.
    pub fn budgets_at_limit(&mut self) {
        for d in AT_LIMIT.iter().chain(&BELOW_LIMIT) {
            let left = reference::budget(d).map(|budget| (1 << (d.g + 17)) - budget);
            match left {
                Ok(0) => self.note("budget equal to the limit"),
                Ok(1) => self.note("budget one below the limit"),
                _ => {}
            }
            self.filled_set(d);
            self.report_of(d);
        }
    }

    /// All kinds at all widths and precisions, those beside the limits included.
    pub fn values(&mut self) {
        for kind in 0..=5 {
            for w in 5..=17 {
                for (q, g) in (5..=17).flat_map(|q| (1..=7).map(move |g| (q, g))) {
                    let x = self.random.good_word(w);
                    self.calls.value(kind, w, q, g, x);
                    let x = self.random.bad_word(w);
                    self.calls.value(kind, w, q, g, x);
                }
            }
        }
        self.huge_values();
        self.all_values();
    }

    /// Every word of the least and of the greatest width.
    fn all_values(&mut self) {
        for kind in KINDS {
            for (w, q, g) in [(6, 6, 2), (8, 8, 4), (10, 12, 3), (16, 16, 4), (16, 6, 2)] {
                for x in 0..=1 << w {
                    self.calls.value(kind, w, q, g, x);
                }
            }
        }
    }

    /// Numbers that would wrap in a sum, and values one at a time past a limit.
    fn huge_values(&mut self) {
        for _ in 0..10_000 {
            let d = self.random.any_design();
            let x = match self.random.once_in(4) {
                true => self.random.bad_word(d.w),
                false => self.random.good_word(d.w),
            };
            self.calls.value(d.kind, d.w, d.q, d.g, x);
        }
    }

    /// Legality, budgets and sizes.
    pub fn designs(&mut self) {
        for _ in 0..30_000 {
            let d = self.random.any_design();
            self.calls.design(&d);
        }
        for _ in 0..5_000 {
            let d = self.random.at_limit();
            self.calls.design(&d);
        }
        for huge in HUGE {
            self.huge_designs(huge);
        }
    }

    /// One number huge in a legal design: each of them in turn.
    fn huge_designs(&mut self, huge: u32) {
        for place in 0..6 {
            let mut given = [None; 6];
            given[place] = Some(huge);
            for _ in 0..50 {
                let d = self.random.design(given);
                self.calls.design(&d);
            }
        }
        for kind in KINDS {
            for place in 6..NUMBERS {
                let mut d = self.random.legal(kind);
                *number(&mut d, place) = huge;
                self.calls.design(&d);
            }
        }
    }

    /// Fills of designs of any sort into tables of any length.
    pub fn fills(&mut self) {
        for _ in 0..20_000 {
            let d = self.random.any_design();
            let tables = self.random.room(&d);
            let _ = self.calls.fill(&d, &tables);
        }
    }

    /// Admitted designs: filled, evaluated, checked, damaged and checked again.
    pub fn filled_sets(&mut self) {
        for kind in KINDS {
            for _ in 0..300 {
                let d = self.random.admitted(kind);
                self.filled_set(&d);
            }
            for _ in 0..4 {
                let d = self.random.largest(kind);
                self.filled_set(&d);
            }
        }
    }

    fn filled_set(&mut self, d: &Design) {
        self.calls.design(d);
        let before = self.random.filled(d);
        let tails = self.random.tables(before.lengths());
        let Ok(tables) = self.calls.fill(d, &tails) else {
            return;
        };
        self.examine(d, &tables);
        for _ in 0..4 {
            let mut damaged = tables.clone();
            self.random.damage(d, &mut damaged);
            self.examine(d, &damaged);
        }
    }

    /// Tables that nobody filled, for designs of any sort.
    pub fn other_sets(&mut self) {
        for _ in 0..6_000 {
            let d = self.random.any_design();
            let tables = match self.random.within(0..=2) {
                0 => self.random.plausible(&d),
                1 => self.random.filled(&d),
                _ => self.random.room(&d),
            };
            self.examine(&d, &tables);
        }
    }

    /// Words, batches, the verdict and the counts for given tables, which must stay as they are.
    fn examine(&mut self, d: &Design, tables: &Tables) {
        let before = tables.clone();
        let _ = self.calls.check_and_count(d, tables);
        self.words(d, tables);
        for _ in 0..4 {
            self.batch(d, tables);
        }
        stayed(d, tables, &before);
    }

    /// All words now and then for small widths, else some; the next word and huge ones.
    fn words(&mut self, d: &Design, tables: &Tables) {
        if d.w <= 8 && self.random.once_in(16) {
            for x in 0..=1 << d.w {
                self.calls.word(d, tables, x);
            }
        }
        for _ in 0..6 {
            let x = self.random.good_word(d.w);
            self.calls.word(d, tables, x);
        }
        for _ in 0..2 {
            let x = self.random.bad_word(d.w);
            self.calls.word(d, tables, x);
        }
    }

    /// A batch: empty, short or longer than the set, with no, one or two bad words, and an output
    /// that is too short by one, exact or longer.
    fn batch(&mut self, d: &Design, tables: &Tables) {
        let length = match self.random.within(0..=9) {
            0 => 0,
            1 => 1,
            2 if d.w <= 10 => entries_of(d) + self.random.place(4) - 1,
            _ => self.random.place(40),
        };
        let mut words: Vec<u32> = (0..length).map(|_| self.random.good_word(d.w)).collect();
        for _ in 0..self.random.pick(&[0, 0, 0, 1, 2]) {
            if length > 0 {
                let place = self.random.place(length);
                words[place] = self.random.bad_word(d.w);
            }
        }
        let room = match self.random.within(0..=5) {
            0 => length.saturating_sub(1),
            1 => 0,
            2 | 3 => length,
            _ => length + self.random.place(8),
        };
        let output: Vec<u32> = (0..room).map(|_| self.random.word()).collect();
        self.calls.batch(d, tables, &words, &output);
    }

    /// Batches of all words in turn, of filled sets and of sets with a sum out of range.
    pub fn long_batches(&mut self) {
        for kind in KINDS {
            for _ in 0..40 {
                let d = self.random.admitted(kind);
                let mut tables = self.random.filled(&d);
                if self.random.once_in(2) {
                    self.random.damage(&d, &mut tables);
                }
                self.long_batch(&d, &tables);
            }
        }
    }

    fn long_batch(&mut self, d: &Design, tables: &Tables) {
        let all = (0..1 << d.w).cycle();
        let mut words: Vec<u32> = all.take((1 << d.w) + entries_of(d)).collect();
        let output: Vec<u32> = (0..words.len() + 3).map(|_| self.random.word()).collect();
        self.calls.batch(d, tables, &words, &output);
        let place = self.random.place(words.len());
        words[place] = self.random.bad_word(d.w);
        self.calls.batch(d, tables, &words, &output);
    }

    /// Sets whose lowest or highest sum lies at an end of the range or next to it, and sets whose
    /// initial entries are just as far from an end as all offsets together can reach, or one less.
    pub fn batches_at_range_ends(&mut self) {
        for round in 0..40 {
            let d = self.random.small(round % 5);
            let size = self.random.within(1..=500);
            let (reach, limit) = (d.m * size, sum_limit(&d));
            let near = [0, size, reach, limit - reach, limit - size, limit];
            for entry in near
                .into_iter()
                .flat_map(|n: u32| n.saturating_sub(2)..=n + 1)
            {
                let (initial, offsets) = lengths(&d);
                let ends = [-(size as i32), size as i32 - 1, 0];
                let initial = vec![entry; initial];
                let offsets = (0..offsets).map(|_| self.random.pick(&ends)).collect();
                self.long_batch(&d, &Tables { initial, offsets });
            }
        }
    }

    /// The document's own example, exhaustively: each initial entry of G within 64 of its own.
    pub fn example(&mut self) {
        for kind in KINDS {
            let d = Design { kind, ..G };
            let mut tables = Tables::alike(lengths(&d), 0, 0);
            if reference::fill(&d, &mut tables).is_err() {
                continue;
            }
            for (place, change) in (0..32).flat_map(|place| (-64..=64).map(move |n| (place, n))) {
                let mut changed = tables.clone();
                changed.initial[place] = changed.initial[place].wrapping_add_signed(change);
                let _ = self.calls.check_and_count(&d, &changed);
            }
        }
    }
}
