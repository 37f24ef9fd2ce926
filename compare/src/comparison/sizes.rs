//! Sizes, and the widths that tables come to.

use super::Comparison;
use crate::random::lengths;
use crate::types::{Design, Tables, KINDS};
use crate::wide::reference::{every_legal, fill};

/// The greatest offset of each table that the fill writes. The least is -1 minus that one.
fn greatest_offsets(d: &Design) -> Vec<u32> {
    let mut tables = Tables::alike(lengths(d), 0, 0);
    fill(d, &mut tables).expect("an admitted design");
    let mut rest = &tables.offsets[..];
    let greatest = |[a, b]: &[u32; 2]| {
        let (table, behind) = rest.split_at(1 << (a + b));
        rest = behind;
        let greatest = table.iter().max().copied().unwrap_or(0);
        u32::try_from(greatest).expect("each segment has offsets of either sign")
    };
    d.read_pairs().iter().map(greatest).collect()
}

impl Comparison {
    /// Every legal design with words of 6 or 7 bits, admitted or not.
    pub fn sizes_of_narrow(&mut self) {
        for w in 6..=7 {
            for kind in KINDS {
                for q in 6..=16 {
                    every_legal(kind, w, q, |d, _| self.size_of(d));
                }
            }
        }
    }

    /// Designs of words of all widths, and the ones with the most entries.
    pub fn sizes_of_all_widths(&mut self) {
        for kind in KINDS {
            for w in 6..=16 {
                for _ in 0..200 {
                    let given = [Some(kind), Some(w), None, None, None, None];
                    let d = self.random.legal_with(given);
                    self.size_of(&d);
                }
            }
            for _ in 0..20 {
                let d = self.random.largest(kind);
                self.size_of(&d);
            }
        }
    }

    fn size_of(&mut self, d: &Design) {
        let Design { kind, w, m, .. } = d;
        match self.calls.size(d) {
            Ok(_) => {
                self.note_size(&format!("kind {kind}"));
                self.note_size(&format!("w {w}"));
                self.note_size(&format!("m {m}"));
                self.note_widths(&greatest_offsets(d));
            }
            Err(refusal) => self.note_size(&format!("kind {kind}, refused {refusal}")),
        }
    }

    /// How wide the tables of a design are, by the greatest offset of each: up to 2^(n-1) - 1 it
    /// takes n bits.
    fn note_widths(&mut self, greatest: &[u32]) {
        let widths: Vec<u32> = greatest.iter().map(|t| 33 - t.leading_zeros()).collect();
        for (t, width) in greatest.iter().zip(&widths) {
            self.note_size(&format!("table of width {width}"));
            if *t > 1 && t.is_power_of_two() {
                self.note_size("greatest offset just too wide for a bit less");
            }
            if *t > 1 && (t + 1).is_power_of_two() {
                self.note_size("greatest offset just not too wide");
            }
        }
        let mut different = widths;
        different.sort();
        different.dedup();
        self.note_size(&format!("{} different widths", different.len()));
    }

    fn note_size(&mut self, what: &str) {
        self.note(&format!("size, {what}"));
    }
}
