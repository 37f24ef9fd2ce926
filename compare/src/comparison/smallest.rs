//! The smallest cut for given widths.

use super::calls::Search;
use super::Comparison;
use crate::refusal::number_of;
use crate::types::KINDS;
use crate::wide::reference::{quick_smallest, size, smallest};

/// The version that tries every design, and the quick one.
const SEARCHES: [(&str, Search); 2] = [("by trial", smallest), ("by search", quick_smallest)];

/// Widths for which trying every design takes long, and the kinds and precisions for which that is
/// done all the same. With w 13, unlike below, an a of 1 to alpha can be too large.
const WIDER: [(u32, &[u32], &[u32]); 3] = [
    (10, &[0, 1, 2, 3, 4], &[6, 7, 11, 16]),
    (11, &[0, 2], &[9]),
    (13, &[0], &[16]),
];

/// An accepted one and others that are not; some of these would be if not all of their bits were
/// read.
const TRIED_KINDS: [u32; 7] = [3, 5, 6, 256, 1 << 16, 1 << 31, u32::MAX];
const WIDTHS: [u32; 8] = [8, 0, 5, 17, 256 + 8, (1 << 16) + 8, (1 << 31) + 8, u32::MAX];

impl Comparison {
    /// Every design tried, for words of few bits.
    pub fn smallest_cuts(&mut self) {
        let [trial, _] = SEARCHES;
        for w in 6..=9 {
            self.all_cuts(trial, w);
        }
        for (w, kinds, precisions) in WIDER {
            for &kind in kinds {
                for &q in precisions {
                    self.smallest_cut(trial, kind, w, q);
                }
            }
        }
    }

    /// The quick version, for words of all widths.
    pub fn smallest_cuts_of_all_widths(&mut self) {
        let [_, quick] = SEARCHES;
        for w in 6..=16 {
            self.all_cuts(quick, w);
        }
    }

    fn all_cuts(&mut self, search: (&str, Search), w: u32) {
        for kind in KINDS {
            for q in 6..=16 {
                self.smallest_cut(search, kind, w, q);
            }
        }
    }

    /// The smallest cut, and its legality, budget and size. The bits that both searches tell are
    /// the size of the tables when they are filled.
    fn smallest_cut(&mut self, (name, search): (&str, Search), kind: u32, w: u32, q: u32) {
        match self.calls.smallest(search, kind, w, q) {
            Ok((d, bits)) => {
                self.calls.design(&d);
                assert_eq!(size(&d), Ok(bits), "{d:?}");
                self.note_cut(&format!("{name}: kind {kind}"));
                self.note_cut(&format!("{name}: g {}", d.g));
                self.note_cut(&format!("{name}: m {}", d.m));
            }
            Err(refusal) => self.note_cut(&format!("{name}: refused {refusal}")),
        }
    }

    fn note_cut(&mut self, what: &str) {
        self.note(&format!("smallest cut {what}"));
    }

    /// One, two or all three of kind, w and q wrong.
    pub fn searches_refused(&mut self) {
        for kind in TRIED_KINDS {
            for w in WIDTHS {
                for q in WIDTHS {
                    let wrong = [kind != TRIED_KINDS[0], w != WIDTHS[0], q != WIDTHS[0]];
                    let wrong = wrong.into_iter().filter(|&wrong| wrong).count();
                    for (_, search) in SEARCHES {
                        let answer = self.calls.smallest(search, kind, w, q);
                        let refusal = number_of(&answer);
                        self.note_cut(&format!("with {wrong} wrong: {refusal}"));
                    }
                }
            }
        }
    }
}
