//! Words on both sides of where one class of the counts ends and the next begins.

use super::Comparison;
use crate::by_hand::{lone_class, lone_word};
use crate::random::sum_limit;
use crate::types::{Design, Tables, Value, KINDS};
use crate::wide::reference;

/// Kind, w and q of all designs with a word whose exact value lies in the middle of two output
/// words. It is an odd number n of half units there. For roots that means
/// n²·2^w = c·X·4^(q+1), so that c·2^(2q+2) divides 2^w; for the other kinds n would divide a
/// power of 2.
const WITH_HALVES: [(u32, u32, u32); 6] = [
    (1, 14, 6),
    (1, 15, 6),
    (1, 16, 6),
    (1, 16, 7),
    (2, 15, 6),
    (2, 16, 6),
];

/// The exact value at x in half output units, rounded down, and whether that changed nothing.
fn half_units(d: &Design, x: u32) -> (i64, bool) {
    let value = reference::value(d.kind, d.w, d.q, d.g, x);
    value.map_or((0, false), |Value { floor, whole }| {
        let half_unit = 1 << (d.g - 1);
        (floor / half_unit, whole && floor % half_unit == 0)
    })
}

/// The words whose exact value is a whole number of half units.
fn exact_words(d: &Design) -> impl Iterator<Item = u32> + '_ {
    (0..1 << d.w).filter(|&x| half_units(d, x).1)
}

/// A distance from the exact value that is a whole number of half units, if it is of interest.
fn named(half_units: i64) -> Option<&'static str> {
    match half_units {
        -2 => Some("a whole unit too low"),
        -1 => Some("half a unit too low"),
        0 => Some("exact"),
        1 => Some("half a unit too high"),
        2 => Some("a whole unit too high"),
        _ => None,
    }
}

impl Comparison {
    /// Designs of all kinds: words at both ends, some others and those with a whole number of
    /// half units.
    pub fn single_words(&mut self) {
        for kind in KINDS {
            for _ in 0..40 {
                let d = self.random.small(kind);
                self.single_words_of(&d);
                exact_words(&d).for_each(|x| self.around_exact(&d, x));
            }
            for _ in 0..3 {
                let d = self.random.largest(kind);
                self.single_words_of(&d);
            }
        }
    }

    fn single_words_of(&mut self, d: &Design) {
        let inner = [(); 2].map(|()| self.random.good_word(d.w));
        for x in [0, (1 << d.w) - 1].into_iter().chain(inner) {
            self.around_exact(d, x);
            self.ends_of_range(d, x);
        }
    }

    /// Every word in the middle of two output words, by a design of its own.
    pub fn exact_halves(&mut self) {
        for (kind, w, q) in WITH_HALVES {
            let d = self.legal_with(kind, w, q);
            let halves = exact_words(&d).filter(|&x| half_units(&d, x).0 % 2 == 1);
            for x in halves {
                let d = self.legal_with(kind, w, q);
                self.around_exact(&d, x);
            }
        }
    }

    fn legal_with(&mut self, kind: u32, w: u32, q: u32) -> Design {
        let given = [Some(kind), Some(w), Some(q), None, None, None];
        self.random.legal_with(given)
    }

    /// All kinds at all widths and precisions: the words next to the exact value of every input
    /// where an initial entry has two, of some inputs where it has more.
    pub fn words_next_to_exact(&mut self) {
        for kind in KINDS {
            for (w, q) in (6..=16).flat_map(|w| (6..=16).map(move |q| (w, q))) {
                let alpha = (w - 1).min(13);
                let g = self.random.within(2..=(20 - q).min(6));
                let d = Design::new([kind, w, q, g, alpha, 1], [[1, w - alpha]; 4]);
                let rest = self.random.good_word(w - alpha);
                self.next_to_exact(&d, rest);
                self.next_to_exact(&d, rest ^ 1);
            }
        }
    }

    /// Sets whose words lie next to the exact value wherever x ends in the given bits: just above
    /// it, just below it, and one further on either side. All offsets are 0.
    fn next_to_exact(&mut self, d: &Design, rest: u32) {
        let low = d.w - d.alpha;
        let word = |number: u32| half_units(d, number << low | rest).0 / 2;
        let words: Vec<i64> = (0..1 << d.alpha).map(word).collect();
        for change in -1..=2 {
            let entry = |y| ((y + change) << d.g) as u32 + self.random.within(0..=(1 << d.g) - 1);
            let initial = words.iter().map(entry).collect();
            let offsets = vec![0; 2 << low];
            let tables = Tables { initial, offsets };
            let _ = self.calls.check_and_count(d, &tables);
        }
    }

    /// The output words around the exact value at x, each from its lowest and its highest sum.
    fn around_exact(&mut self, d: &Design, x: u32) {
        let (floor, whole) = half_units(d, x);
        for y in floor / 2 - 2..=floor / 2 + 3 {
            let name = named(2 * y - floor).filter(|_| whole);
            let lowest = y << d.g;
            let highest = lowest + (1 << d.g) - 1;
            self.lone_word(d, x, lowest, name);
            self.lone_word(d, x, highest, name);
        }
    }

    /// Sums at both ends of the range and at both ends of word 0.
    fn ends_of_range(&mut self, d: &Design, x: u32) {
        let (unit, end) = (1 << d.g, i64::from(sum_limit(d)));
        for (sum, name) in [
            (-1, "of sum -1"),
            (0, "of sum 0"),
            (unit - 1, "of sum 2^g-1"),
            (unit, "of sum 2^g"),
            (end - 1, "of sum 2^(P+2)-1"),
            (end, "of sum 2^(P+2)"),
        ] {
            self.lone_word(d, x, sum, Some(name));
        }
    }

    /// Counts a set in which only x can have a sum in range, and notes its class under a name.
    fn lone_word(&mut self, d: &Design, x: u32, sum: i64, name: Option<&str>) {
        let tables = lone_word(d, x, sum);
        let counts = self.calls.check_and_count(d, &tables);
        if let (Some(name), Ok(counts)) = (name, counts) {
            let class = lone_class(&counts);
            self.note(&format!("word {name}: {class}"));
        }
    }
}
