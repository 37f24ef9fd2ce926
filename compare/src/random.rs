//! Random designs, tables, words and lines from a fixed seed.

use std::ops::RangeInclusive;

use crate::types::{Design, Tables, KINDS};
use crate::wide::reference;

/// The splitmix64 generator.
pub struct Random {
    state: u64,
}

impl Random {
    pub fn new(seed: u64) -> Random {
        Random { state: seed }
    }

    pub fn bits(&mut self) -> u64 {
        self.state = self.state.wrapping_add(0x9E37_79B9_7F4A_7C15);
        let mut z = self.state;
        z = (z ^ (z >> 30)).wrapping_mul(0xBF58_476D_1CE4_E5B9);
        z = (z ^ (z >> 27)).wrapping_mul(0x94D0_49BB_1331_11EB);
        z ^ (z >> 31)
    }

    pub fn word(&mut self) -> u32 {
        (self.bits() >> 32) as u32
    }

    /// One of the numbers of a range, which must not be empty.
    pub fn within(&mut self, range: RangeInclusive<u32>) -> u32 {
        let (low, high) = range.into_inner();
        let count = u64::from(high - low) + 1;
        low + (self.bits() % count) as u32
    }

    /// A place in a slice of the given length, which must not be 0.
    pub fn place(&mut self, length: usize) -> usize {
        (self.bits() % length as u64) as usize
    }

    pub fn pick<T: Copy>(&mut self, from: &[T]) -> T {
        from[self.place(from.len())]
    }

    /// True once in `n` times.
    pub fn once_in(&mut self, n: u64) -> bool {
        self.bits().is_multiple_of(n)
    }
}

/// Numbers that wrap in a sum.
pub const HUGE: [u32; 4] = [u32::MAX, u32::MAX - 1, 1 << 31, 256];

/// The lowest and highest legal value, one below and one above: of each number before the pairs, and
/// of b.
const LIMITS: [&[u32]; 6] = [
    &[0, 4, 5],
    &[0, 5, 6, 16, 17],
    &[0, 5, 6, 16, 17],
    &[0, 1, 2, 4, 6, 7],
    &[0, 1, 2, 13, 14, 16],
    &[0, 1, 4, 5],
];
const B_LIMITS: [u32; 4] = [0, 1, 8, 9];

/// kind, w, q, g, alpha and m; those given stay, legal ones are drawn for the rest.
pub type Given = [Option<u32>; 6];

/// The numbers of a design, by place, for changing one of them.
pub const NUMBERS: usize = 14;

pub fn number(d: &mut Design, place: usize) -> &mut u32 {
    match place {
        0 => &mut d.kind,
        1 => &mut d.w,
        2 => &mut d.q,
        3 => &mut d.g,
        4 => &mut d.alpha,
        5 => &mut d.m,
        _ => &mut d.pairs[place / 2 - 3][place % 2],
    }
}

/// The two ways to the most entries there are, as alpha and m: w 16 and a+b = 12 in all tables,
/// with alpha 13 and 3 tables or alpha 12 and 4 (alpha 13 leaves 3 bits, too few for 4 tables).
pub const LARGEST: [(u32, u32); 2] = [(13, 3), (12, 4)];

/// A design cut in one of these ways.
pub fn largest(kind: u32, (q, g): (u32, u32), (alpha, m): (u32, u32)) -> Design {
    Design::new([kind, 16, q, g, alpha, m], [[11, 1]; 4])
}

impl Random {
    /// Mostly small, so that sets are small; all widths come up.
    fn width(&mut self, least: u32) -> u32 {
        let high = if self.once_in(12) { 16 } else { 10 };
        self.within(least.min(16)..=high.max(least.min(16)))
    }

    /// A design that keeps the given numbers and is legal if these allow it.
    pub fn design(&mut self, [kind, w, q, g, alpha, m]: Given) -> Design {
        let kind = kind.unwrap_or_else(|| self.within(KINDS));
        let parts = m.unwrap_or(1).clamp(1, 4);
        let least = alpha.unwrap_or(2).clamp(2, 15) + parts;
        let w = w.unwrap_or_else(|| self.width(least.max(6)));
        // The width that the other numbers go by.
        let width = w.clamp(3, 17);
        let highest = width.saturating_sub(parts).clamp(2, 13);
        let alpha = alpha.unwrap_or_else(|| self.within(2..=highest));
        let rest = width.saturating_sub(alpha).max(1);
        let m = m.unwrap_or_else(|| {
            let fewest = rest.div_ceil(8).min(4);
            self.within(fewest..=rest.min(4))
        });
        let (q, g) = self.precision(q, g);
        let pairs = self.pairs(alpha.clamp(1, 17), rest, m.clamp(1, 4) as usize);
        Design::new([kind, w, q, g, alpha, m], pairs)
    }

    /// q and g with q+g ≤ 20 where one is drawn; g is 6 in half of the cases.
    fn precision(&mut self, q: Option<u32>, g: Option<u32>) -> (u32, u32) {
        let often = if self.once_in(2) {
            6
        } else {
            self.within(2..=6)
        };
        let q = q.unwrap_or_else(|| {
            let highest = 20 - g.unwrap_or(4).clamp(4, 7);
            self.within(6..=highest)
        });
        let g = g.unwrap_or(often.min(20 - q.min(18)));
        (q, g)
    }

    /// Pairs with `rest` as the sum of the b if that can be; random numbers beyond m.
    fn pairs(&mut self, alpha: u32, rest: u32, m: usize) -> [[u32; 2]; 4] {
        let mut pairs = [(); 4].map(|()| [self.word(), self.word()]);
        for [_, b] in &mut pairs[..m] {
            *b = 1;
        }
        for _ in m..rest.min(8 * m as u32) as usize {
            let i = self.place(m);
            let room = (0..m).map(|n| (i + n) % m).find(|&n| pairs[n][1] < 8);
            pairs[room.unwrap_or(i)][1] += 1;
        }
        for [a, b] in &mut pairs[..m] {
            let highest = alpha.min(12 - *b);
            let low = if self.once_in(3) {
                1
            } else {
                highest.saturating_sub(2).max(1)
            };
            *a = self.within(low..=highest.max(low));
        }
        pairs
    }

    /// A legal design that keeps the given numbers, which must allow one.
    pub fn legal_with(&mut self, given: Given) -> Design {
        loop {
            let d = self.design(given);
            if reference::legal(&d).is_ok() {
                return d;
            }
        }
    }

    /// A legal design of a kind.
    pub fn legal(&mut self, kind: u32) -> Design {
        self.legal_with([Some(kind), None, None, None, None, None])
    }

    pub fn legal_of_any_kind(&mut self) -> Design {
        let kind = self.within(KINDS);
        self.legal(kind)
    }

    /// A legal design of a kind of which something holds.
    fn legal_where(&mut self, kind: u32, holds: impl Fn(&Design) -> bool) -> Design {
        loop {
            let d = self.legal(kind);
            if holds(&d) {
                return d;
            }
        }
    }

    pub fn admitted(&mut self, kind: u32) -> Design {
        self.legal_where(kind, is_admitted)
    }

    /// A legal design with at most 512 words.
    pub fn small(&mut self, kind: u32) -> Design {
        self.legal_where(kind, |d| d.w <= 9)
    }

    pub fn legal_of_at_most(&mut self, kind: u32, entries: usize) -> Design {
        self.legal_where(kind, |d| entries_of(d) <= entries)
    }

    /// A design with the most entries there are.
    pub fn largest(&mut self, kind: u32) -> Design {
        let cut = self.pick(&LARGEST);
        let g = self.pick(&[4, 5, 6, 6]);
        let (q, g) = self.precision(None, Some(g));
        largest(kind, (q, g), cut)
    }

    /// A design with one number at or beside one of its limits, the others legal if they can be.
    pub fn at_limit(&mut self) -> Design {
        let mut given = [None; 6];
        match self.place(9) {
            6 => (given[2], given[3]) = (Some(16), Some(self.within(4..=5))),
            7 => return self.b_at_limit(),
            8 => return self.a_at_limit(),
            place => given[place] = Some(self.pick(LIMITS[place])),
        }
        self.design(given)
    }

    /// One table with b at a limit, and some with a+b at 12 or 13.
    fn b_at_limit(&mut self) -> Design {
        let b = self.pick(&B_LIMITS);
        let bits = b.max(1);
        let w = self.within((bits + 2).max(6)..=(bits + 13).min(16));
        let mut d = self.design([None, Some(w), None, None, Some(w - bits), Some(1)]);
        d.pairs[0][1] = b;
        if self.once_in(2) {
            d.pairs[0][0] = self.pick(&[12, 13]) - b;
        }
        d
    }

    /// Some a at a limit, or beside it.
    fn a_at_limit(&mut self) -> Design {
        let mut d = self.design([None; 6]);
        let i = self.place(d.m.clamp(1, 4) as usize);
        d.pairs[i][0] = self.pick(&[0, 1, d.alpha, d.alpha + 1]);
        d
    }

    /// A design with some of its numbers broken: one or several, by little or by much.
    pub fn broken(&mut self) -> Design {
        let mut d = match self.once_in(3) {
            true => self.at_limit(),
            false => self.design([None; 6]),
        };
        for _ in 0..self.pick(&[1, 1, 1, 2, 2, 3, 5]) {
            let place = self.place(NUMBERS);
            let old = *number(&mut d, place);
            *number(&mut d, place) = match self.within(0..=4) {
                0 => old.wrapping_add(1),
                1 => old.wrapping_sub(1),
                2 => self.pick(&HUGE),
                3 => self.within(0..=20),
                _ => self.word(),
            };
        }
        d
    }

    /// A design of any sort.
    pub fn any_design(&mut self) -> Design {
        match self.within(0..=3) {
            0 => self.legal_of_any_kind(),
            1 => self.at_limit(),
            _ => self.broken(),
        }
    }
}

pub fn is_admitted(d: &Design) -> bool {
    reference::budget(d).is_ok_and(|budget| budget < 1 << (d.g + 17))
}

/// The number of initial entries and of offsets of a legal design, small ones for another.
pub fn lengths(d: &Design) -> (usize, usize) {
    if reference::legal(d).is_err() {
        return (8, 8);
    }
    let offsets = d.read_pairs().iter().map(|[a, b]| 1 << (a + b)).sum();
    (1 << d.alpha, offsets)
}

/// The number of entries of both sorts, likewise.
pub fn entries_of(d: &Design) -> usize {
    let (initial, offsets) = lengths(d);
    initial + offsets
}

/// The limit on sums, 2^(P+2), of a legal design; for another it is no greater.
pub fn sum_limit(d: &Design) -> u32 {
    1 << (d.q.min(16) + d.g.min(6) + 2)
}

impl Random {
    /// Random entries, as many as asked for.
    pub fn tables(&mut self, (initial, offsets): (usize, usize)) -> Tables {
        Tables {
            initial: (0..initial).map(|_| self.word()).collect(),
            offsets: (0..offsets).map(|_| self.word() as i32).collect(),
        }
    }

    /// Random entries, at least as many as asked for.
    fn tables_and_tail(&mut self, (initial, offsets): (usize, usize)) -> Tables {
        let tails = (self.place(6), self.place(6));
        self.tables((initial + tails.0, offsets + tails.1))
    }

    /// Random entries, mostly as long as the set or longer, else too short by one or empty.
    pub fn room(&mut self, d: &Design) -> Tables {
        let (mut initial, mut offsets) = lengths(d);
        match self.within(0..=11) {
            0 => initial -= 1,
            1 => offsets -= 1,
            2 => (initial, offsets) = (initial - 1, offsets - 1),
            3 => initial = 0,
            4 => offsets = 0,
            5..=7 => {}
            _ => {
                initial += self.place(6);
                offsets += self.place(6);
            }
        }
        self.tables((initial, offsets))
    }

    /// Entries whose sums are near the range that is accepted.
    pub fn plausible(&mut self, d: &Design) -> Tables {
        let mut tables = self.tables_and_tail(lengths(d));
        let p = d.q.min(16) + d.g.min(6);
        let spread = self.within(0..=p);
        for entry in &mut tables.initial {
            *entry >>= 32 - (p + 2);
        }
        for entry in &mut tables.offsets {
            *entry >>= 31 - spread;
        }
        tables
    }

    /// Tables filled by the reference, with a random tail.
    pub fn filled(&mut self, d: &Design) -> Tables {
        let mut tables = self.tables_and_tail(lengths(d));
        // A design that is not admitted leaves the random entries.
        let _ = reference::fill(d, &mut tables);
        tables
    }

    /// Changes some entries: by little, by much, to extreme values.
    pub fn damage(&mut self, d: &Design, tables: &mut Tables) {
        for _ in 0..self.pick(&[1, 1, 2, 4]) {
            let change = match self.within(0..=3) {
                0 => self.within(0..=4) as i32 - 2,
                1 => (1 << d.g.min(6)) * (self.within(0..=4) as i32 - 2),
                _ => self.word() as i32 >> self.within(0..=20),
            };
            let extreme = self.once_in(4);
            if self.once_in(2) {
                let place = self.place(tables.initial.len());
                let limit = sum_limit(d);
                let extremes = [0, 1, u32::MAX, 1 << 31, limit, limit - 1, 15, 16, 63, 64];
                let entry = &mut tables.initial[place];
                *entry = if extreme {
                    self.pick(&extremes)
                } else {
                    entry.wrapping_add_signed(change)
                };
            } else {
                let place = self.place(tables.offsets.len());
                let entry = &mut tables.offsets[place];
                let extremes = [0, -1, i32::MAX, i32::MIN];
                *entry = if extreme {
                    self.pick(&extremes)
                } else {
                    entry.wrapping_add(change)
                };
            }
        }
    }

    /// A word of x's width: anywhere, at the ends.
    pub fn good_word(&mut self, w: u32) -> u32 {
        let end = (1 << w.min(16)) - 1;
        match self.within(0..=9) {
            0 => 0,
            1 => end,
            _ => self.word() & end,
        }
    }

    /// A word past the width: the next one, a huge one.
    pub fn bad_word(&mut self, w: u32) -> u32 {
        let end = 1 << w.min(16);
        match self.within(0..=3) {
            0 => end,
            1 => u32::MAX,
            2 => end + self.within(0..=end),
            _ => self.word() | end << self.within(0..=15),
        }
    }
}
