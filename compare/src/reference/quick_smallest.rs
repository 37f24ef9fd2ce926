//! Request A5 for speed: the answers of `smallest` without the budget and the offsets of every
//! design.
//!
//! A budget is a sum over tables, and so is a size. Of what a table adds to them only D_i and
//! |j|·2^p depend on where it lies: the largest Hi - Lo and the largest Hi + Lo are fixed by kind,
//! w, P and a_i. So they are found once for each g and a. The search then goes through the designs
//! in the order of the request and leaves a cut as soon as the tables that it begins with have too
//! many bits, or too large a budget with what those behind them add at the least.

use super::design::Table;
use super::fitting;
use super::function::Function;
use super::slopes::slopes;
use super::smallest::check_widths;
use crate::refusal::Refusal;
use crate::types::Design;

/// The greatest a: a+b is at most 12, and b at least 1.
const MOST_A: usize = 11;

/// The same answer as that of `smallest`; refusals 1 to 3, 24.
pub fn quick_smallest(kind: u32, w: u32, q: u32) -> Result<(Design, u64), Refusal> {
    check_widths(kind, w, q)?;
    let design = Design::cut([kind, w, q, 0, 0], &[]);
    let mut search = Search {
        largest: [Largest::default(); MOST_A + 1],
        limit: 0,
        least_spread: 0,
        design,
        found: None,
        fewest: u64::MAX,
    };
    for g in 2..=6.min(20 - q) {
        search.designs(&Function::new(kind, w, q, g)?);
    }
    let found = search.found.ok_or(Refusal::NoneAdmitted)?;
    Ok((found, search.fewest))
}

/// The largest Hi - Lo and the largest Hi + Lo of all segments of one a.
#[derive(Clone, Copy, Default)]
struct Largest {
    spread: u64,
    sum: u64,
}

/// The width of a table's offsets: both T and -1 - T take the bits of T and one more, and the
/// greatest T is that of |j| = 2^b - 1 and the largest Hi + Lo, which is `sum`.
pub fn width_of_greatest(sum: u64, b: u32, p: u32) -> u32 {
    let reach: u64 = ((1 << b) - 1) << p;
    65 - ((reach * sum) >> 18).leading_zeros()
}

/// Those of each a, by a. Each segment begins where one of the shortest begins and ends where one
/// ends, so all slopes come from these.
fn largest_by_a(function: &Function) -> [Largest; MOST_A + 1] {
    let most = MOST_A.min(function.w as usize - 1);
    let table = Table {
        a: most as u32,
        ..Table::default()
    };
    let mut shortest: [(u64, u64); 1 << MOST_A] = [(0, 0); 1 << MOST_A];
    let shortest = &mut shortest[..1 << most];
    for (number, segment) in shortest.iter_mut().enumerate() {
        let (hi, lo) = slopes(function, &table, number);
        *segment = (fitting(hi), fitting(lo));
    }
    let mut all = [Largest::default(); MOST_A + 1];
    for (a, largest) in all.iter_mut().enumerate().take(most + 1) {
        let length = 1 << (most - a);
        for segment in shortest.chunks_exact(length) {
            let ((hi, _), (_, lo)) = (segment[0], segment[length - 1]);
            largest.spread = largest.spread.max(hi - lo);
            largest.sum = largest.sum.max(hi + lo);
        }
    }
    all
}

struct Search {
    /// By a.
    largest: [Largest; MOST_A + 1],
    /// 2^(g+17).
    limit: u64,
    /// The least spread of all a up to alpha.
    least_spread: u64,
    /// The design that is being put together.
    design: Design,
    /// The first of the smallest so far, and its bits.
    found: Option<Design>,
    fewest: u64,
}

impl Search {
    /// All designs of one g.
    fn designs(&mut self, function: &Function) {
        self.largest = largest_by_a(function);
        self.limit = 1 << (function.g + 17);
        self.design.g = function.g;
        for alpha in 2..=13.min(function.w - 1) {
            let initial = u64::from(function.p + 2) << alpha;
            let low = function.w - alpha;
            let largest = self.largest[1..=MOST_A.min(alpha as usize)].iter();
            self.least_spread = largest.map(|of_a| of_a.spread).min().unwrap_or(0);
            for m in low.div_ceil(8)..=4.min(low) {
                (self.design.alpha, self.design.m) = (alpha, m);
                self.design.pairs = [[0, 0]; 4];
                self.tables(0, 0, initial, u64::from(m + 2) << 17);
            }
        }
    }

    /// All cuts into table i, which begins at bit p, and those behind it, with the bits and the
    /// budget of what comes before them. A larger b makes more entries, no offset smaller, and a
    /// budget no less even with what is added behind: its D grows by what theirs lose. For a larger a
    /// see `shares`.
    fn tables(&mut self, i: usize, p: u32, bits: u64, budget: u64) {
        let Design { w, alpha, m, .. } = self.design;
        let (low, behind) = (w - alpha - p, m - 1 - i as u32);
        if behind == 0 {
            return self.last_table(i, p, bits, budget);
        }
        // Each table behind takes 1 to 8 of the bits that are left.
        let least = low.saturating_sub(8 * behind).max(1);
        let most = (low - behind).min(8);
        for a in 1..=alpha.min(12 - least) {
            if bits + self.shares(a, least, p).0 >= self.fewest {
                break;
            }
            for b in least..=most.min(12 - a) {
                let (of_bits, of_budget) = self.shares(a, b, p);
                let (bits, budget) = (bits + of_bits, budget + of_budget);
                // The D of all tables behind add up to 2^(w-alpha) - 2^(p+b).
                let rest = ((1 << (w - alpha)) - (1 << (p + b))) * self.least_spread;
                if bits >= self.fewest || budget + rest >= self.limit {
                    break;
                }
                self.design.pairs[i] = [a, b];
                self.tables(i + 1, p + b, bits, budget);
            }
        }
    }

    /// The last table takes all bits that are left. Its size does not fall with a, so the first a
    /// that makes an admitted design is the best.
    fn last_table(&mut self, i: usize, p: u32, bits: u64, budget: u64) {
        let Design { w, alpha, .. } = self.design;
        let b = w - alpha - p;
        for a in 1..=alpha.min(12 - b) {
            let (of_bits, of_budget) = self.shares(a, b, p);
            let bits = bits + of_bits;
            if bits >= self.fewest {
                break;
            }
            if budget + of_budget < self.limit {
                self.design.pairs[i] = [a, b];
                (self.found, self.fewest) = (Some(self.design), bits);
                break;
            }
        }
    }

    /// A table's bits and its share of the budget, which is D = (2^b - 1)·2^p times the largest
    /// Hi - Lo.
    ///
    /// The bits do not fall with a: the segment with the largest Hi + Lo begins where one of half
    /// its length does, with the same Hi, which is half of that sum or more. The greatest T of the
    /// next a is then no less than half of this one, so that the width loses one bit at the most,
    /// and none if it has only one, while the entries double.
    fn shares(&self, a: u32, b: u32, p: u32) -> (u64, u64) {
        let Largest { spread, sum } = self.largest[a as usize];
        let d: u64 = ((1 << b) - 1) << p;
        let width = width_of_greatest(sum, b, p);
        (u64::from(width) << (a + b), d * spread)
    }
}

#[cfg(test)]
mod tests;
