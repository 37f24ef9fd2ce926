//! "Slopes and budget".

use super::design::{Legal, Table};
use super::function::Function;
use super::{fitting, Int};
use crate::refusal::Refusal;
use crate::types::Design;

/// The first and last X of the segment with number `number` when the top `bits` bits of x number
/// the segments.
#[inline]
pub fn segment(function: &Function, bits: u32, number: usize) -> (Int, Int) {
    let length: Int = 1 << (function.w - bits);
    let s = (1 << function.w) + number as Int * length;
    (s, s + length - 1)
}

/// Hi and Lo of the segment that the value A_i = `number` stands for. Request A7: where E(s) is the
/// whole number L(s), "Hi takes L(s) in place of L(s)+1".
#[inline]
pub fn slopes(function: &Function, table: &Table, number: usize) -> (Int, Int) {
    let k = function.row.k;
    let (s, e) = segment(function, table.a, number);
    let floor = function.floor(s);
    let above = if function.is_exactly(s, floor) {
        floor
    } else {
        floor + 1
    };
    let hi = (above << 16) / (k * s) + 1;
    let lo = (function.floor(e) << 16) / (k * e);
    (hi, lo)
}

/// The largest Hi - Lo over all A_i. Hi is above Lo: the function divided by its argument falls.
fn spread(function: &Function, table: &Table) -> Int {
    let differences = (0..1 << table.a).map(|number| {
        let (hi, lo) = slopes(function, table, number);
        hi - lo
    });
    differences.max().unwrap_or(0)
}

impl Legal {
    /// The sum over i of D_i times the largest Hi - Lo, plus (m+2)·2^17, where
    /// D_i = (2^(b_i) - 1)·2^(p_i).
    pub fn budget(&self) -> Int {
        let tables = self.tables().iter().map(|table| {
            let d: Int = ((1 << table.b) - 1) << table.p;
            d * spread(&self.function, table)
        });
        tables.sum::<Int>() + ((self.m as Int + 2) << 17)
    }

    /// 2^(g+17).
    pub fn limit(&self) -> Int {
        1 << (self.function.g + 17)
    }

    /// "A legal design is **admitted** when the budget is less than 2^(g+17)."
    pub fn is_admitted(&self) -> bool {
        self.budget() < self.limit()
    }
}

/// The budget; refusals 1 to 9.
pub fn budget(d: &Design) -> Result<u64, Refusal> {
    Ok(fitting(Legal::new(d)?.budget()))
}

#[cfg(test)]
mod tests;
