//! "Filling".

use super::design::{Legal, Table};
use super::function::Function;
use super::slopes::{segment, slopes};
use super::{fitting, Int};
use crate::refusal::Refusal;
use crate::types::{Design, Tables};

/// Writes the tables of an admitted design; refusals 1 to 11. Elements beyond the set stay.
pub fn fill(d: &Design, tables: &mut Tables) -> Result<(), Refusal> {
    let legal = Legal::new(d)?;
    legal.fits(tables)?;
    if !legal.is_admitted() {
        return Err(Refusal::NotAdmitted);
    }
    fill_initial(&legal, &mut tables.initial[..legal.initial()]);
    for table in legal.tables() {
        let entries = &mut tables.offsets[table.start..][..table.entries()];
        fill_offsets(&legal.function, table, entries);
    }
    Ok(())
}

/// Entry A is floor((M+1+m)/2) + 2^(g-1), where M = L(s) + L(e).
fn fill_initial(legal: &Legal, entries: &mut [u32]) {
    let function = &legal.function;
    let rounding = 1 + legal.m as Int;
    let half: Int = 1 << (function.g - 1);
    for (number, entry) in entries.iter_mut().enumerate() {
        let (s, e) = segment(function, legal.alpha, number);
        let middle = function.floor(s) + function.floor(e);
        *entry = fitting((middle + rounding) / 2 + half);
    }
}

/// One table: the entries of each A_i lie together, B_i rising.
pub fn fill_offsets(function: &Function, table: &Table, entries: &mut [i32]) {
    for (number, segment) in entries.chunks_exact_mut(1 << table.b).enumerate() {
        let (hi, lo) = slopes(function, table, number);
        fill_segment(function.row.rises, (hi + lo) << table.p, segment);
    }
}

/// With j = 2·B_i + 1 - 2^(b_i) and T = floor((Hi+Lo)·|j|·2^(p_i) / 2^18), an entry is T where j
/// has the function's sign and -1 - T where it has the other. The entries at j and -j share T and
/// lie at the same distance from the middle.
fn fill_segment(rises: bool, slope: Int, segment: &mut [i32]) {
    let (below, above) = segment.split_at_mut(segment.len() / 2);
    let mut product = slope;
    for (negative, positive) in below.iter_mut().rev().zip(above) {
        let t: i32 = fitting(product >> 18);
        (*negative, *positive) = if rises { (-1 - t, t) } else { (t, -1 - t) };
        product += 2 * slope;
    }
}

#[cfg(test)]
mod tests;
