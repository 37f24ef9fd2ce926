//! Request A6, "Size as gate arrays count it".

use super::design::{Legal, Table};
use super::fill::fill_offsets;
use super::function::Function;
use crate::refusal::Refusal;
use crate::types::Design;

/// The size in bits; refusals 1 to 9, 11: "The size applies to admitted designs only".
pub fn size(d: &Design) -> Result<u64, Refusal> {
    let legal = Legal::new(d)?;
    if !legal.is_admitted() {
        return Err(Refusal::NotAdmitted);
    }
    Ok(legal.size())
}

impl Legal {
    /// "Arrays now store each table at its own width": the bits of an admitted design. "An initial
    /// entry counts P+2 bits."
    pub fn size(&self) -> u64 {
        let bits = |entries: usize, width: u32| entries as u64 * u64::from(width);
        let initial = bits(self.initial(), self.function.p + 2);
        let tables = self.tables().iter();
        let tables = tables.map(|table| bits(table.entries(), width(&self.function, table)));
        initial + tables.sum::<u64>()
    }
}

/// "A table's offsets count the fewest bits, at least 1, whose two's complement range holds every
/// offset that the fill writes in it." No entry has more than 32.
pub fn width(function: &Function, table: &Table) -> u32 {
    let mut offsets = vec![0; table.entries()];
    fill_offsets(function, table, &mut offsets);
    let holds_all = |&bits: &u32| offsets.iter().all(|&offset| holds(bits, offset));
    (1..32).find(holds_all).unwrap_or(32)
}

/// Whether -2^(bits-1) ≤ offset < 2^(bits-1).
pub fn holds(bits: u32, offset: i32) -> bool {
    let end = 1i64 << (bits - 1);
    (-end..end).contains(&i64::from(offset))
}

#[cfg(test)]
mod tests;
