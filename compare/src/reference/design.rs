//! "A design": which designs are legal, and where the entries of its tables lie.

use super::function::Function;
use crate::refusal::Refusal;
use crate::types::{Design, Tables};

/// One offset table of a legal design: its pair, p (where its word B begins in x) and the place
/// of its entry 0 among all offsets.
#[derive(Clone, Copy, Default, Debug)]
pub struct Table {
    pub a: u32,
    pub b: u32,
    pub p: u32,
    pub start: usize,
}

impl Table {
    /// 2^(a+b) offsets.
    #[inline]
    pub fn entries(&self) -> usize {
        1 << (self.a + self.b)
    }
}

/// What a legal design fixes. There is no other way to one than `Legal::new`.
#[derive(Clone, Copy, Debug)]
pub struct Legal {
    pub function: Function,
    pub alpha: u32,
    pub m: usize,
    all: [Table; 4],
    pub offsets: usize,
}

impl Legal {
    /// Refusals 1 to 9, in this order; 7 is tried on all tables before 8.
    #[inline]
    pub fn new(d: &Design) -> Result<Legal, Refusal> {
        let function = Function::new(d.kind, d.w, d.q, d.g)?;
        if !(2..=13).contains(&d.alpha) || d.alpha >= d.w {
            return Err(Refusal::Alpha);
        }
        if !(1..=4).contains(&d.m) {
            return Err(Refusal::M);
        }
        let pairs = d.read_pairs();
        if pairs.iter().any(|&[a, _]| a < 1 || a > d.alpha) {
            return Err(Refusal::A);
        }
        if pairs
            .iter()
            .any(|&[a, b]| !(1..=8).contains(&b) || a + b > 12)
        {
            return Err(Refusal::B);
        }
        if pairs.iter().map(|&[_, b]| b).sum::<u32>() != d.w - d.alpha {
            return Err(Refusal::BSum);
        }
        let (all, offsets) = lay_out(pairs);
        Ok(Legal {
            function,
            alpha: d.alpha,
            m: pairs.len(),
            all,
            offsets,
        })
    }

    /// Refusal 10: either lent table shorter than the set.
    #[inline]
    pub fn fits(&self, tables: &Tables) -> Result<(), Refusal> {
        if tables.initial.len() < self.initial() || tables.offsets.len() < self.offsets {
            Err(Refusal::Tables)
        } else {
            Ok(())
        }
    }

    /// The m offset tables.
    #[inline]
    pub fn tables(&self) -> &[Table] {
        &self.all[..self.m]
    }

    /// 2^alpha initial entries.
    #[inline]
    pub fn initial(&self) -> usize {
        1 << self.alpha
    }

    /// The number of entries of both sorts.
    #[inline]
    pub fn entries(&self) -> usize {
        self.initial() + self.offsets
    }
}

/// p_0 = 0 and p_(i+1) = p_i + b_i; offset tables lie one after another, table 0 first.
/// Returns the number of all offsets as well.
#[inline]
fn lay_out(pairs: &[[u32; 2]]) -> ([Table; 4], usize) {
    let mut tables = [Table::default(); 4];
    let (mut p, mut start) = (0, 0);
    for (table, &[a, b]) in tables.iter_mut().zip(pairs) {
        *table = Table { a, b, p, start };
        p += b;
        start += table.entries();
    }
    (tables, start)
}

/// "A design is legal when none of 1 to 9 turns it down."
pub fn legal(d: &Design) -> Result<(), Refusal> {
    Legal::new(d).map(|_| ())
}

#[cfg(test)]
mod tests;
