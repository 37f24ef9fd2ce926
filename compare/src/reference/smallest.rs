//! Request A5, "The smallest cut for given widths", as it stands: every legal design is tried. "The
//! least size of A5 is meant in these bits", those of request A6.

use super::design::Legal;
use super::function::Function;
use crate::refusal::Refusal;
use crate::types::Design;

/// "Go through every legal design of that kind, w and q and hand back an admitted one, its pairs
/// beyond m all 0, with its size in bits; every other admitted design of that kind, w and q has at
/// least as many bits. Among equals take the first by g, then alpha, m, and the pairs from table 0,
/// a_i before b_i, smaller first." Refusals 1 to 3, then 24: "no legal design of that kind, w and q
/// is admitted".
pub fn smallest(kind: u32, w: u32, q: u32) -> Result<(Design, u64), Refusal> {
    check_widths(kind, w, q)?;
    let mut found: Option<(Design, u64)> = None;
    every_legal(kind, w, q, |d, legal| {
        if !legal.is_admitted() {
            return;
        }
        let bits = legal.size();
        if found.is_none_or(|(_, fewest)| bits < fewest) {
            found = Some((*d, bits));
        }
    });
    found.ok_or(Refusal::NoneAdmitted)
}

/// "Kind, w and q are checked as before", which is refusals 1 to 3: no q that passes is too great
/// for the least g.
pub fn check_widths(kind: u32, w: u32, q: u32) -> Result<(), Refusal> {
    Function::new(kind, w, q, 2).map(|_| ())
}

/// Hands over every legal design of a kind, w and q, in the order of the request: all numbers
/// within their limits are tried, and what 1 to 9 let pass goes on. Kind, w and q are accepted.
pub fn every_legal(kind: u32, w: u32, q: u32, mut visit: impl FnMut(&Design, &Legal)) {
    for g in 2..=6 {
        for alpha in 2..=13.min(w - 1) {
            for m in 1..=4 {
                let mut d = Design::new([kind, w, q, g, alpha, m], [[0, 0]; 4]);
                every_cut(&mut d, 0, &mut visit);
            }
        }
    }
}

/// The same for table i and those behind it, the rest as it is. No b is more than all of them
/// together, w-alpha.
fn every_cut(d: &mut Design, i: usize, visit: &mut impl FnMut(&Design, &Legal)) {
    if i == d.m as usize {
        if let Ok(legal) = Legal::new(d) {
            visit(d, &legal);
        }
        return;
    }
    for a in 1..=d.alpha {
        for b in 1..=8.min(d.w - d.alpha) {
            d.pairs[i] = [a, b];
            every_cut(d, i + 1, visit);
        }
    }
}

#[cfg(test)]
mod tests;
