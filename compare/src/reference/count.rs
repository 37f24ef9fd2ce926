//! Request A1, "How many words are only just faithful".

use super::design::Legal;
use super::evaluate::{by_m, Set};
use super::function::{by_form, Form, Function};
use super::Int;
use crate::refusal::Refusal;
use crate::types::{Counts, Design, Tables};

/// The five counts of the tables, whoever filled them; refusals 1 to 10.
pub fn count(d: &Design, tables: &Tables) -> Result<Counts, Refusal> {
    let legal = Legal::new(d)?;
    legal.fits(tables)?;
    Ok(by_m!(legal, tables, |set| count_set(&legal.function, &set)))
}

/// In half output units a word y is 2y, and the exact value is the one with q+1 fraction bits.
/// "nearest (within half an output unit of the exact value, the half included)" is then, for every
/// kind, f(2y-1) ≤ exact ≤ f(2y+1), and faithful is f(2y-2) < exact < f(2y+2).
fn count_set<const M: usize>(function: &Function, set: &Set<M>) -> Counts {
    by_form!(function, function.q + 1, |f, exact, _root| {
        count_words(set, function.w, f, exact)
    })
}

/// "Each input lands in the first that fits, in that order". The words of one initial entry lie
/// together.
fn count_words<const M: usize>(
    set: &Set<M>,
    w: u32,
    f: impl Fn(Int, Int) -> Int,
    exact: impl Fn(Int) -> Int,
) -> Counts {
    let mut counts = Counts::default();
    for number in 0..1 << (w - set.low) {
        let sum = set.sums_of(number);
        for rest in 0..1 << set.low {
            let argument = (1 << w) + Int::from(number << set.low | rest);
            let exact = exact(argument);
            let f = |n| f(n, argument);
            match set.word(sum(rest)).map(|y| 2 * Int::from(y)) {
                Err(_) => counts.outside += 1,
                Ok(0) => counts.low += 1,
                Ok(n) if f(n - 1) <= exact && exact <= f(n + 1) => counts.nearest += 1,
                Ok(n) if f(n - 2) < exact && exact < f(n + 2) => counts.faithful += 1,
                Ok(n) if f(n) < exact => counts.low += 1,
                Ok(_) => counts.high += 1,
            }
        }
    }
    counts
}

#[cfg(test)]
mod tests;
