//! "Checking".

use super::design::Legal;
use super::evaluate::{by_m, Set};
use super::function::{by_form, Form, Function};
use super::Int;
use crate::refusal::Refusal;
use crate::types::{Checked, Design, Tables};

/// Whether all words of the tables, whoever filled them, are faithful; refusals 1 to 10.
pub fn check(d: &Design, tables: &Tables) -> Result<Checked, Refusal> {
    let legal = Legal::new(d)?;
    legal.fits(tables)?;
    Ok(by_m!(legal, tables, |set| check_set(&legal.function, &set)))
}

/// "Strictly less than one output unit from the exact value" is, for every kind,
/// f(y-1) < exact < f(y+1) with f and exact taken from the kind's line.
fn check_set<const M: usize>(function: &Function, set: &Set<M>) -> Checked {
    by_form!(function, function.q, |f, exact, _root| {
        first_unfaithful(set, function.w, f, exact)
    })
}

/// "From 0 upwards, the check stops at the lowest unfaithful word and names it." The words of one
/// initial entry lie together.
fn first_unfaithful<const M: usize>(
    set: &Set<M>,
    w: u32,
    f: impl Fn(Int, Int) -> Int,
    exact: impl Fn(Int) -> Int,
) -> Checked {
    for number in 0..1 << (w - set.low) {
        let sum = set.sums_of(number);
        for rest in 0..1 << set.low {
            let x = number << set.low | rest;
            let argument = (1 << w) + Int::from(x);
            // "A word whose sum is refused counts as unfaithful", and so does y = 0.
            let faithful = match set.word(sum(rest)) {
                Err(_) | Ok(0) => false,
                Ok(y) => {
                    let (y, exact) = (Int::from(y), exact(argument));
                    f(y - 1, argument) < exact && exact < f(y + 1, argument)
                }
            };
            if !faithful {
                return Checked::Unfaithful(x);
            }
        }
    }
    Checked::Faithful
}

#[cfg(test)]
mod tests;
