//! Verdicts.

use super::super::examples::{filled, three_tables};
use super::super::{evaluate, sum};
use super::*;
use crate::types::{G, KINDS};

#[test]
fn verdicts() {
    let mut tables = filled(&G);
    assert_eq!(check(&G, &tables), Ok(Checked::Faithful));
    tables.initial[0] = 4046;
    assert_eq!(check(&G, &tables), Ok(Checked::Faithful));
    tables.initial[0] = 4045;
    assert_eq!(check(&G, &tables), Ok(Checked::Unfaithful(0)));
    tables.initial[0] = 4046;
    tables.initial[31] = 1 << 31;
    assert_eq!(check(&G, &tables), Ok(Checked::Unfaithful(248)));
}

/// Trap: A_i cut from the low end of A. With a_i < alpha the two words of x differ, and only the
/// top bits give tables that are faithful for every x.
#[test]
fn every_word_of_three_tables_is_faithful() {
    for d in KINDS.map(three_tables) {
        assert_eq!(check(&d, &filled(&d)), Ok(Checked::Faithful));
    }
}

/// Trap: "at most one unit" for "less than". 2^8 / 2^8·2^8 is 256 exactly, so 255 and 257 are one
/// whole unit away.
#[test]
fn one_whole_unit_is_too_far() {
    let mut tables = filled(&G);
    for (y, verdict) in [(255, false), (256, true), (257, false)] {
        tables.initial[0] = y * 16 + 8 - 50;
        assert_eq!(evaluate(&G, &tables, 0), Ok(y));
        let named = check(&G, &tables) == Ok(Checked::Unfaithful(0));
        assert_eq!(named, !verdict);
    }
}

/// A sum of 0 to 2^g - 1 is in range and its word 0 is not faithful.
#[test]
fn word_zero_is_not_faithful() {
    let mut tables = filled(&G);
    (tables.initial[0], tables.offsets[0]) = (0, 0);
    assert_eq!(evaluate(&G, &tables, 0), Ok(0));
    assert_eq!(check(&G, &tables), Ok(Checked::Unfaithful(0)));
    tables.offsets[0] = -1;
    assert_eq!(sum(&G, &tables, 0), Ok(-1));
    assert_eq!(evaluate(&G, &tables, 0), Err(Refusal::Range));
    assert_eq!(check(&G, &tables), Ok(Checked::Unfaithful(0)));
}
