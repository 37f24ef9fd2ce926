//! Slopes and budgets.

use super::super::examples::{filled, with_pair};
use super::super::fill;
use super::*;
use crate::types::{Tables, G};

/// Hi of a whole value that is not at x = 0, and of one at x = 0 that is not whole; then Lo.
#[test]
fn slopes_of_whole_values() {
    let table = |a| Table {
        a,
        ..Table::default()
    };
    let root = Function::new(1, 6, 6, 4).unwrap();
    assert_eq!(slopes(&root, &table(4), 9), (419431, 413258));
    let reciprocal_root = Function::new(4, 8, 8, 4).unwrap();
    assert_eq!(slopes(&reciprocal_root, &table(3), 0), (370817, 312266));
}

#[test]
fn budgets() {
    let lower_g = Design { g: 3, ..G };
    assert_eq!(budget(&G), Ok(1894163));
    assert_eq!(budget(&with_pair(2, 3)), Ok(3006246));
    assert_eq!(budget(&lower_g), Ok(1144491));
    let admitted_by_a7 = Design::cut([0, 7, 6, 4, 3], &[[3, 1], [3, 3]]);
    assert_eq!(budget(&admitted_by_a7), Ok(2091668));
    filled(&admitted_by_a7);
    let before = Tables::alike((32, 64), 7, 7);
    let mut tables = before.clone();
    for d in [with_pair(2, 3), lower_g] {
        assert_eq!(fill(&d, &mut tables), Err(Refusal::NotAdmitted));
    }
    assert_eq!(tables, before);
}

/// Trap: D_i without 2^(p_i). Each table's share of the budget is D_i times a whole number.
#[test]
fn budget_shares_grow_with_p() {
    let of_tables = |m: u32, pairs| {
        let budget = budget(&Design::new([0, 7, 8, 4, 5, m], pairs)).unwrap();
        budget - ((u64::from(m) + 2) << 17)
    };
    // The same segments (w 7, a 3), once as the only table and once above another. D is 3 for the
    // table of 2 bits, and 1 + 2 for the two of one bit.
    let both = of_tables(2, [[3, 1], [3, 1], [0, 0], [0, 0]]);
    assert_eq!(both, of_tables(1, [[3, 2]; 4]));
}
