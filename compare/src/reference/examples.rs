//! The designs and sets that the tests share.

use super::fill;
use crate::types::{Design, Tables, G};

/// G with another pair.
pub fn with_pair(a: u32, b: u32) -> Design {
    let mut d = G;
    d.pairs[0] = [a, b];
    d
}

/// An admitted design with three tables: 32 initial entries and 144 offsets.
pub fn three_tables(kind: u32) -> Design {
    Design::cut([kind, 9, 8, 6, 5], &[[3, 1], [4, 2], [5, 1]])
}

/// The filled tables of an admitted design, with zeros behind the set.
pub fn filled(d: &Design) -> Tables {
    let mut tables = Tables::alike((8192, 16384), 0, 0);
    assert_eq!(fill(d, &mut tables), Ok(()));
    tables
}
