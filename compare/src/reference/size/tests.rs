//! Sizes, and the widths of tables.

use super::super::examples::{filled, three_tables, with_pair};
use super::super::legal;
use super::*;
use crate::types::G;

/// The widths of a design's tables.
fn widths(d: &Design) -> Vec<u32> {
    let legal = Legal::new(d).unwrap();
    let of_table = |table| width(&legal.function, table);
    legal.tables().iter().map(of_table).collect()
}

/// Initial entries of P+2 bits, and each table at its own width. The offsets are at most 50 for G,
/// and at least -51; for the next ones at most 13, 28 and 57; 3, 7 and 43; 23, 94 and 381; 0, 1 and
/// 10.
#[test]
fn sizes() {
    for (d, bits_of_tables, bits) in [
        (G, vec![7], 32 * 14 + 64 * 7),
        (
            Design::cut([0, 8, 8, 5, 5], &[[2, 1], [3, 1], [3, 1]]),
            vec![5, 6, 7],
            32 * 15 + 8 * 5 + 16 * 6 + 16 * 7,
        ),
        (
            Design::cut([1, 8, 8, 4, 4], &[[1, 1], [1, 1], [1, 2]]),
            vec![3, 4, 7],
            16 * 14 + 4 * 3 + 4 * 4 + 8 * 7,
        ),
        (
            Design::cut([0, 16, 16, 4, 10], &[[5, 2], [6, 2], [7, 2]]),
            vec![6, 8, 10],
            1024 * 22 + 128 * 6 + 256 * 8 + 512 * 10,
        ),
        (
            Design::cut([1, 7, 6, 3, 3], &[[1, 1], [1, 1], [1, 2]]),
            vec![1, 2, 5],
            8 * 11 + 4 + 4 * 2 + 8 * 5,
        ),
    ] {
        assert_eq!(widths(&d), bits_of_tables, "{d:?}");
        assert_eq!(size(&d), Ok(bits), "{d:?}");
    }
    assert_eq!(size(&G), Ok(896));
}

/// 7 bits hold -64 to 63. The offsets of these designs' last tables are at most 124, 63, 89, 62 and
/// 44, by kind.
#[test]
fn sizes_at_powers_of_two() {
    for (kind, last, bits) in [
        (0, 8, 1616),
        (1, 7, 1472),
        (2, 8, 1616),
        (3, 7, 1472),
        (4, 7, 1472),
    ] {
        let d = three_tables(kind);
        assert_eq!(widths(&d)[2], last, "kind {kind}");
        assert_eq!(size(&d), Ok(bits), "kind {kind}");
    }
    let tables = filled(&three_tables(1));
    let last = tables.offsets[80..144].iter();
    assert_eq!((last.clone().min(), last.max()), (Some(&-64), Some(&63)));
    for (bits, end) in [(1, 1), (2, 2), (7, 64), (31, 1 << 30)] {
        let ends = [-end - 1, -end, end - 1, end];
        let held = ends.map(|offset| holds(bits, offset));
        assert_eq!(held, [false, true, true, false], "{bits} bits");
    }
}

/// 11 comes after 1 to 9. The budget of the last design is the limit itself.
#[test]
fn sizes_refused() {
    for d in [
        with_pair(2, 3),
        Design { g: 3, ..G },
        Design::cut([1, 15, 11, 3, 5], &[[2, 1], [5, 1], [4, 2], [5, 6]]),
    ] {
        assert_eq!(legal(&d), Ok(()));
        assert_eq!(size(&d), Err(Refusal::NotAdmitted));
    }
    let d = with_pair(2, 3);
    for (d, refusal) in [
        (Design { kind: 5, w: 5, ..d }, Refusal::Kind),
        (Design { g: 7, ..d }, Refusal::G),
        (with_pair(6, 9), Refusal::A),
        (with_pair(2, 9), Refusal::B),
        // With three bits for B the budget is above the limit, so it is with four.
        (with_pair(2, 4), Refusal::BSum),
    ] {
        assert_eq!(size(&d), Err(refusal), "{d:?}");
    }
}
