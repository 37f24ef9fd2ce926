//! Widths by the greatest offset, on which the quick search rests.

use super::super::size::width;
use super::*;
use crate::types::KINDS;

/// The width of a table by its greatest T alone.
fn width_by_greatest(function: &Function, table: &Table) -> u32 {
    let sums = (0..1 << table.a).map(|number| {
        let (hi, lo) = slopes(function, table, number);
        hi + lo
    });
    width_of_greatest(fitting(sums.max().unwrap()), table.b, table.p)
}

/// Every table of legal designs of a w: a is at most alpha, and alpha at least 2.
fn every_table(w: u32) -> impl Iterator<Item = Table> {
    let pairs = (1..12).flat_map(|a| (1..=8.min(12 - a)).map(move |b| (a, b)));
    pairs.flat_map(move |(a, b)| {
        let places = 0..(w + 1).saturating_sub(a.max(2) + b);
        places.map(move |p| Table { a, b, p, start: 0 })
    })
}

/// The greatest offset of a table decides its width, and the next a has no fewer bits.
#[test]
fn widths_by_greatest_offset() {
    let mut widths = [0; 32];
    for kind in KINDS {
        for (w, q, g) in [(6, 6, 2), (6, 16, 4), (9, 10, 3), (16, 6, 2), (16, 16, 4)] {
            let function = Function::new(kind, w, q, g).unwrap();
            for table in every_table(w) {
                let width = width(&function, &table);
                assert_eq!(width, width_by_greatest(&function, &table), "{table:?}");
                let a = table.a + 1;
                let next = width_by_greatest(&function, &Table { a, ..table });
                assert!(2 * next >= width, "{table:?}");
                widths[width as usize] += 1;
            }
        }
    }
    assert!(
        widths[1..=18].iter().all(|&tables| tables > 4),
        "{widths:?}"
    );
}
