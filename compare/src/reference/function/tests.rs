//! Exact values: the document's examples, and the inequalities as they stand.

use super::*;
use crate::types::KINDS;

fn number(floor: i64, whole: bool) -> Result<Value, Refusal> {
    Ok(Value { floor, whole })
}

#[test]
fn values() {
    assert_eq!(value(1, 8, 8, 4, 255), number(5786, false));
    assert_eq!(value(4, 8, 8, 4, 0), number(2896, false));
    assert!(value(0, 8, 8, 4, 255).is_ok());
    assert_eq!(value(0, 8, 8, 4, 256), Err(Refusal::Word));
    assert_eq!(value(5, 5, 8, 4, 0), Err(Refusal::Kind));
}

/// The greatest n of each kind's own inequality, at every limit of the widths.
#[test]
fn values_by_definition() {
    let c = [1u128, 1, 2, 1, 2];
    for kind in KINDS {
        for (w, q, g) in [(6, 6, 2), (6, 16, 4), (16, 6, 2), (16, 14, 6), (16, 16, 4)] {
            for x in [0, 1, 2, (1 << w) / 3, (1 << w) - 2, (1 << w) - 1] {
                let Value { floor, whole } = value(kind, w, q, g, x).unwrap();
                let n = floor as u128;
                let (p, argument) = (q + g, (1u128 << w) + u128::from(x));
                let scaled = c[kind as usize] * argument;
                let sides = |n: u128| match kind {
                    0 => (n * argument, 1u128 << (p + w)),
                    1 | 2 => ((n * n) << w, scaled << (2 * p)),
                    _ => (n * n * scaled, 1 << (2 * p + w)),
                };
                let at_most = |n| sides(n).0 <= sides(n).1;
                assert!(at_most(n) && !at_most(n + 1), "{kind} {w} {q} {g} {x}");
                let exactly = sides(n).0 == sides(n).1;
                assert_eq!(whole, exactly, "{kind} {w} {q} {g} {x}");
            }
        }
    }
}

/// Whole values: of kind 1 where X·2^w is a square, of kind 2 where 2·X·2^w is. Of kinds 0, 3 and 4 X
/// would divide a power of 2, so that it is 2^w; there those of kinds 0 and 3 are, and 2^(2P-1) is no
/// square.
#[test]
fn whole_values() {
    let square = |n: u64| n.isqrt() * n.isqrt() == n;
    for kind in KINDS {
        for (w, q, g) in [(6, 6, 2), (7, 16, 4), (9, 9, 4), (12, 8, 3)] {
            for x in 0..1 << w {
                let argument = (1u64 << w) + u64::from(x);
                let expected = match kind {
                    0 | 3 => x == 0,
                    1 => square(argument << w),
                    2 => square(argument << (w + 1)),
                    _ => false,
                };
                let found = value(kind, w, q, g, x).unwrap().whole;
                assert_eq!(found, expected, "{kind} {w} {q} {g} {x}");
            }
        }
    }
    assert_eq!(value(0, 8, 8, 4, 0), number(4096, true));
    assert_eq!(value(1, 6, 6, 4, 36), number(1280, true));
    assert_eq!(value(2, 6, 6, 4, 8), number(1536, true));
}

/// A root needs no w below 2P: where 4^P / 2^w is no whole number, the rest is cut off under the
/// root. No legal width is that large.
#[test]
fn roots_of_wide_words() {
    for kind in 1..=2 {
        let least = Function::new(kind, 16, 6, 2).unwrap();
        for w in [15, 16, 17, 18, 20, 24] {
            let function = Function { w, ..least };
            for x in [0, 1, 2, (1 << w) / 3, (1 << w) - 2, (1 << w) - 1] {
                let argument = function.argument(x);
                let n = function.floor(argument);
                let at_most = |n: Int| (n * n) << w <= (function.row.c * argument) << 16;
                assert!(at_most(n) && !at_most(n + 1), "{kind} {w} {x}");
            }
        }
    }
}
