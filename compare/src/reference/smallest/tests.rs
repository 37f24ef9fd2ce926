//! The smallest cuts, by both versions.

use super::super::{legal, quick_smallest};
use super::*;
use crate::types::KINDS;

/// "Among equals take the first": each of these has two admitted designs with the fewest bits, and
/// the second has a larger g, a larger m or a larger b_0.
#[test]
fn first_of_two_smallest() {
    for (first, second, bits) in [
        (
            Design::cut([0, 6, 8, 3, 5], &[[3, 1]]),
            Design::cut([0, 6, 8, 4, 5], &[[2, 1]]),
            496,
        ),
        (
            Design::cut([3, 7, 8, 4, 4], &[[2, 2], [3, 1]]),
            Design::cut([3, 7, 8, 4, 4], &[[1, 1], [3, 1], [3, 1]]),
            416,
        ),
        (
            Design::cut([2, 6, 6, 3, 3], &[[1, 1], [1, 2]]),
            Design::cut([2, 6, 6, 3, 3], &[[1, 2], [1, 1]]),
            140,
        ),
    ] {
        let Design { kind, w, q, .. } = first;
        let mut at_most = vec![];
        every_legal(kind, w, q, |d, legal| {
            if legal.is_admitted() && legal.size() <= bits {
                at_most.push((*d, legal.size()));
            }
        });
        assert_eq!(at_most, [(first, bits), (second, bits)]);
        assert_eq!(smallest(kind, w, q), Ok((first, bits)));
        assert_eq!(quick_smallest(kind, w, q), Ok((first, bits)));
    }
}

/// The fewest bits of words of 8 bits, by both versions, and of the widest reciprocal.
#[test]
fn smallest_designs() {
    let reciprocal = Design::cut([0, 8, 8, 5, 5], &[[2, 1], [3, 1], [3, 1]]);
    let root = Design::cut([1, 8, 8, 4, 4], &[[1, 1], [1, 1], [1, 2]]);
    for (d, bits) in [(reciprocal, 728), (root, 308)] {
        assert_eq!(smallest(d.kind, 8, 8), Ok((d, bits)));
        assert_eq!(quick_smallest(d.kind, 8, 8), Ok((d, bits)));
    }
    let d = Design::cut([0, 16, 16, 4, 10], &[[5, 2], [6, 2], [7, 2]]);
    assert_eq!(quick_smallest(0, 16, 16), Ok((d, 30464)));
}

/// n over k.
fn binomial(n: u32, k: u32) -> u32 {
    (0..k).fold(1, |ways, i| ways * n.saturating_sub(i) / (i + 1))
}

/// Each legal design comes up once, in the order of the request. Up to w 10 each a may be anything
/// up to alpha and the b any m parts of w-alpha: no b is over 8 and no a+b over 12.
#[test]
fn every_legal_design() {
    for (w, q, guards) in [(6, 6, 5), (7, 15, 4), (8, 14, 5), (10, 16, 3)] {
        let mut keys = vec![];
        every_legal(0, w, q, |d, _| {
            assert_eq!(legal(d), Ok(()));
            assert_eq!(d.pairs[d.m as usize..], [[0, 0]; 4][d.m as usize..]);
            keys.push((d.g, d.alpha, d.m, d.pairs));
        });
        assert!(keys.is_sorted_by(|left, right| left < right));
        let cuts = |alpha: u32, m| alpha.pow(m) * binomial(w - alpha - 1, m - 1);
        let of_alpha = |alpha| (1..=4).map(|m| cuts(alpha, m)).sum::<u32>();
        let all: u32 = (2..w).map(of_alpha).sum();
        assert_eq!(keys.len() as u32, guards * all, "w {w}, q {q}");
    }
}

/// The refusal of a search, if there is one. Both versions give the same answer.
fn refused_search(kind: u32, w: u32, q: u32) -> Option<Refusal> {
    let answer = smallest(kind, w, q);
    assert_eq!(quick_smallest(kind, w, q), answer, "{kind} {w} {q}");
    answer.err()
}

/// The first of 1, 2 and 3 that is wrong.
#[test]
fn searches_refused() {
    for kind in [5, 6, 256, u32::MAX] {
        for (w, q) in [(8, 8), (5, 8), (8, 17), (17, 0)] {
            assert_eq!(refused_search(kind, w, q), Some(Refusal::Kind));
        }
    }
    for width in [0, 5, 17, 256, u32::MAX] {
        assert_eq!(refused_search(0, width, 8), Some(Refusal::W));
        assert_eq!(refused_search(4, width, width), Some(Refusal::W));
        assert_eq!(refused_search(0, 8, width), Some(Refusal::Q));
        assert_eq!(refused_search(4, 6, width), Some(Refusal::Q));
    }
}

/// 24 comes up where x has few bits for the precision: the greatest q without it, by kind, for w 6
/// to 8. From w 9 on every precision has an admitted design.
#[test]
fn widths_with_no_admitted_design() {
    for (w, greatest) in (6..).zip([
        [11, 14, 14, 13, 13],
        [13, 16, 16, 15, 15],
        [15, 16, 16, 16, 16],
    ]) {
        for (kind, q) in kinds_and_precisions() {
            let none = q > greatest[kind as usize];
            let refusal = none.then_some(Refusal::NoneAdmitted);
            assert_eq!(refused_search(kind, w, q), refusal, "{kind} {w} {q}");
        }
    }
    for w in 9..=16 {
        for (kind, q) in kinds_and_precisions() {
            assert!(quick_smallest(kind, w, q).is_ok(), "{kind} {w} {q}");
        }
    }
}

fn kinds_and_precisions() -> impl Iterator<Item = (u32, u32)> {
    KINDS.flat_map(|kind| (6..=16).map(move |q| (kind, q)))
}

/// Words of 6 to 8 bits are compared where 24 is looked for. With w 11 one table is not enough for
/// alpha 2.
#[test]
fn both_searches_of_wider_words() {
    for (kind, w, q) in [
        (0, 9, 16),
        (1, 9, 6),
        (3, 9, 9),
        (4, 9, 8),
        (2, 10, 11),
        (3, 10, 15),
        (0, 11, 16),
    ] {
        assert_eq!(smallest(kind, w, q), quick_smallest(kind, w, q));
    }
}
