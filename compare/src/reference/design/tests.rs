//! Designs that are refused.

use super::super::examples::with_pair;
use super::*;
use crate::types::G;

#[test]
fn refused_designs() {
    let twelve = |a, b| Design::new([0, 16, 8, 4, 12, 1], [[a, b]; 4]);
    assert_eq!(legal(&Design { q: 16, g: 4, ..G }), Ok(()));
    assert_eq!(legal(&twelve(8, 4)), Ok(()));
    for (d, refusal) in [
        (Design { q: 16, g: 5, ..G }, Refusal::G),
        (Design { kind: 5, w: 5, ..G }, Refusal::Kind),
        (twelve(9, 4), Refusal::B),
        (with_pair(3, u32::MAX), Refusal::B),
        (with_pair(u32::MAX, 3), Refusal::A),
        (Design { m: u32::MAX, ..G }, Refusal::M),
        (Design { alpha: 8, ..G }, Refusal::Alpha),
        (with_pair(3, 2), Refusal::BSum),
        // 7 is tried on all tables before 8.
        (Design::cut([0, 8, 8, 4, 5], &[[3, 9], [6, 1]]), Refusal::A),
    ] {
        assert_eq!(legal(&d), Err(refusal), "{d:?}");
    }
}
