//! Filled tables.

use super::super::examples::filled;
use crate::types::{Design, G};

#[test]
fn entries() {
    let tables = filled(&G);
    assert_eq!(tables.initial[0], 4050);
    assert_eq!(tables.offsets[..8], [50, 35, 21, 7, -8, -22, -36, -51]);
    assert_eq!((tables.initial[32], tables.offsets[64]), (0, 0));
    // Segment 0 begins with a whole value, so that T of its second and its last but one is one less.
    let tables = filled(&Design::cut([0, 9, 6, 3, 4], &[[3, 5]]));
    assert_eq!(tables.offsets[..2], [13, 12]);
    assert_eq!(tables.offsets[30..32], [-13, -14]);
}
