//! The reference gives the same in 64 bits as in 128.

use compare::narrow::reference as narrow;
use compare::random::{largest, lengths, Random, LARGEST};
use compare::types::{Counts, Design, Tables, KINDS};
use compare::wide::reference as wide;

fn compare_set(random: &mut Random, d: &Design) {
    assert_eq!(wide::budget(d), narrow::budget(d), "{d:?}");
    assert_eq!(wide::size(d), narrow::size(d), "{d:?}");
    let mut left = random.filled(d);
    let mut right = left.clone();
    let filled = wide::fill(d, &mut left);
    let filled_narrow = narrow::fill(d, &mut right);
    assert_eq!((filled, &left), (filled_narrow, &right), "{d:?}");
    random.damage(d, &mut left);
    assert_eq!(wide::check(d, &left), narrow::check(d, &left), "{d:?}");
    assert_eq!(wide::count(d, &left), narrow::count(d, &left), "{d:?}");
}

#[test]
fn values() {
    for kind in KINDS {
        for (w, q, g) in [(6, 6, 2), (6, 16, 4), (16, 14, 6), (16, 16, 4), (16, 6, 2)] {
            for x in (0..1 << w).step_by(7) {
                let wide = wide::value(kind, w, q, g, x);
                assert_eq!(wide, narrow::value(kind, w, q, g, x));
            }
        }
    }
}

#[test]
fn sets() {
    let mut random = Random::new(5);
    for kind in KINDS {
        for _ in 0..200 {
            let d = random.legal(kind);
            compare_set(&mut random, &d);
        }
        let d = random.largest(kind);
        compare_set(&mut random, &d);
    }
}

/// All words as great as a sum in range can make them, at the greatest widths.
#[test]
fn greatest_words() {
    for kind in KINDS {
        let d = largest(kind, (16, 4), LARGEST[0]);
        let tables = Tables::alike(lengths(&d), (1 << 22) - 1, 0);
        let high = Counts {
            high: 1 << 16,
            ..Counts::default()
        };
        assert_eq!(wide::count(&d, &tables), Ok(high), "kind {kind}");
        assert_eq!(narrow::count(&d, &tables), Ok(high), "kind {kind}");
    }
}

#[test]
fn smallest_cuts() {
    for kind in KINDS {
        for (w, q) in (6..=16).flat_map(|w| (6..=16).map(move |q| (w, q))) {
            let found = wide::quick_smallest(kind, w, q);
            assert_eq!(found, narrow::quick_smallest(kind, w, q), "{kind} {w} {q}");
        }
    }
}
