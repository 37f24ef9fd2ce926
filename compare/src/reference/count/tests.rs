//! The five counts.

use super::super::check;
use super::super::examples::{filled, with_pair};
use super::*;
use crate::by_hand::{lone_class, lone_word};
use crate::random::{lengths, Random};
use crate::types::{Checked, G, KINDS};

/// Outside, nearest, faithful, low and high, in this order.
fn counted(d: &Design, tables: &Tables) -> [u32; 5] {
    count(d, tables).expect("a legal set").all()
}

#[test]
fn counts() {
    let mut tables = filled(&G);
    assert_eq!(counted(&G, &tables), [0, 239, 17, 0, 0]);
    tables.initial[0] = 4045;
    assert_eq!(counted(&G, &tables), [0, 238, 17, 1, 0]);
    let none = Tables::default();
    for (d, tables, refusal) in [
        (G, tables.start((31, 16384)), Refusal::Tables),
        (G, tables.start((8192, 63)), Refusal::Tables),
        (Design { kind: 5, ..G }, none.clone(), Refusal::Kind),
        (with_pair(3, 2), none, Refusal::BSum),
    ] {
        assert_eq!(count(&d, &tables), Err(refusal));
    }
}

/// All initial entries alike and all offsets alike, so that all sums are: a word 0 is too low, and
/// sums out of range are so at either end, however far.
#[test]
fn counts_of_one_sum() {
    let (outside, low, high) = ([256, 0, 0, 0, 0], [0, 0, 0, 256, 0], [0, 0, 0, 0, 256]);
    for (entry, offset, counts) in [
        (0, 0, low),
        (0, -1, outside),
        (1, -1, low),
        (0, 15, low),
        (0, 16, low),
        ((1 << 14) - 1, 0, high),
        (1 << 14, -1, high),
        (1 << 14, 0, outside),
        (u32::MAX, i32::MIN, outside),
        (u32::MAX, i32::MAX, outside),
        (0, i32::MIN, outside),
        (1 << 31, i32::MIN, low),
    ] {
        let tables = Tables::alike((32, 64), entry, offset);
        assert_eq!(counted(&G, &tables), counts, "{entry} {offset}");
    }
}

/// The class of a word of x, made from its lowest sum and from its highest.
fn class(d: &Design, x: u32, y: i64) -> &'static str {
    let ends = [y << d.g, ((y + 1) << d.g) - 1].map(|sum| {
        let counts = count(d, &lone_word(d, x, sum)).expect("a legal set");
        assert_eq!(counts.all().iter().sum::<u32>(), 1 << d.w);
        lone_class(&counts)
    });
    assert_eq!(ends[0], ends[1]);
    ends[0]
}

fn classes<const N: usize>(d: &Design, x: u32, words: [i64; N]) -> [&'static str; N] {
    words.map(|y| class(d, x, y))
}

/// Request A1's "the half included". With kind 1, w 14 and q 6, X is 129² at x 257, and E is
/// 64·129/128 = 64.5 output units; with kind 2 and w 15, X is 183² at x 721, and E is 91.5. At the
/// words beside them E is a little less and a little more.
#[test]
fn halves_are_nearest() {
    let middle = ["low", "nearest", "nearest", "high"];
    let below = ["low", "nearest", "faithful", "high"];
    let above = ["low", "faithful", "nearest", "high"];
    let d = Design::cut([1, 14, 6, 2, 5], &[[3, 4], [5, 5]]);
    for (x, expected) in [(256, below), (257, middle), (258, above)] {
        assert_eq!(classes(&d, x, [63, 64, 65, 66]), expected);
    }
    let d = Design::cut([2, 15, 6, 2, 10], &[[10, 2], [1, 3]]);
    for (x, expected) in [(720, below), (721, middle), (722, above)] {
        assert_eq!(classes(&d, x, [90, 91, 92, 93]), expected);
    }
}

/// A whole unit is too far, half a unit is not: E is 256 at x 0 for kinds 0, 1 and 3, and
/// 2^8·3/2 = 384 at x 32, argument 9/4, for kind 2.
#[test]
fn whole_units_are_too_far() {
    for (kind, x, exact) in [(0, 0, 256), (1, 0, 256), (3, 0, 256), (2, 32, 384)] {
        let d = Design { kind, ..G };
        let words = [0, 1, exact - 1, exact, exact + 1, 1023];
        let expected = ["low", "low", "low", "nearest", "high", "high"];
        assert_eq!(classes(&d, x, words), expected, "kind {kind}");
        assert_eq!(class(&d, x, 1024), "outside");
    }
}

/// Kinds without halves and whole units at the last word of G's widths: E is 128.25 for kind 0,
/// 181.20 for kind 3, 128.13 for kind 4.
#[test]
fn words_beside_the_exact_value() {
    let expected = ["low", "nearest", "faithful", "high"];
    for (kind, floor) in [(0, 128), (3, 181), (4, 128)] {
        let d = Design { kind, ..G };
        let words = [floor - 1, floor, floor + 1, floor + 2];
        assert_eq!(classes(&d, 255, words), expected, "kind {kind}");
    }
}

/// An admitted design of each kind with one to four tables.
fn all_numbers_of_tables() -> impl Iterator<Item = Design> {
    let pairs: [&[[u32; 2]]; 4] = [
        &[[5, 4]],
        &[[4, 2], [5, 2]],
        &[[3, 1], [4, 2], [5, 1]],
        &[[3, 1], [4, 1], [4, 1], [5, 1]],
    ];
    KINDS.flat_map(move |kind| pairs.map(|pairs| Design::cut([kind, 9, 8, 6, 5], pairs)))
}

/// Moves some entries of a set, by at most `reach`.
fn move_entries(random: &mut Random, reach: u32, tables: &mut Tables) {
    let (initial, offsets) = tables.lengths();
    for _ in 0..random.place(6) {
        let change = random.within(0..=2 * reach) as i32 - reach as i32;
        let place = random.place(initial + offsets);
        match place.checked_sub(initial) {
            None => tables.initial[place] = tables.initial[place].wrapping_add_signed(change),
            Some(place) => tables.offsets[place] += change,
        }
    }
}

/// Whether the check says faithful, which it does exactly when the counts say so.
fn agreed(d: &Design, tables: &Tables) -> bool {
    let (counts, checked) = (count(d, tables).unwrap(), check(d, tables).unwrap());
    assert!(counts.agree_with(d, checked), "{d:?} {counts:?}");
    checked == Checked::Faithful
}

/// Filled sets, then with some entries moved by more and more.
#[test]
fn counts_and_verdicts_agree() {
    let mut random = Random::new(3);
    let mut verdicts = [0; 2];
    for d in all_numbers_of_tables() {
        let set = filled(&d).start(lengths(&d));
        assert!(agreed(&d, &set));
        for reach in (0..64).map(|round| 1 << (round / 4)) {
            let mut moved = set.clone();
            move_entries(&mut random, reach, &mut moved);
            verdicts[usize::from(agreed(&d, &moved))] += 1;
        }
    }
    assert!(verdicts.iter().all(|&times| times > 500), "{verdicts:?}");
}
