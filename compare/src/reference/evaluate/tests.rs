//! Sums, words and batches.

use super::super::examples::{filled, three_tables};
use super::*;
use crate::types::{G, KINDS};

#[test]
fn words() {
    let tables = filled(&G);
    for (x, y, word) in [(0, 4100, 256), (7, 3999, 249), (255, 2060, 128)] {
        assert_eq!(sum(&G, &tables, x), Ok(y));
        assert_eq!(evaluate(&G, &tables, x), Ok(word));
    }
    assert_eq!(evaluate(&G, &tables, 256), Err(Refusal::Word));
    for lengths in [(31, 16384), (8192, 63)] {
        let short = tables.start(lengths);
        assert_eq!(evaluate(&G, &short, 256), Err(Refusal::Tables));
    }
}

#[test]
fn batches() {
    let mut tables = filled(&G);
    let mut output = [9; 4];
    let mut batch = |tables: &Tables, words: &[u32]| {
        let answer = evaluate_batch(&G, tables, words, &mut output);
        (answer, output)
    };
    let refused = |refusal, place| Err((refusal, place));
    assert_eq!(batch(&tables, &[]), (Ok(0), [9; 4]));
    let word = refused(Refusal::Word, 2);
    assert_eq!(batch(&tables, &[0, 7, 256, 999]), (word, [9; 4]));
    let output = refused(Refusal::Output, 0);
    assert_eq!(batch(&tables, &[0; 5]), (output, [9; 4]));
    let kept = [256, 249, 128, 9];
    assert_eq!(batch(&tables, &[0, 7, 255]), (Ok(3), kept));
    tables.initial[0] = 1 << 14;
    let range = refused(Refusal::Range, 1);
    assert_eq!(batch(&tables, &[8, 0, 256]), (range, kept));
    let word = refused(Refusal::Word, 1);
    assert_eq!(batch(&tables, &[8, 256, 0]), (word, kept));
}

/// A batch longer than the set is judged in another way than a short one.
#[test]
fn long_batches() {
    let mut tables = filled(&G);
    let mut words: Vec<u32> = (0..256).cycle().take(1000).collect();
    let mut output = vec![9; 1001];
    let accepted = evaluate_batch(&G, &tables, &words, &mut output);
    assert_eq!(accepted, Ok(1000));
    for (&x, &word) in words.iter().zip(&output) {
        assert_eq!(evaluate(&G, &tables, x), Ok(word));
    }
    let before = output.clone();
    words[700] = 256;
    let refused = evaluate_batch(&G, &tables, &words, &mut output);
    assert_eq!((refused, &output), (Err((Refusal::Word, 700)), &before));
    words[700] = 0;
    tables.initial[2] = 0;
    let refused = evaluate_batch(&G, &tables, &words, &mut output);
    assert_eq!((refused, &output), (Err((Refusal::Range, 20)), &before));
}

/// Words are looked up by shifts and masks; the sum is worked out as the document has it.
#[test]
fn every_word_is_that_of_the_sum() {
    for d in KINDS.map(three_tables) {
        let tables = filled(&d);
        for x in 0..1 << d.w {
            let y = sum(&d, &tables, x).expect("a sum");
            let word = u32::try_from(y >> d.g);
            assert_eq!(evaluate(&d, &tables, x).ok(), word.ok());
        }
    }
}

/// Trap: the half unit added at filling and again at evaluation. The sum is of entries alone.
#[test]
fn nothing_is_added_at_evaluation() {
    let tables = Tables::alike((32, 160), 100, -3);
    assert_eq!(sum(&three_tables(0), &tables, 0), Ok(91));
}
