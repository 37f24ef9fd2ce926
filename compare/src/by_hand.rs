//! Tables, lines and records put together by hand. Lines and records are well-formed, of any bytes.

use crate::types::{Counts, Design, Tables};

/// Tables in which the sum at x is the given one, from -1 to 2^24, and that of every other word is
/// out of range: x's own offsets are -1, all others so low and all other initial entries so high
/// that none of them makes up for another.
pub fn lone_word(d: &Design, x: u32, sum: i64) -> Tables {
    let mut tables = Tables::alike((1 << d.alpha, 0), u32::MAX, 0);
    tables.initial[(x >> (d.w - d.alpha)) as usize] = (sum + i64::from(d.m)) as u32;
    let mut p = 0;
    for &[a, b] in d.read_pairs() {
        let mut table = vec![-1 << 29; 1 << (a + b)];
        let (a_word, b_word) = (x >> (d.w - a), (x >> p) % (1 << b));
        table[(a_word << b | b_word) as usize] = -1;
        tables.offsets.extend(table);
        p += b;
    }
    tables
}

/// The class that the one word in range lands in, or outside if there is none.
pub fn lone_class(counts: &Counts) -> &'static str {
    match counts.all()[1..] {
        [0, 0, 0, 0] => "outside",
        [1, 0, 0, 0] => "nearest",
        [0, 1, 0, 0] => "faithful",
        [0, 0, 1, 0] => "low",
        [0, 0, 0, 1] => "high",
        _ => "more than one word in range",
    }
}

/// The digits of a frame whose last byte makes the sum right.
pub fn sealed(body: &[u8]) -> Vec<u8> {
    let sum = body.iter().fold(0u8, |sum, byte| sum.wrapping_add(*byte));
    let bytes = body.iter().copied().chain([sum.wrapping_neg()]);
    let digits = bytes.map(|byte| format!("{byte:02X}"));
    digits.collect::<String>().into_bytes()
}

/// An 01 line with the low bytes of a design's numbers, legal or not, and `pairs` pairs.
pub fn design_line(d: &Design, pairs: usize) -> Vec<u8> {
    let numbers = [1, d.kind, d.w, d.q, d.g, d.alpha, d.m];
    let pairs = d.pairs.iter().cycle().take(pairs);
    let numbers = numbers.into_iter().chain(pairs.copied().flatten());
    sealed(&numbers.map(|number| number as u8).collect::<Vec<_>>())
}

/// An 02 line of the last 3 bytes of any initial entry.
pub fn initial_line(index: usize, entry: u32) -> Vec<u8> {
    let [i1, i0] = (index as u16).to_be_bytes();
    let [_, entry @ ..] = entry.to_be_bytes();
    sealed(&[&[2, i1, i0], &entry[..]].concat())
}

/// A record of at most 255 data bytes.
pub fn record(address: u16, kind: u8, data: &[u8]) -> Vec<u8> {
    let [a1, a0] = address.to_be_bytes();
    let body = [&[data.len() as u8, a1, a0, kind], data].concat();
    [b":", &sealed(&body)[..]].concat()
}

/// A line or a record as text.
pub fn text(line: Vec<u8>) -> String {
    String::from_utf8(line).expect("digits")
}
