//! Lines written and read, and empty lines between sets. The set of G has 98 lines.

use super::super::examples::{filled, three_tables, with_pair};
use super::*;
use crate::random::lengths;
use crate::types::G;

/// The first and the last line of G's set.
const FIRST: &str = "010008080405010303DF";
const LAST: &str = "0400619B";

/// Reads a line for a design with some lines taken. A refused one gives back the state.
fn read(design: Design, taken: usize, tables: &mut Tables, line: &str) -> Result<(), Refusal> {
    let state = LineReading { design, taken };
    let (answer, next) = read_line(state, tables, line.as_bytes());
    assert!(answer.is_ok() || next == state);
    answer
}

#[test]
fn written_lines() {
    let tables = filled(&G);
    let mut line = [b'.'; 40];
    for (number, text) in [
        (0, FIRST),
        (1, "020000000FD21D"),
        (33, "03000000000032CB"),
        (40, "03000007FFFFCD2B"),
        (97, LAST),
    ] {
        line.fill(b'.');
        let length = write_line(&G, &tables, number, &mut line).unwrap();
        assert_eq!(&line[..length], text.as_bytes());
        assert!(line[length..].iter().all(|&character| character == b'.'));
    }
    let past_set = write_line(&G, &tables, 98, &mut line);
    assert_eq!(past_set, Err(Refusal::PastSet));
    let short = write_line(&G, &tables, 97, &mut line[..7]);
    assert_eq!(short, Err(Refusal::Output));
}

#[test]
fn entries_that_do_not_fit() {
    let mut tables = filled(&G);
    let mut line = [0; 16];
    for (entry, answer) in [
        (1 << 24, Err(Refusal::Entry)),
        ((1 << 24) - 1, Err(Refusal::Initial)),
        (1 << 14, Err(Refusal::Initial)),
        ((1 << 14) - 1, Ok(14)),
    ] {
        tables.initial[0] = entry;
        assert_eq!(write_line(&G, &tables, 1, &mut line), answer);
    }
    for (entry, answer) in [
        (1 << 23, Err(Refusal::Entry)),
        ((1 << 23) - 1, Ok(16)),
        (-(1 << 23), Ok(16)),
        (-(1 << 23) - 1, Err(Refusal::Entry)),
    ] {
        tables.offsets[0] = entry;
        assert_eq!(write_line(&G, &tables, 33, &mut line), answer);
    }
}

#[test]
fn lines_refused() {
    let illegal = Design { kind: 9, ..G };
    let mut tables = Tables::alike((32, 64), 5, 5);
    for (taken, design, line, answer) in [
        (1, illegal, "", Err(Refusal::State)),
        (99, G, "", Err(Refusal::State)),
        (98, G, "\r", Err(Refusal::Line)),
        (98, G, LAST, Err(Refusal::Frame)),
        (97, G, "0400609C", Err(Refusal::Frame)),
        (97, G, LAST, Ok(())),
        (0, illegal, FIRST, Ok(())),
        (0, G, "010008080405010303DE", Err(Refusal::Line)),
        (0, G, "010008080405010303df", Err(Refusal::Line)),
        (0, G, "010008080405010303DF\r", Err(Refusal::Line)),
        (0, G, "00", Err(Refusal::Frame)),
        (0, G, "01FF", Err(Refusal::Frame)),
        (1, G, FIRST, Err(Refusal::Frame)),
        (1, G, "020001000FD21C", Err(Refusal::Frame)),
        (1, G, "020000000FD21D", Ok(())),
        // m = 0 has a frame of its own length and is refused as a design.
        (0, G, "01000808040500E6", Err(Refusal::M)),
    ] {
        assert_eq!(read(design, taken, &mut tables, line), answer, "{line}");
    }
    assert_eq!(tables.initial[..2], [4050, 5]);
}

/// G's limit is 2^14. The other lines of a set with such an entry are written, and an offset of that
/// size is; 23 comes before 14.
#[test]
fn initial_entries_beyond_the_limit() {
    let refused = Err(Refusal::Initial);
    let mut tables = filled(&G);
    let mut line = [0; 20];
    (tables.initial[0], tables.offsets[0]) = (1 << 14, 1 << 14);
    for (number, answer) in [(0, Ok(20)), (1, refused), (2, Ok(14)), (33, Ok(16))] {
        let written = write_line(&G, &tables, number, &mut line);
        assert_eq!(written, answer);
    }
    assert_eq!(write_line(&G, &tables, 1, &mut []), refused);
    for (taken, line, answer) in [
        (1, "020000003FFFC0", Ok(())),
        (1, "020000004000BE", Err(Refusal::Initial)),
        (1, "020001004000BD", Err(Refusal::Frame)),
        (33, "03000000004000BD", Ok(())),
    ] {
        let state = LineReading { design: G, taken };
        let (found, next) = read_line(state, &mut tables, line.as_bytes());
        assert_eq!(found, answer);
        assert_eq!(next.taken, taken + usize::from(answer.is_ok()));
    }
    assert_eq!(tables.initial[0], 16383);
}

#[test]
fn tables_come_last() {
    let mut tables = Tables::alike((31, 64), 5, 5);
    for (line, refusal) in [
        ("020000000FD21D", Refusal::Tables),
        ("020000004000BE", Refusal::Initial),
        ("020001000FD21C", Refusal::Frame),
    ] {
        assert_eq!(read(G, 1, &mut tables, line), Err(refusal));
    }
    assert_eq!(tables.initial[0], 5);
}

/// What an empty line does in a state of G, and in states of a design that is not legal: the answer,
/// and the lines taken afterwards. The tables are too short for any set, and all the rest stands as it
/// came, pairs beyond m, too.
fn after_empty_line(design: Design, taken: usize) -> (Result<(), Refusal>, usize) {
    let state = LineReading { design, taken };
    let before = Tables::alike((1, 0), 5, 0);
    let mut tables = before.clone();
    let (answer, next) = read_line(state, &mut tables, b"");
    assert_eq!((next.design, tables), (design, before));
    (answer, next.taken)
}

#[test]
fn empty_lines() {
    let mut d = G;
    d.pairs[1..].copy_from_slice(&[[7, 0], [u32::MAX, 9], [1, 1]]);
    let illegal = Design { kind: 9, ..d };
    for design in [d, illegal, Design { m: 77, ..d }, with_pair(3, 2)] {
        assert_eq!(after_empty_line(design, 0), (Ok(()), 0));
    }
    for taken in 1..98 {
        assert_eq!(after_empty_line(d, taken), (Err(Refusal::Frame), taken));
    }
    assert_eq!(after_empty_line(d, 98), (Ok(()), 0));
    let impossible = |taken| (Err(Refusal::State), taken);
    for taken in [99, 196, usize::MAX] {
        assert_eq!(after_empty_line(d, taken), impossible(taken));
    }
    for taken in [1, 2, 97, 98, 99, usize::MAX] {
        assert_eq!(after_empty_line(illegal, taken), impossible(taken));
        assert_eq!(after_empty_line(with_pair(3, 2), taken), impossible(taken));
    }
}

/// Only a line with no byte at all is empty.
#[test]
fn lines_that_are_not_empty() {
    for line in ["\r", " ", "\0", "0", "\n"] {
        for taken in [0, 1, 97, 98, 99] {
            let refusal = match taken {
                99 => Refusal::State,
                _ => Refusal::Line,
            };
            let answer = read(G, taken, &mut Tables::default(), line);
            assert_eq!(answer, Err(refusal), "{line:?}");
        }
        assert_eq!(read_design(line.as_bytes()), Err(Refusal::Line));
    }
    assert_eq!(read_design(b""), Err(Refusal::Line));
    assert_eq!(read_design(FIRST.as_bytes()), Ok(G));
}

/// The state after G's last line: nothing but an empty line leads on from it. From there on the
/// design of the set before is not read, and stands as long as lines are refused.
#[test]
fn next_set_after_an_empty_line() {
    let of_first = |taken| LineReading { design: G, taken };
    let (finished, begun) = (of_first(98), of_first(0));
    let design = Design::cut([0, 6, 6, 2, 2], &[[1, 1]; 4]);
    let of_second = |taken| LineReading { design, taken };
    let second = "010006060202040101010101010101E3";
    // As long as the second set needs, with 4 initial entries and 16 offsets, and too short for G's.
    let mut tables = Tables::alike((4, 16), 5, 5);
    for (state, line, answer, next) in [
        (finished, FIRST, Err(Refusal::Frame), finished),
        (finished, second, Err(Refusal::Frame), finished),
        (finished, "", Ok(()), begun),
        (begun, "", Ok(()), begun),
        (begun, LAST, Err(Refusal::Frame), begun),
        (begun, "010508080405010303DA", Err(Refusal::Kind), begun),
        (begun, FIRST, Err(Refusal::Tables), begun),
        (begun, second, Ok(()), of_second(1)),
        (of_second(1), "", Err(Refusal::Frame), of_second(1)),
        // Its limit is 2^10, that of G 2^14.
        (
            of_second(1),
            "020000000400FA",
            Err(Refusal::Initial),
            of_second(1),
        ),
        (of_second(1), "0200000003FFFC", Ok(()), of_second(2)),
    ] {
        let found = read_line(state, &mut tables, line.as_bytes());
        assert_eq!(found, (answer, next), "{line}");
    }
    let Tables { initial, offsets } = tables;
    assert_eq!((&initial[..2], offsets[0]), (&[1023, 5][..], 5));
}

/// Reads some empty lines, each of which is passed over or begins anew.
fn read_empty_lines(mut state: LineReading, lines: usize) -> LineReading {
    for _ in 0..lines {
        let next = LineReading { taken: 0, ..state };
        let read = read_line(state, &mut Tables::default(), b"");
        assert_eq!(read, (Ok(()), next));
        state = next;
    }
    state
}

/// Reads the lines of a filled set. What lies beyond it in the tables stands.
fn read_filled(mut state: LineReading, d: &Design, tables: &mut Tables) -> LineReading {
    let set = filled(d).start(lengths(d));
    let mut expected = set.clone();
    expected
        .initial
        .extend(&tables.initial[set.initial.len()..]);
    expected
        .offsets
        .extend(&tables.offsets[set.offsets.len()..]);
    for taken in 0.. {
        let mut line = [0; 32];
        let Ok(length) = write_line(d, &set, taken, &mut line) else {
            break;
        };
        assert!(!lines_finished(&state));
        let (answer, next) = read_line(state, tables, &line[..length]);
        assert_eq!((answer, next.taken), (Ok(()), taken + 1));
        state = next;
    }
    assert!(lines_finished(&state));
    assert_eq!((state.design, &*tables), (*d, &expected));
    state
}

/// A whole set written and read back.
#[test]
fn lines_read_back() {
    let d = three_tables(2);
    let design = Design { kind: 77, ..d };
    let mut tables = Tables::alike((33, 145), 5, 5);
    let state = read_filled(LineReading { design, taken: 0 }, &d, &mut tables);
    assert_eq!(state.taken, 2 + 32 + 16 + 64 + 64);
}

/// "Their lines with one empty line between sets read back to each set in turn", also with more
/// empty lines, and with some around all of them.
#[test]
fn several_sets_read_back() {
    let narrow = Design::cut([2, 6, 6, 3, 3], &[[1, 1], [1, 2]]);
    let sets = [three_tables(2), narrow, G, three_tables(0)];
    for (around, between) in [(0, 1), (1, 1), (0, 2), (3, 5)] {
        let mut tables = Tables::alike((33, 145), 5, 5);
        let design = with_pair(3, 2);
        let mut state = read_empty_lines(LineReading { design, taken: 0 }, around);
        for (number, d) in sets.iter().enumerate() {
            let empty = if number == 0 { 0 } else { between };
            state = read_filled(read_empty_lines(state, empty), d, &mut tables);
        }
        state = read_empty_lines(state, around);
        assert_eq!(lines_finished(&state), around == 0);
    }
}
