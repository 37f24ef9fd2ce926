//! Records written and read. G's 96 entries take 288 bytes, which fill 18 records.

use super::super::examples::{filled, three_tables, with_pair};
use super::*;
use crate::by_hand::record;
use crate::types::{G, KINDS};

/// The first two, the last data record and the end record of G filled, by their numbers.
const RECORDS: [(usize, &str); 4] = [
    (0, ":10000000000FD2000F59000EE7000E7B000E160005"),
    (1, ":100010000DB6000D5B000D04000CB2000C64000C6A"),
    (17, ":1001100006000002FFFFFDFFFFF9FFFFF5FFFFF103"),
    (18, ":00000001FF"),
];

#[test]
fn written_records() {
    let tables = filled(&G);
    let mut text = [b'.'; 50];
    for (number, record) in RECORDS {
        text.fill(b'.');
        let length = write_record(&G, &tables, number, &mut text).unwrap();
        assert_eq!(&text[..length], record.as_bytes());
        assert!(text[length..].iter().all(|&character| character == b'.'));
    }
    for number in [19, 20, usize::MAX] {
        let answer = write_record(&G, &tables, number, &mut []);
        assert_eq!(answer, Err(Refusal::PastSet));
    }
    for (number, length) in [(0, 43), (17, 43), (18, 11)] {
        let mut write = |room| write_record(&G, &tables, number, &mut text[..room]);
        assert_eq!(write(length - 1), Err(Refusal::Output));
        assert_eq!(write(length), Ok(length));
    }
    let short = write_record(&G, &tables.start((31, 0)), 99, &mut []);
    assert_eq!(short, Err(Refusal::Tables));
}

/// 20 entries take 60 bytes: the fourth record has 12 of them.
#[test]
fn shorter_last_record() {
    let d = Design::cut([0, 6, 6, 2, 2], &[[1, 1]; 4]);
    let tables = Tables {
        initial: vec![1, 2, 3, 0xABCDEF],
        offsets: vec![-1; 16],
    };
    let mut text = [0; 43];
    for (number, record) in [
        (0, ":10000000000001000002000003ABCDEFFFFFFFFF87"),
        (3, ":0C003000FFFFFFFFFFFFFFFFFFFFFFFFD0"),
        (4, ":00000001FF"),
    ] {
        let length = write_record(&d, &tables, number, &mut text).unwrap();
        assert_eq!(&text[..length], record.as_bytes());
    }
    let past_set = write_record(&d, &tables, 5, &mut text);
    assert_eq!(past_set, Err(Refusal::PastSet));
}

/// Entry 5 has a byte in record 0 and two in record 1, offset 58 two in record 16 and one in
/// record 17, and offset 59 lies in record 17 alone.
#[test]
fn cut_entries_that_do_not_fit() {
    let set = filled(&G);
    let refused = |tables: &Tables| -> Vec<usize> {
        let write = |number| write_record(&G, tables, number, &mut [0; 43]);
        let refused = |&number: &usize| write(number) == Err(Refusal::Entry);
        (0..19).filter(refused).collect()
    };
    assert_eq!(refused(&set), []);
    for (entry, records) in [(1 << 24, vec![0, 1]), ((1 << 24) - 1, vec![])] {
        let mut tables = set.clone();
        tables.initial[5] = entry;
        assert_eq!(refused(&tables), records);
    }
    for (place, offset, records) in [
        (58, 1 << 23, vec![16, 17]),
        (58, -(1 << 23) - 1, vec![16, 17]),
        (58, -(1 << 23), vec![]),
        (59, 1 << 23, vec![17]),
        (59, (1 << 23) - 1, vec![]),
        (64, 1 << 23, vec![]),
    ] {
        let mut tables = set.clone();
        tables.offsets[place] = offset;
        assert_eq!(refused(&tables), records);
    }
}

/// A record stores the entries whose third byte it brings, and holds what is cut. Initial entries
/// 5 and 10 of G are cut by the ends of its first two records.
#[test]
fn cut_entries_are_held() {
    let set = filled(&G);
    let mut tables = Tables::alike((33, 65), 7, 7);
    let mut state = RecordReading::default();
    let held = [[0, 0], [0, 12], [0, 0], [0, 0]];
    for (number, stored) in [5, 10, 16, 21].into_iter().enumerate() {
        let mut text = [0; 43];
        assert_eq!(write_record(&G, &set, number, &mut text), Ok(43));
        let (answer, next) = read_record(state, &G, &mut tables, &text);
        let (taken, held) = (number + 1, held[number]);
        assert_eq!((answer, next), (Ok(()), RecordReading { taken, held }));
        assert_eq!(tables.initial[..stored], set.initial[..stored]);
        assert!(tables.initial[stored..].iter().all(|&entry| entry == 7));
        state = next;
    }
    assert_eq!(tables.offsets, vec![7; 65]);
}

/// Whole sets written and read back, with what lies beyond them.
#[test]
fn records_read_back() {
    for d in KINDS.map(three_tables) {
        let set = filled(&d);
        let mut tables = Tables::alike((33, 145), 5, 5);
        let mut state = RecordReading::default();
        while !records_finished(&state, &d) {
            let mut text = [0; 43];
            let length = write_record(&d, &set, state.taken, &mut text).unwrap();
            let (answer, next) = read_record(state, &d, &mut tables, &text[..length]);
            assert_eq!((answer, next.taken), (Ok(()), state.taken + 1));
            state = next;
        }
        // 176 entries take 528 bytes.
        let (taken, held) = (33 + 1, [0, 0]);
        assert_eq!(state, RecordReading { taken, held });
        assert_eq!(tables.start((32, 144)), set.start((32, 144)));
        assert_eq!((tables.initial[32], tables.offsets[144]), (5, 5));
    }
}

/// Reads a record for G in a state. A refused one changes nothing.
fn read(taken: usize, held: [u8; 2], record: &[u8]) -> Result<(), Refusal> {
    let state = RecordReading { taken, held };
    let before = Tables::alike((32, 64), 5, 5);
    let mut tables = before.clone();
    let (answer, next) = read_record(state, &G, &mut tables, record);
    if answer.is_err() {
        assert_eq!((next, tables), (state, before));
    }
    answer
}

/// Reads a record where the first one is expected.
fn read_first(text: &str) -> Result<(), Refusal> {
    read(0, [0, 0], text.as_bytes())
}

#[test]
fn records_that_are_not_sound() {
    let first = RECORDS[0].1;
    assert_eq!(read_first(first), Ok(()));
    for text in [
        "",
        ":",
        ":0",
        ":00",
        ":00000000",
        &first[1..],
        &first[..42],
        &first[..41],
        &first.replace(':', ";"),
        &first.replace("FD2", "fd2"),
        &first.replace("FD2", "FG2"),
        &first.replace("FD2", "FD3"),
        &first.replace("05", "06"),
        &format!("{first}\r"),
        &format!("{first}0"),
        &format!("{first}00"),
        &format!(" {first}"),
        // Another length byte, with its sum.
        &first.replace(":10", ":0F").replace("05", "06"),
        &first.replace(":10", ":11").replace("05", "04"),
        &(":FF".to_string() + &"0".repeat(516) + "02"),
        &(":FF".to_string() + &"0".repeat(516) + "0100"),
    ] {
        assert_eq!(read_first(text), Err(Refusal::Record), "{text}");
    }
}

#[test]
fn sound_records_that_are_not_due() {
    let [first, second, last, end] = RECORDS.map(|(_, text)| text);
    let changed = |head| first.replace(":10000000", head).replace("05", "04");
    for text in [
        second,
        last,
        end,
        ":0000000000",
        &changed(":10000001"),
        &changed(":10000100"),
        &changed(":10010000"),
        &(":FF".to_string() + &"0".repeat(516) + "01"),
    ] {
        assert_eq!(read_first(text), Err(Refusal::RecordHead), "{text}");
    }
}

/// Well-formed records of every length: the expected one has 16 bytes.
#[test]
fn records_of_every_length() {
    for length in 0..=255 {
        let answer = match length {
            16 => Ok(()),
            _ => Err(Refusal::RecordHead),
        };
        let record = record(0, 0, &vec![1; length]);
        assert_eq!(read(0, [0, 0], &record), answer);
    }
}

/// After r records of G (16·r mod 3) bytes are held, none after the last; nothing is expected after
/// the end record.
#[test]
fn states_of_records() {
    let finished = |taken, held, d| records_finished(&RecordReading { taken, held }, d);
    for (taken, held) in [
        (0, [1, 0]),
        (0, [0, 1]),
        (1, [0, 1]),
        (1, [255, 1]),
        (3, [1, 0]),
        (18, [1, 0]),
        (18, [0, 1]),
        (19, [0, 1]),
        (20, [0, 0]),
        (usize::MAX, [0, 0]),
        (1 << 60, [0, 0]),
    ] {
        let answer = read(taken, held, b"");
        assert_eq!(answer, Err(Refusal::State), "{taken} {held:?}");
        assert!(!finished(taken, held, &G));
    }
    for (taken, held) in [(0, [0, 0]), (1, [255, 0]), (2, [255, 255]), (18, [0, 0])] {
        let answer = read(taken, held, b"");
        assert_eq!(answer, Err(Refusal::Record), "{taken} {held:?}");
        assert!(!finished(taken, held, &G));
    }
    let [first, second, last, end] = RECORDS.map(|(_, text)| text);
    for (taken, held, text, answer) in [
        (1, [255, 0], second, Ok(())),
        (1, [0, 0], first, Err(Refusal::RecordHead)),
        (17, [0, 255], last, Ok(())),
        (17, [0, 255], end, Err(Refusal::RecordHead)),
        (18, [0, 0], last, Err(Refusal::RecordHead)),
        (18, [0, 0], end, Ok(())),
        (19, [0, 0], end, Err(Refusal::RecordHead)),
        (19, [0, 0], "", Err(Refusal::Record)),
    ] {
        assert_eq!(read(taken, held, text.as_bytes()), answer, "{taken} {text}");
    }
    assert!(finished(19, [0, 0], &G));
    assert!(!finished(19, [0, 0], &with_pair(3, 2)));
}

/// The design comes first, then the tables, then the state, then the record.
#[test]
fn order_of_checks_on_records() {
    let (taken, held) = (20, [0, 0]);
    let state = RecordReading { taken, held };
    for (d, lengths, refusal) in [
        (Design { kind: 5, ..G }, (0, 0), Refusal::Kind),
        (with_pair(3, 2), (0, 0), Refusal::BSum),
        (G, (31, 64), Refusal::Tables),
        (G, (32, 63), Refusal::Tables),
        (G, (32, 64), Refusal::State),
    ] {
        let mut tables = Tables::alike(lengths, 5, 5);
        let answer = read_record(state, &d, &mut tables, b"").0;
        assert_eq!(answer, Err(refusal));
    }
}

/// "never so within 01's limits, where a set takes at most 61,440": 20 needs 21,846 entries.
#[test]
fn addresses_of_two_bytes() {
    let d = Design::new([0, 16, 16, 4, 13, 3], [[11, 1]; 4]);
    let mut legal = Legal::new(&d).unwrap();
    for (entries, answer) in [
        (20480, Ok(())),
        (21845, Ok(())),
        (21846, Err(Refusal::Addresses)),
    ] {
        legal.offsets = entries - legal.initial();
        assert_eq!(legal.addressable(), answer);
    }
    let tables = Tables::alike((8192, 12288), 0, 0);
    let mut text = [0; 43];
    for (number, answer) in [
        (3839, Ok(43)),
        (3840, Ok(11)),
        (3841, Err(Refusal::PastSet)),
    ] {
        assert_eq!(write_record(&d, &tables, number, &mut text), answer);
    }
}
