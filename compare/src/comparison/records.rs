//! Intel HEX records written and read.

use super::calls::Calls;
use super::lines::{body, END, HALF};
use super::sets::stayed;
use super::single_texts::Written;
use super::Comparison;
use crate::by_hand::record;
use crate::random::{entries_of, largest, lengths, sum_limit, LARGEST};
use crate::refusal::Refusal;
use crate::types::{Design, RecordReading, Tables, KINDS};

/// A buffer with room for every record of a set.
pub const ROOM: [u8; 44] = [b'.'; 44];

/// Numbers past every set. 16 times some of them is small modulo 2^16 or 2^64.
pub const HUGE: [usize; 7] = [
    1 << 12,
    1 << 16,
    1 << 32,
    1 << 60,
    (1 << 60) + 1,
    usize::MAX - 1,
    usize::MAX,
];

fn bytes_of(d: &Design) -> usize {
    3 * entries_of(d)
}

/// The data records and the end record.
pub fn records_of(d: &Design) -> usize {
    bytes_of(d).div_ceil(16) + 1
}

/// The bytes in a number of records.
fn bytes_in(d: &Design, records: usize) -> usize {
    records.saturating_mul(16).min(bytes_of(d))
}

/// How many of the two bytes are used after a number of records.
pub fn used_after(d: &Design, taken: usize) -> usize {
    bytes_in(d, taken) % 3
}

/// The numbers of the records that have a byte of an entry.
fn records_with(entry: usize) -> std::ops::RangeInclusive<usize> {
    3 * entry / 16..=(3 * entry + 2) / 16
}

/// A well-formed record by its fields: address, type and data.
pub fn fields(text: &[u8]) -> (u16, u8, Vec<u8>) {
    match body(&text[1..]).as_deref() {
        Some([_, a1, a0, kind, data @ ..]) => {
            (u16::from_be_bytes([*a1, *a0]), *kind, data.to_vec())
        }
        _ => (0, 0, vec![]),
    }
}

impl Comparison {
    /// Whole sets written record by record and read back, in step.
    pub fn sets_as_records(&mut self) {
        for kind in KINDS {
            for round in 0..220 {
                let most = if round % 20 == 0 { 3000 } else { 700 };
                let d = self.random.legal_of_at_most(kind, most);
                self.set_as_records(&d);
            }
        }
        for (kind, cut) in [0, 3].into_iter().zip(LARGEST) {
            self.set_as_records(&largest(kind, (14, 6), cut));
            let alpha = cut.0;
            self.note(&format!(
                "whole set of 20480 entries as records: alpha {alpha}"
            ));
        }
    }

    fn set_as_records(&mut self, d: &Design) {
        let tables = self.fitting(d);
        let before = tables.clone();
        let mut read = self.random.tables(tables.lengths());
        let mut state = RecordReading::default();
        self.calls.records_finished(d, &state);
        for number in 0..records_of(d) {
            let Ok(text) = self.calls.write_record(d, &tables, number, &ROOM) else {
                return;
            };
            if number < 40 && self.random.once_in(4) {
                // What an accepted one stores is written over by the expected record.
                let damaged = self.damaged_record(text.clone());
                read = self.calls.read_record(d, state, &read, &damaged).2;
            }
            (_, state, read) = self.calls.read_record(d, state, &read, &text);
        }
        let _ = self.calls.write_record(d, &tables, records_of(d), &ROOM);
        let text = self.any_record(d, state.taken);
        let _ = self.calls.read_record(d, state, &read, &text);
        stayed(d, &tables, &before);
        self.note_restored(d, &tables, &read);
    }

    /// "Reading the written records restores every entry."
    fn note_restored(&mut self, d: &Design, tables: &Tables, read: &Tables) {
        let set = tables.start(lengths(d));
        if set != read.start(lengths(d)) {
            return;
        }
        let last = match bytes_of(d).is_multiple_of(16) {
            true => "full",
            false => "shorter",
        };
        let tally = &mut self.calls.tally;
        tally.note(&format!("set restored from records: kind {}", d.kind));
        tally.note(&format!("set restored from records: last one {last}"));
        if set.initial.iter().any(|&entry| entry >= sum_limit(d)) {
            tally.note("set that lines do not carry, restored from records");
        }
    }

    /// A set whose entries fit, some at the limits of 3 bytes, with anything beyond it. An
    /// admitted one is filled but for these.
    pub fn fitting(&mut self, d: &Design) -> Tables {
        let mut tables = self.random.filled(d);
        let (initial, offsets) = lengths(d);
        for entry in &mut tables.initial[..initial] {
            *entry %= END;
            if self.random.once_in(16) {
                *entry = self.random.pick(&[0, END - 1]);
            }
        }
        for entry in &mut tables.offsets[..offsets] {
            *entry = *entry << 8 >> 8;
            if self.random.once_in(16) {
                *entry = self.random.pick(&[0, -1, HALF - 1, -HALF]);
            }
        }
        tables
    }

    /// Puts an entry that does not fit in one place of a set.
    fn misfit(&mut self, d: &Design, tables: &mut Tables, entry: usize) {
        match entry.checked_sub(lengths(d).0) {
            None => tables.initial[entry] = self.random.pick(&[END, END | 5, 1 << 31, u32::MAX]),
            Some(place) => {
                let misfits = [HALF, -HALF - 1, i32::MAX, i32::MIN];
                tables.offsets[place] = self.random.pick(&misfits);
            }
        }
    }

    pub fn written_records(&mut self) {
        self.single_texts(&Written {
            write: Calls::write_record,
            number: Comparison::record_number,
            tables: [Comparison::tables_of_any_sort, Comparison::fitting],
            rooms: [0, 1, 10, 11, 12, 34, 35, 36, 42, 43, 44, 60],
            room: ROOM.len(),
        });
    }

    /// Tables of any length: all entries fit, or some do not, or hardly one does.
    fn tables_of_any_sort(&mut self, d: &Design) -> Tables {
        if self.random.once_in(4) {
            return self.random.room(d);
        }
        let mut tables = self.fitting(d);
        for _ in 0..self.random.pick(&[0, 0, 1, 20]) {
            let entry = self.random.place(entries_of(d));
            self.misfit(d, &mut tables, entry);
        }
        tables
    }

    /// A record number: anywhere in the set, where offsets begin, at the end, past it, huge.
    fn record_number(&mut self, d: &Design) -> usize {
        let records = records_of(d);
        match self.random.within(0..=9) {
            0 => 0,
            1 => 3 * lengths(d).0 / 16,
            2 => records - 2,
            3 => records - 1,
            4 => records,
            5 => self.random.pick(&HUGE),
            _ => self.random.place(records),
        }
    }

    /// Sets of which one entry does not fit, each in turn: the records with a byte of it, and
    /// those beside them.
    pub fn misfits(&mut self) {
        for kind in KINDS {
            for _ in 0..20 {
                let d = self.random.legal_of_at_most(kind, 200);
                let tables = self.fitting(&d);
                for entry in 0..entries_of(&d) {
                    self.misfit_in_records(&d, &tables, entry);
                }
            }
        }
    }

    fn misfit_in_records(&mut self, d: &Design, tables: &Tables, entry: usize) {
        let mut tables = tables.clone();
        self.misfit(d, &mut tables, entry);
        let with_entry = records_with(entry);
        let around = with_entry.start().saturating_sub(1)..=with_entry.end() + 1;
        let write = |number| self.calls.write_record(d, &tables, number, &ROOM);
        let refused = around
            .map(write)
            .filter(|answer| *answer == Err(Refusal::Entry));
        let name = match refused.count() {
            1 => "entry that does not fit: one record refused",
            2 => "entry that does not fit: two records refused",
            _ => return,
        };
        self.note(name);
    }

    /// Single records read in any state.
    pub fn read_records(&mut self) {
        for _ in 0..60_000 {
            let kind = self.random.within(KINDS);
            let any = self.random.once_in(4);
            let d = match any {
                true => self.random.any_design(),
                false => self.random.legal(kind),
            };
            let tables = self.random.room(&d);
            let state = self.any_state(&d);
            let text = self.any_record(&d, state.taken);
            let _ = self.calls.read_record(&d, state, &tables, &text);
        }
        for _ in 0..5_000 {
            let d = self.random.any_design();
            let state = self.any_state(&d);
            self.calls.records_finished(&d, &state);
            self.finished_but_illegal();
        }
    }

    /// All records of a set taken, whose design has become illegal without a change of its tables.
    fn finished_but_illegal(&mut self) {
        let mut d = self.random.legal_of_any_kind();
        let state = self.possible_state(&d, records_of(&d));
        match self.random.within(0..=3) {
            0 => d.kind += 5,
            1 => d.w += 1,
            2 => d.q += 11,
            _ => d.g += 5,
        }
        self.calls.records_finished(&d, &state);
    }

    /// A state: at both ends, past the last record, anywhere between; now and then with an unused
    /// byte that is not 0.
    fn any_state(&mut self, d: &Design) -> RecordReading {
        let records = records_of(d);
        let taken = match self.random.within(0..=9) {
            0 => self.random.place(3),
            1 => records - 1,
            2 => records,
            3 => records + 1,
            4 => self.random.pick(&HUGE),
            _ => self.random.place(records),
        };
        let mut state = self.possible_state(d, taken);
        if self.random.once_in(8) {
            let place = self.random.place(2);
            state.held[place] = self.random.word() as u8;
        }
        state
    }

    /// A state after some records of any data.
    pub fn possible_state(&mut self, d: &Design, taken: usize) -> RecordReading {
        let mut held = [0; 2];
        for byte in &mut held[..used_after(d, taken)] {
            *byte = self.random.word() as u8;
        }
        RecordReading { taken, held }
    }

    /// A record for a state: mostly the expected one, whole or damaged, else another one.
    fn any_record(&mut self, d: &Design, taken: usize) -> Vec<u8> {
        let number = match self.random.within(0..=5) {
            0 => self.record_number(d),
            1 => taken.saturating_add(1),
            2 => taken.saturating_sub(1),
            _ => taken,
        };
        let text = self.well_formed_record(d, number);
        if self.random.once_in(2) {
            text
        } else {
            self.damaged_record(text)
        }
    }

    /// The record with a number, of any data; the end record also for numbers past it.
    pub fn well_formed_record(&mut self, d: &Design, number: usize) -> Vec<u8> {
        let start = bytes_in(d, number);
        let length = bytes_in(d, number.saturating_add(1)) - start;
        if length == 0 {
            return record(0, 1, &[]);
        }
        record(start as u16, 0, &self.data(length))
    }

    /// Any data, those of low and of high values among them.
    pub fn data(&mut self, length: usize) -> Vec<u8> {
        let mask = self.random.pick(&[0, 15, 255]);
        let high = self.random.pick(&[0, 0, 240]);
        (0..length)
            .map(|_| self.random.word() as u8 & mask | high)
            .collect()
    }

    /// A record, which is not empty, changed in one of many ways.
    fn damaged_record(&mut self, mut text: Vec<u8>) -> Vec<u8> {
        match self.random.within(0..=13) {
            way @ 0..=6 => self.spoil(&mut text, way),
            7 => drop(text.remove(0)),
            8 => text.insert(0, self.random.pick(b": 0")),
            9 => text.truncate(self.random.place(text.len())),
            _ => return self.damaged_and_sealed(&text),
        }
        text
    }

    /// A well-formed record with another type, address or number of bytes.
    fn damaged_and_sealed(&mut self, text: &[u8]) -> Vec<u8> {
        let (mut address, mut kind, mut data) = fields(text);
        match self.random.within(0..=5) {
            0 => kind = self.random.pick(&[0, 1, 2, 3, 4, 5, 255]),
            1 => address = address.wrapping_add(self.random.pick(&[1, 16, 256, 0xFFF0, 0xFFFF])),
            2 => address ^= 1 << self.random.within(0..=15),
            3 => data.push(self.random.word() as u8),
            4 => drop(data.pop()),
            _ => {
                let length = self.random.place(256);
                data = self.data(length);
            }
        }
        record(address, kind, &data)
    }
}
