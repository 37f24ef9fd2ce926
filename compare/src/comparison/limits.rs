//! Initial entries at the limit on sums, 2^(P+2), below it and beyond it.

use super::lines::END;
use super::records::ROOM;
use super::Comparison;
use crate::by_hand::initial_line;
use crate::random::{lengths, sum_limit};
use crate::refusal::{number_of, Refusal};
use crate::types::{Design, LineReading, Tables, KINDS};

/// Where an initial entry lies.
fn named(d: &Design, entry: u32) -> &'static str {
    let limit = sum_limit(d);
    match entry {
        END.. => "that does not fit",
        _ if entry > limit => "beyond the limit",
        _ if entry == limit => "at the limit",
        _ => "one below the limit",
    }
}

impl Comparison {
    /// Lines and records with one such entry, and lines with an offset of the same size.
    pub fn entries_at_limit(&mut self) {
        for kind in KINDS {
            for _ in 0..250 {
                let d = self.random.legal_of_at_most(kind, 700);
                let tables = self.fitting(&d);
                let limit = sum_limit(&d);
                let index = self.random.place(lengths(&d).0);
                for entry in [limit - 1, limit, limit + 1, END - 1, END, u32::MAX] {
                    self.entry_written(&d, tables.clone(), index, entry);
                    if entry < END {
                        self.entry_read(&d, &tables, index, entry);
                    }
                }
                self.offset_written(&d, tables, limit as i32);
            }
        }
    }

    fn note_answer<T>(&mut self, entry: &str, what: &str, answer: &Result<T, Refusal>) {
        let refusal = number_of(answer);
        self.note(&format!("{entry}, {what}: {refusal}"));
    }

    /// Its line, also into a buffer that is too short, the lines around it, and the record in which
    /// it begins.
    fn entry_written(&mut self, d: &Design, mut tables: Tables, index: usize, entry: u32) {
        tables.initial[index] = entry;
        let name = format!("initial entry {}", named(d, entry));
        let line = self.calls.write_line(d, &tables, index + 1, &[b'.'; 14]);
        self.note_answer(&name, "line written", &line);
        for (number, room) in [(index + 1, 13), (index, 32), (index + 2, 32)] {
            let _ = self.calls.write_line(d, &tables, number, &vec![b'.'; room]);
        }
        let record = self.calls.write_record(d, &tables, 3 * index / 16, &ROOM);
        self.note_answer(&name, "record written", &record);
    }

    /// Its line, read into tables that are long enough, into tables that are not, and at another
    /// index.
    fn entry_read(&mut self, d: &Design, tables: &Tables, index: usize, entry: u32) {
        let (design, taken) = (*d, index + 1);
        let state = LineReading { design, taken };
        let name = format!("initial entry {}", named(d, entry));
        for (tables, index, what) in [
            (tables, index, "line read"),
            (&Tables::default(), index, "tables too short"),
            (tables, index ^ 1, "at another index"),
        ] {
            let line = initial_line(index, entry);
            let answer = self.calls.read_line(state, tables, &line).0;
            self.note_answer(&name, what, &answer);
        }
    }

    fn offset_written(&mut self, d: &Design, mut tables: Tables, offset: i32) {
        let (initial, offsets) = lengths(d);
        let place = self.random.place(offsets);
        tables.offsets[place] = offset;
        let (design, taken) = (*d, initial + 1 + place);
        let line = self.calls.write_line(d, &tables, taken, &[b'.'; 16]);
        self.note_answer("offset at the limit", "line written", &line);
        let state = LineReading { design, taken };
        let line = line.unwrap_or_default();
        let answer = self.calls.read_line(state, &tables, &line).0;
        self.note_answer("offset at the limit", "line read", &answer);
    }
}
