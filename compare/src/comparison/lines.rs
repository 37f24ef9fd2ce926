//! Lines written, lines read and reports.

use super::calls::Calls;
use super::single_texts::Written;
use super::Comparison;
use crate::by_hand::{design_line, sealed};
use crate::random::{entries_of, is_admitted, lengths, sum_limit};
use crate::types::{Design, LineReading, Tables, KINDS};

/// One past the greatest initial entry and the greatest offset that fit 3 bytes.
pub const END: u32 = 1 << 24;
pub const HALF: i32 = 1 << 23;

/// A frame's body from its line, if the line is well-formed enough for that.
pub fn body(line: &[u8]) -> Option<Vec<u8>> {
    let text = std::str::from_utf8(line).ok()?;
    let byte = |place| u8::from_str_radix(text.get(place..place + 2)?, 16).ok();
    let bytes: Option<Vec<u8>> = (0..text.len() / 2).map(|n| byte(2 * n)).collect();
    let mut bytes = bytes?;
    bytes.pop();
    Some(bytes)
}

pub fn lines_of(d: &Design) -> usize {
    entries_of(d) + 2
}

impl Comparison {
    /// Whole sets written line by line and read back, in step.
    pub fn stored_sets(&mut self) {
        for kind in KINDS {
            let mut stored = 0;
            while stored < 220 {
                let d = self.random.admitted(kind);
                if lines_of(&d) < 700 || (stored % 20 == 0 && lines_of(&d) < 3000) {
                    self.stored_set(&d);
                    stored += 1;
                }
            }
            let d = loop {
                let d = self.random.largest(kind);
                if is_admitted(&d) {
                    break d;
                }
            };
            self.stored_set(&d);
            self.note(&format!(
                "whole set of 20480 entries stored: alpha {}",
                d.alpha
            ));
        }
    }

    fn stored_set(&mut self, d: &Design) {
        let tables = self.random.filled(d);
        let mut read = self.random.tables(tables.lengths());
        let design = self.random.any_design();
        let mut state = LineReading { design, taken: 0 };
        self.calls.lines_finished(&state);
        for number in 0..lines_of(d) {
            let line = self.calls.write_line(d, &tables, number, &[b'.'; 34]);
            let line = line.unwrap_or_default();
            if number < 40 && self.random.once_in(8) {
                // An accepted change of an entry is written over by the expected line.
                let damaged = self.damaged(line.clone());
                read = self.calls.read_line(state, &read, &damaged).2;
            }
            (_, state, read) = self.calls.read_line(state, &read, &line);
        }
        let _ = self.calls.write_line(d, &tables, lines_of(d), &[b'.'; 34]);
        let line = self.any_line(&state.design, &tables, state.taken);
        let _ = self.calls.read_line(state, &read, &line);
        self.note(&format!("whole set stored: kind {}", d.kind));
    }

    pub fn written_lines(&mut self) {
        self.single_texts(&Written {
            write: Calls::write_line,
            number: Comparison::line_number,
            tables: [Comparison::tables_with_extremes; 2],
            rooms: [0, 1, 7, 8, 13, 14, 15, 16, 17, 20, 32, 40],
            room: 32,
        });
    }

    /// A line number: anywhere in the set, at its joints, past its end, huge.
    fn line_number(&mut self, d: &Design) -> usize {
        let (initial, end) = (lengths(d).0, lines_of(d));
        match self.random.within(0..=9) {
            0 => 0,
            1 => self.random.pick(&[initial, initial + 1]),
            2 => end - 1,
            3 => end,
            4 => self
                .random
                .pick(&[end + 1, usize::MAX, usize::MAX - initial, 1 << 32, 65536]),
            _ => self.random.place(end),
        }
    }

    /// Tables of any length and sort with some entries at the limits of 3 bytes, and initial
    /// entries at the limit on sums.
    fn tables_with_extremes(&mut self, d: &Design) -> Tables {
        let mut tables = match self.random.within(0..=4) {
            0 => self.random.room(d),
            1 => self.random.filled(d),
            _ => self.random.plausible(d),
        };
        let share = self.random.pick(&[1, 2, 8]);
        let limit = sum_limit(d);
        for entry in &mut tables.initial {
            if self.random.once_in(share) {
                let large = self
                    .random
                    .pick(&[END - 1, END, END + 1, u32::MAX, END | 5]);
                *entry = self.random.pick(&[0, limit - 1, limit, large]);
            }
        }
        for entry in &mut tables.offsets {
            if self.random.once_in(share) {
                let limits = [HALF - 1, HALF, HALF + 1, -HALF, -HALF - 1, 1 - HALF];
                let limit = self.random.pick(&limits);
                *entry = self
                    .random
                    .pick(&[limit, limit, limit, i32::MIN, i32::MAX, -1, 0]);
            }
        }
        tables
    }

    /// Single lines read in any state.
    pub fn read_lines(&mut self) {
        for _ in 0..60_000 {
            let d = self.random.legal_of_any_kind();
            let tables = self.random.room(&d);
            let state = self.state(&d);
            let line = self.any_line(&d, &tables, state.taken);
            let _ = self.calls.read_line(state, &tables, &line);
        }
        for _ in 0..20_000 {
            let d = self.random.any_design();
            let tables = self.random.room(&d);
            let design = self.random.any_design();
            let state = LineReading { design, taken: 0 };
            let line = self.first_line(&d);
            let _ = self.calls.read_line(state, &tables, &line);
        }
        for _ in 0..5_000 {
            let design = self.random.any_design();
            let taken = self.taken(&design);
            self.calls.lines_finished(&LineReading { design, taken });
        }
    }

    /// The number of lines taken: at the ends, past them, anywhere between.
    pub fn taken(&mut self, d: &Design) -> usize {
        let lines = lines_of(d);
        match self.random.within(0..=11) {
            0 => 0,
            1 => 1,
            2 => lines - 1,
            3 => lines,
            4 => lines + 1,
            5 => self.random.pick(&[usize::MAX, 1 << 32, usize::MAX - 1]),
            6 => lengths(d).0 + self.random.place(3),
            _ => self.random.place(lines),
        }
    }

    /// A state for a legal design; its own design is broken now and then.
    fn state(&mut self, d: &Design) -> LineReading {
        let taken = self.taken(d);
        let broken = self.random.once_in(10);
        let design = if broken { self.random.broken() } else { *d };
        LineReading { design, taken }
    }

    /// A line for a state: mostly the expected one, whole or damaged, else another one.
    pub fn any_line(&mut self, d: &Design, tables: &Tables, taken: usize) -> Vec<u8> {
        let number = match self.random.within(0..=5) {
            0 => self.line_number(d),
            1 => taken.wrapping_add(1),
            2 => taken.wrapping_sub(1),
            _ => taken,
        };
        let line = self.written(d, tables, number);
        if self.random.once_in(2) {
            line
        } else {
            self.damaged(line)
        }
    }

    /// The line with a number, with a random entry where the tables have none or one that no line
    /// carries.
    pub fn written(&mut self, d: &Design, tables: &Tables, number: usize) -> Vec<u8> {
        let (initial, offsets) = lengths(d);
        let mut whole = tables.clone();
        whole.initial.resize(initial, 1);
        whole.offsets.resize(offsets, -1);
        for entry in &mut whole.initial {
            *entry %= sum_limit(d);
        }
        for entry in &mut whole.offsets {
            *entry >>= 8;
        }
        self.calls
            .write_line(d, &whole, number, &[0; 32])
            .unwrap_or_else(|_| sealed(&[4, 0, 9]))
    }

    /// A line changed in one of many ways.
    fn damaged(&mut self, mut line: Vec<u8>) -> Vec<u8> {
        if line.is_empty() {
            return line;
        }
        match self.random.within(0..=12) {
            way @ 0..=6 => self.spoil(&mut line, way),
            7 => line.extend(std::iter::repeat_n(b'0', 34 - line.len().min(34))),
            8 => line.extend(std::iter::repeat_n(b'0', 32 - line.len().min(32))),
            _ => return self.damaged_and_mended(&line),
        }
        line
    }

    /// Changes a line or a record, which is not empty, in one of seven ways.
    pub fn spoil(&mut self, text: &mut Vec<u8>, way: u32) {
        let place = self.random.place(text.len());
        match way {
            0 => text[place] = self.random.pick(b"0123456789ABCDEF"),
            1 => text.make_ascii_lowercase(),
            2 => drop(text.pop()),
            3 => text.clear(),
            4 => text[place] = self.random.pick(b"G@/: \r\n\0a\xff`fg"),
            5 => text.push(self.random.pick(b"0\r\n ")),
            _ => text.extend_from_slice(b"00"),
        }
    }

    /// A byte of the body changed, added or taken away, and the sum made right again.
    fn damaged_and_mended(&mut self, line: &[u8]) -> Vec<u8> {
        let Some(mut body) = body(line).filter(|body| !body.is_empty()) else {
            return sealed(&[]);
        };
        let place = self.random.place(body.len());
        match self.random.within(0..=5) {
            0 => body[0] = self.random.pick(&[0, 1, 2, 3, 4, 5, 255]),
            1 => body[place] = self.random.word() as u8,
            2 => body[place] = body[place].wrapping_add(1),
            3 => body.insert(place, 0),
            4 => drop(body.remove(place)),
            _ => body[place] ^= 1 << self.random.within(0..=7),
        }
        sealed(&body)
    }

    /// An 01 line: of a design of any sort, of another byte count, damaged.
    pub fn first_line(&mut self, d: &Design) -> Vec<u8> {
        let pairs = match self.random.within(0..=7) {
            0 => self.random.place(6),
            _ => (d.m as usize).min(5),
        };
        let line = design_line(d, pairs);
        match self.random.within(0..=5) {
            0 => self.damaged(line),
            1 => self.damaged_and_mended(&line),
            _ => line,
        }
    }

    /// The report of a design as it stands.
    pub fn report_of(&mut self, d: &Design) {
        self.calls.report(&design_line(d, d.m as usize));
    }

    pub fn reports(&mut self) {
        for _ in 0..20_000 {
            let d = self.random.any_design();
            let line = self.first_line(&d);
            self.calls.report(&line);
        }
        for m in 0..=5 {
            for _ in 0..100 {
                let given = [None, None, None, None, None, Some(m)];
                let d = self.random.design(given);
                let line = self.first_line(&d);
                self.calls.report(&line);
            }
        }
        for length in 0..=34 {
            for line in [vec![b'0'; length], sealed(&vec![1; length])] {
                self.calls.report(&line);
            }
        }
    }
}
