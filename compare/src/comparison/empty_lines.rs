//! Files of several sets, and empty lines in every state.

use super::lines::lines_of;
use super::Comparison;
use crate::random::{lengths, sum_limit};
use crate::refusal::{number_of, Refusal};
use crate::types::{Design, LineReading, Tables, KINDS};
use crate::wide::reference;

/// Lines that are not empty, though they look so.
const BLANK: [&[u8]; 6] = [b"\r", b"\n", b"\r\n", b" ", b"\0", b"\0\0"];

/// What a state is to an empty line.
fn named(state: &LineReading) -> &'static str {
    let legal = reference::legal(&state.design).is_ok();
    match state.taken {
        0 if legal => "no line taken",
        0 => "no line taken, design illegal",
        _ if !legal => "lines taken, design illegal",
        taken if taken > lines_of(&state.design) => "past the set",
        taken if taken == lines_of(&state.design) => "after a finished set",
        _ => "inside a set",
    }
}

/// Whether the tables are long enough for a state's design; those of an illegal one never are.
fn room(d: &Design, tables: &Tables) -> &'static str {
    let (initial, offsets) = lengths(d);
    let enough = tables.initial.len() >= initial && tables.offsets.len() >= offsets;
    if enough && reference::legal(d).is_ok() {
        "enough room"
    } else {
        "too little room"
    }
}

/// The longest lengths of some designs' sets.
fn longest(designs: &[Design]) -> (usize, usize) {
    designs.iter().map(lengths).fold((0, 0), |longest, set| {
        (longest.0.max(set.0), longest.1.max(set.1))
    })
}

/// Ends the program unless a finished reading has left the set, its pairs beyond m aside, and beyond
/// it what the tables held before.
fn restored(d: &Design, (set, before): (&Tables, &Tables), (state, read): (&LineReading, &Tables)) {
    let (initial, offsets) = lengths(d);
    let mut expected = set.clone();
    expected.initial.extend(&before.initial[initial..]);
    expected.offsets.extend(&before.offsets[offsets..]);
    let (mut design, m) = (state.design, d.m as usize);
    design.pairs[m..].copy_from_slice(&d.pairs[m..]);
    if !reference::lines_finished(state) || design != *d || *read != expected {
        println!("a set of a file was not restored: {d:?}\n{state:?}");
        std::process::exit(1);
    }
}

impl Comparison {
    /// Files of one to four sets, with empty lines before, between and behind them.
    pub fn files_of_sets(&mut self) {
        for round in 0..800 {
            let sets = 1 + self.random.place(4);
            let designs: Vec<Design> = (0..sets).map(|_| self.design_of_file(round)).collect();
            self.file_of_sets(&designs);
        }
    }

    /// Mostly small, so that a file has more than one sort of set and is short.
    fn design_of_file(&mut self, round: usize) -> Design {
        let kind = self.random.within(KINDS);
        let most = if round.is_multiple_of(40) { 2000 } else { 200 };
        self.random.legal_of_at_most(kind, most)
    }

    /// One file, read in step into tables that keep what the sets before have left.
    fn file_of_sets(&mut self, designs: &[Design]) {
        let (initial, offsets) = longest(designs);
        let tails = (self.random.place(4), self.random.place(4));
        let mut read = self.random.tables((initial + tails.0, offsets + tails.1));
        let design = self.random.any_design();
        let mut state = LineReading { design, taken: 0 };
        (state, read) = self.empty_lines(state, read, 0);
        for (number, d) in designs.iter().enumerate() {
            if number > 0 {
                read = self.no_empty_line(state, read, d);
                (state, read) = self.empty_lines(state, read, 1);
            }
            (state, read) = self.set_of_file(state, read, d);
        }
        (state, _) = self.empty_lines(state, read, 0);
        self.calls.lines_finished(&state);
        let sets = designs.len();
        self.note(&format!("file read, sets: {sets}"));
    }

    /// Some empty lines, at least so many, with a refused line before or behind one now and then.
    fn empty_lines(
        &mut self,
        mut state: LineReading,
        mut read: Tables,
        least: usize,
    ) -> (LineReading, Tables) {
        for _ in 0..least + self.random.pick(&[0, 0, 1, 3]) {
            read = self.refused_in_file(state, read);
            (state, read) = self.empty_line(state, read);
        }
        (state, self.refused_in_file(state, read))
    }

    /// An empty line, and what its state was noted with its answer.
    fn empty_line(&mut self, state: LineReading, read: Tables) -> (LineReading, Tables) {
        let (name, room) = (named(&state), room(&state.design, &read));
        let (answer, next, read) = self.calls.read_line(state, &read, b"");
        let refusal = number_of(&answer);
        self.note(&format!("empty line, {name}, {room}: {refusal}"));
        (next, read)
    }

    /// The first line of the next set where an empty line is expected.
    fn no_empty_line(&mut self, state: LineReading, read: Tables, d: &Design) -> Tables {
        let line = self.written(d, &read, 0);
        let (answer, _, read) = self.calls.read_line(state, &read, &line);
        if answer == Err(Refusal::Frame) {
            self.note("no empty line between sets: 16");
        }
        read
    }

    /// Now and then a line that is not expected, of any sort. An accepted entry is written over by the
    /// expected line.
    fn refused_in_file(&mut self, state: LineReading, read: Tables) -> Tables {
        if !self.random.once_in(8) {
            return read;
        }
        let line = match self.random.within(0..=2) {
            0 => self.random.pick(&BLANK).to_vec(),
            1 => {
                let d = self.random.any_design();
                self.first_line(&d)
            }
            _ => self.any_line(&state.design, &read, state.taken),
        };
        self.calls.read_line(state, &read, &line).2
    }

    /// The lines of one set, with refused lines between them, empty ones among these.
    fn set_of_file(
        &mut self,
        mut state: LineReading,
        mut read: Tables,
        d: &Design,
    ) -> (LineReading, Tables) {
        let set = self.storable(d);
        let before = read.clone();
        for number in 0..lines_of(d) {
            let line = self.calls.write_line(d, &set, number, &[b'.'; 32]);
            if number > 0 && self.random.once_in(16) {
                (_, read) = self.empty_line(state, read);
            }
            read = self.refused_in_file(state, read);
            let line = line.unwrap_or_default();
            (_, state, read) = self.calls.read_line(state, &read, &line);
        }
        restored(d, (&set, &before), (&state, &read));
        self.note(&format!("set of a file restored: kind {}", d.kind));
        (state, read)
    }

    /// A set with entries that lines carry, and nothing beyond it.
    fn storable(&mut self, d: &Design) -> Tables {
        let mut set = self.fitting(d).start(lengths(d));
        for entry in &mut set.initial {
            *entry %= sum_limit(d);
        }
        set
    }

    /// An empty line, and lines that look empty, in states of designs of any sort, with tables of any
    /// length.
    pub fn empty_lines_in_every_state(&mut self) {
        for kind in KINDS {
            for _ in 0..4 {
                let d = self.random.legal_of_at_most(kind, 60);
                for taken in 0..=lines_of(&d) + 2 {
                    self.blank_lines(LineReading { design: d, taken });
                }
            }
        }
        for _ in 0..6_000 {
            let design = self.random.any_design();
            let taken = self.taken(&design);
            self.blank_lines(LineReading { design, taken });
        }
        for _ in 0..3_000 {
            let design = self.random.legal_of_any_kind();
            let lines = lines_of(&design);
            let taken = self.random.pick(&[0, 1, lines - 1, lines, lines + 1]);
            self.blank_lines(LineReading { design, taken });
        }
    }

    /// What is left of an accepted empty line takes another one, and the first line of a set.
    fn blank_lines(&mut self, state: LineReading) {
        let tables = match self.random.within(0..=3) {
            0 => Tables::default(),
            _ => self.random.room(&state.design),
        };
        let (next, tables) = self.empty_line(state, tables);
        let (_, tables) = self.empty_line(next, tables);
        let d = self.random.any_design();
        let line = self.first_line(&d);
        let (_, _, tables) = self.calls.read_line(next, &tables, &line);
        let line = self.random.pick(&BLANK);
        let name = named(&state);
        let refusal = number_of(&self.calls.read_line(state, &tables, line).0);
        self.note(&format!("line that looks empty, {name}: {refusal}"));
    }
}
