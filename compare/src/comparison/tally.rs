//! How many calls were made, and which refusals and answers they met.

use std::collections::BTreeMap;

use crate::refusal::Refusal;

/// A kind of call with the refusals it can give, in the order of their checks: some at first, then
/// those from 1 up to one, then others.
struct Call {
    name: &'static str,
    first: &'static [Refusal],
    up_to: Refusal,
    then: &'static [Refusal],
}

const fn call(name: &'static str, up_to: Refusal, then: &'static [Refusal]) -> Call {
    Call {
        name,
        first: &[],
        up_to,
        then,
    }
}

impl Call {
    /// The numbers of the refusals, and 0, which stands for an accepted call.
    fn refusals(&self) -> impl Iterator<Item = u8> {
        let first = self.first.iter().copied();
        let refusals = first
            .chain(self.up_to.up_to())
            .chain(self.then.iter().copied());
        [0].into_iter().chain(refusals.map(Refusal::number))
    }
}

/// The document's "Checks in order"; the count "refuses as the check does", and the calls of
/// records as request A2 says, but for 20: no legal set is that large. 23 is request A4's, 24 A5's,
/// and 11 of the size A6's. Which of the reader's an empty line meets is noted apart.
const CALLS: [Call; 16] = {
    use Refusal::*;
    [
        call("value", G, &[Word]),
        call("legal", BSum, &[]),
        call("budget", BSum, &[]),
        call("size", BSum, &[NotAdmitted]),
        call("fill", NotAdmitted, &[]),
        call("sum", Tables, &[Word]),
        call("evaluate", Tables, &[Word, Range]),
        call("evaluate_batch", Tables, &[Output, Word, Range]),
        call("check", Tables, &[]),
        call("count", Tables, &[]),
        call("write_line", Tables, &[PastSet, Entry, Initial, Output]),
        Call {
            first: &[State, Line, Frame],
            ..call("read_line", BSum, &[Initial, Tables])
        },
        call("write_record", Tables, &[PastSet, Entry, Output]),
        call("read_record", Tables, &[State, Record, RecordHead]),
        Call {
            first: &[Line, Frame],
            ..call("report", BSum, &[])
        },
        call("smallest", Q, &[NoneAdmitted]),
    ]
};

/// The calls without refusals.
const PLAIN: [&str; 2] = ["is_finished", "records_finished"];

/// Things that must come up, and how often at the least.
const WANTED: [(&str, u64); 107] = [
    ("value: whole at x = 0, kind 0", 150),
    ("value: whole at x = 0, kind 1", 150),
    ("value: whole at x = 0, kind 3", 150),
    ("value: whole elsewhere, kind 1", 200),
    ("value: whole elsewhere, kind 2", 150),
    ("budget equal to the limit", 5),
    ("budget one below the limit", 5),
    ("budget of 2^32 or more", 100),
    ("check: faithful", 1000),
    ("check: unfaithful, word 0", 100),
    ("check: unfaithful, another word", 1000),
    ("count: some outside", 1000),
    ("count: some nearest", 1000),
    ("count: some faithful", 1000),
    ("count: some low", 1000),
    ("count: some high", 1000),
    ("word exact: nearest", 1000),
    ("word half a unit too low: nearest", 400),
    ("word half a unit too high: nearest", 400),
    ("word a whole unit too low: low", 1000),
    ("word a whole unit too high: high", 1000),
    ("word of sum -1: outside", 800),
    ("word of sum 0: low", 800),
    ("word of sum 2^g-1: low", 800),
    ("word of sum 2^g: low", 800),
    ("word of sum 2^(P+2)-1: high", 800),
    ("word of sum 2^(P+2): outside", 800),
    ("is_finished: no", 1000),
    ("is_finished: yes", 1000),
    ("report: ADMITTED", 500),
    ("report: BITS 0 NOT ADMITTED", 500),
    ("whole set of 20480 entries stored: alpha 12", 1),
    ("whole set of 20480 entries stored: alpha 13", 1),
    ("batch refused at a place above 0", 1000),
    ("sum out of range", 1000),
    ("sum below 0", 500),
    ("records_finished: no", 1000),
    ("records_finished: yes", 1000),
    ("set restored from records: last one full", 200),
    ("set restored from records: last one shorter", 200),
    ("whole set of 20480 entries as records: alpha 12", 1),
    ("whole set of 20480 entries as records: alpha 13", 1),
    ("entry that does not fit: one record refused", 1000),
    ("entry that does not fit: two records refused", 500),
    ("record, spoilt colon: 21", 1000),
    ("record, spoilt length byte: 21", 1000),
    ("record, spoilt address: 21", 1000),
    ("record, spoilt type: 21", 1000),
    ("record, spoilt data byte: 21", 1000),
    ("record, spoilt sum: 21", 1000),
    ("record, well-formed with another length byte: 21", 1000),
    ("record, well-formed with another address: 22", 1000),
    ("record, well-formed with another type: 22", 1000),
    ("record, well-formed with another data byte: 0", 1000),
    ("record, well-formed with another length: 22", 1000),
    ("record, spoilt with another length: 21", 1000),
    ("record, cut off: 21", 500),
    ("record, longer: 21", 1000),
    ("record, of 256 bytes: 21", 30),
    ("record, expected: 0", 500),
    ("record, of those taken: 22", 1000),
    ("record, of those to come: 22", 1000),
    ("record, end record too early: 22", 500),
    ("record, after the end record: 22", 500),
    ("record, in a state that holds 0: 17", 1000),
    ("record, in a state that holds 0: 22", 40),
    ("record, in a state that holds 1: 17", 1000),
    ("record, in a state past the set: 17", 1000),
    ("initial entry one below the limit, line written: 0", 1000),
    ("initial entry at the limit, line written: 23", 1000),
    ("initial entry beyond the limit, line written: 23", 1000),
    ("initial entry that does not fit, line written: 18", 1000),
    ("initial entry one below the limit, line read: 0", 1000),
    ("initial entry at the limit, line read: 23", 1000),
    ("initial entry beyond the limit, line read: 23", 1000),
    (
        "initial entry one below the limit, tables too short: 10",
        1000,
    ),
    ("initial entry at the limit, tables too short: 23", 1000),
    ("initial entry at the limit, at another index: 16", 1000),
    ("initial entry at the limit, record written: 0", 1000),
    ("offset at the limit, line written: 0", 1000),
    ("offset at the limit, line read: 0", 1000),
    ("set that lines do not carry, restored from records", 900),
    ("smallest cut by trial: refused 24", 21),
    ("smallest cut by search: refused 24", 21),
    ("smallest cut with 2 wrong: 1", 150),
    ("smallest cut with 2 wrong: 2", 90),
    ("smallest cut with 3 wrong: 1", 500),
    ("size, greatest offset just not too wide", 10000),
    ("size, greatest offset just too wide for a bit less", 4500),
    ("no empty line between sets: 16", 1000),
    ("empty line, no line taken, enough room: 0", 1000),
    ("empty line, no line taken, too little room: 0", 1000),
    (
        "empty line, no line taken, design illegal, too little room: 0",
        500,
    ),
    ("empty line, after a finished set, enough room: 0", 1000),
    ("empty line, after a finished set, too little room: 0", 400),
    ("empty line, inside a set, enough room: 16", 1000),
    ("empty line, inside a set, too little room: 16", 1000),
    ("empty line, past the set, enough room: 17", 500),
    ("empty line, past the set, too little room: 17", 1000),
    (
        "empty line, lines taken, design illegal, too little room: 17",
        1000,
    ),
    ("line that looks empty, no line taken: 15", 500),
    (
        "line that looks empty, no line taken, design illegal: 15",
        200,
    ),
    ("line that looks empty, inside a set: 15", 1000),
    ("line that looks empty, after a finished set: 15", 500),
    ("line that looks empty, past the set: 17", 1000),
    (
        "line that looks empty, lines taken, design illegal: 17",
        1000,
    ),
    ("report: empty line refused 15", 20),
];

/// The same for things with a number in the place of #, from the first on.
const SERIES: [(&str, usize, &[u64]); 18] = [
    ("fill: kind #", 0, &[300; 5]),
    ("whole set stored: kind #", 0, &[200; 5]),
    (
        "set restored from records: kind #",
        0,
        &[221, 220, 220, 221, 220],
    ),
    ("record, in a state that holds #: 0", 0, &[200, 500, 1000]),
    ("smallest cut by trial: kind #", 0, &[40; 5]),
    ("smallest cut by trial: m #", 1, &[70, 60, 50, 30]),
    ("smallest cut by search: kind #", 0, &[110; 5]),
    ("smallest cut by search: g #", 3, &[70, 280, 200, 10]),
    ("smallest cut by search: m #", 1, &[70, 70, 100, 300]),
    ("smallest cut with 1 wrong: #", 1, &[12, 14, 14]),
    ("size, kind #", 0, &[2000, 6000, 5000, 3500, 4500]),
    ("size, kind #, refused 11", 0, &[25000; 5]),
    ("size, m #", 1, &[5000, 7000, 7000, 2500]),
    (
        "size, w #",
        6,
        &[3500, 14000, 350, 350, 350, 350, 350, 350, 350, 350, 350],
    ),
    (
        "size, table of width #",
        1,
        &[
            2500, 2500, 5000, 7000, 9000, 9000, 7000, 5000, 2500, 1000, 400, 150, 30, 5,
        ],
    ),
    ("size, # different widths", 2, &[7500, 6000, 2000]),
    ("file read, sets: #", 1, &[150; 4]),
    ("set of a file restored: kind #", 0, &[300; 5]),
];

/// All things that must come up.
fn wanted() -> impl Iterator<Item = (String, u64)> {
    let plain = WANTED.map(|(answer, least)| (answer.to_string(), least));
    let series = SERIES.into_iter().flat_map(|(answer, first, least)| {
        (first..)
            .zip(least)
            .map(move |(number, &least)| (answer.replace('#', &number.to_string()), least))
    });
    plain.into_iter().chain(series)
}

#[derive(Default)]
pub struct Tally {
    refusals: BTreeMap<(&'static str, u8), u64>,
    answers: BTreeMap<String, u64>,
}

impl Tally {
    /// Counts a call with its refusal's number, 0 if it accepted.
    pub fn count(&mut self, call: &'static str, refusal: u8) {
        *self.refusals.entry((call, refusal)).or_default() += 1;
    }

    pub fn note(&mut self, answer: &str) {
        match self.answers.get_mut(answer) {
            Some(count) => *count += 1,
            None => drop(self.answers.insert(answer.to_string(), 1)),
        }
    }

    fn met(&self, call: &'static str, refusal: u8) -> u64 {
        self.refusals.get(&(call, refusal)).copied().unwrap_or(0)
    }

    pub fn calls(&self) -> u64 {
        self.refusals.values().sum()
    }

    fn print_call(&self, call: &'static str, refusals: impl Iterator<Item = u8>) {
        let of_call = self.refusals.iter().filter(|((name, _), _)| *name == call);
        let all: u64 = of_call.map(|(_, count)| count).sum();
        let each = refusals.map(|refusal| format!("{refusal}: {}", self.met(call, refusal)));
        println!(
            "{call:16} {all:8}   {}",
            each.collect::<Vec<_>>().join("  ")
        );
    }

    pub fn print(&self) {
        println!("call                calls   times each refusal came up (0: accepted)");
        for call in &CALLS {
            self.print_call(call.name, call.refusals());
        }
        for call in PLAIN {
            self.print_call(call, [0].into_iter());
        }
        for (answer, count) in &self.answers {
            println!("{answer}: {count}");
        }
    }

    /// What did not come up though it should have.
    pub fn missing(&self) -> Vec<String> {
        let refusals = CALLS.iter().flat_map(|call| {
            let unmet = call.refusals().filter(|&n| self.met(call.name, n) == 0);
            unmet.map(|refusal| format!("refusal {refusal} of {}", call.name))
        });
        let answers = wanted().filter_map(|(answer, least)| {
            let count = self.answers.get(&answer).copied().unwrap_or(0);
            (count < least).then(|| format!("{answer}: {count}, fewer than {least}"))
        });
        refusals.chain(answers).collect()
    }
}
