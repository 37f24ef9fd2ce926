//! The comparison: both versions on the same input, with fixed seeds.

mod calls;
mod counts;
mod empty_lines;
mod limits;
mod lines;
mod records;
mod sets;
mod single_texts;
mod sizes;
mod smallest;
mod spoilt_records;
mod tally;

use std::time::Instant;

use crate::random::Random;
use calls::Calls;

pub struct Comparison {
    random: Random,
    calls: Calls,
}

impl Comparison {
    fn note(&mut self, what: &str) {
        self.calls.tally.note(what);
    }
}

type Part = fn(&mut Comparison);

/// The parts of the comparison, each with a seed of its own.
const PARTS: [(&str, Part); 31] = [
    ("values", Comparison::values),
    ("designs", Comparison::designs),
    ("fills", Comparison::fills),
    ("budgets at the limit", Comparison::budgets_at_limit),
    ("filled sets", Comparison::filled_sets),
    ("other sets", Comparison::other_sets),
    ("long batches", Comparison::long_batches),
    (
        "batches at the ends of the range",
        Comparison::batches_at_range_ends,
    ),
    ("example", Comparison::example),
    ("stored sets", Comparison::stored_sets),
    ("written lines", Comparison::written_lines),
    ("read lines", Comparison::read_lines),
    ("reports", Comparison::reports),
    ("single words counted", Comparison::single_words),
    ("exact halves", Comparison::exact_halves),
    ("words next to exact", Comparison::words_next_to_exact),
    ("sets as records", Comparison::sets_as_records),
    ("written records", Comparison::written_records),
    ("entries that do not fit", Comparison::misfits),
    ("read records", Comparison::read_records),
    ("spoilt records", Comparison::spoilt_records),
    ("records out of order", Comparison::records_out_of_order),
    ("records in every state", Comparison::records_in_every_state),
    (
        "initial entries at the limit on sums",
        Comparison::entries_at_limit,
    ),
    ("smallest cuts", Comparison::smallest_cuts),
    (
        "smallest cuts of all widths",
        Comparison::smallest_cuts_of_all_widths,
    ),
    ("searches refused", Comparison::searches_refused),
    ("sizes of all narrow designs", Comparison::sizes_of_narrow),
    ("sizes of all widths", Comparison::sizes_of_all_widths),
    ("files of several sets", Comparison::files_of_sets),
    (
        "empty lines in every state",
        Comparison::empty_lines_in_every_state,
    ),
];

/// Ends the program at the first difference. Returns whether all that should come up did.
pub fn run() -> bool {
    let random = Random::new(0);
    let calls = Calls::default();
    let mut comparison = Comparison { random, calls };
    for (seed, (name, part)) in (1..).zip(PARTS) {
        let (start, before) = (Instant::now(), comparison.calls.tally.calls());
        comparison.random = Random::new(seed);
        part(&mut comparison);
        let calls = comparison.calls.tally.calls() - before;
        println!(
            "{name}: {calls} calls in {:.1} s",
            start.elapsed().as_secs_f64()
        );
    }
    let tally = &comparison.calls.tally;
    tally.print();
    let missing = tally.missing();
    for missing in &missing {
        println!("did not come up: {missing}");
    }
    if missing.is_empty() {
        println!("compare: {} calls, no difference", tally.calls());
    }
    missing.is_empty()
}
