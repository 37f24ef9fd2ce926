//! Which answers the programs gave, and how often.

use std::collections::BTreeMap;

use compare::refusal::Refusal;

/// A program with answers it must give: those of its own, and its refusals, for most of them those
/// of a design's line, with how they are printed. One that goes through several sets must give them
/// behind a set, too; what it prints for each ends with certain characters.
struct Wanted {
    name: &'static str,
    answers: &'static [&'static str],
    refused: &'static str,
    refusals: &'static [Refusal],
    ends: Option<&'static str>,
}

/// The refusals of a design's line.
const OF_DESIGN: &[Refusal] = &[
    Refusal::Line,
    Refusal::Frame,
    Refusal::Kind,
    Refusal::W,
    Refusal::Q,
    Refusal::G,
    Refusal::Alpha,
    Refusal::M,
    Refusal::A,
    Refusal::B,
    Refusal::BSum,
];
const OF_SEARCH: &[Refusal] = &[Refusal::Kind, Refusal::W, Refusal::Q, Refusal::NoneAdmitted];

const fn of_line(name: &'static str, answers: &'static [&'static str]) -> Wanted {
    Wanted {
        name,
        answers,
        refused: "REFUSED",
        refusals: OF_DESIGN,
        ends: None,
    }
}

/// A program that reads a set names the line that is refused.
const fn of_set(
    name: &'static str,
    answers: &'static [&'static str],
    ends: Option<&'static str>,
) -> Wanted {
    Wanted {
        refused: "LINE REFUSED",
        ends,
        ..of_line(name, answers)
    }
}

/// Refusal 10 is none of them: the programs' tables are long enough for every set.
const WANTED: [Wanted; 8] = [
    of_line("report", &["ADMITTED", "BITS 0 NOT ADMITTED"]),
    of_line("make_set", &["digits", "REFUSED 11"]),
    of_set(
        "check_set",
        &["FAITHFUL", "UNFAITHFUL", "UNFINISHED", "LINE REFUSED 23"],
        Some("\n"),
    ),
    of_set(
        "count_set",
        &[
            "OUTSIDE",
            "NEAREST",
            "FAITHFUL",
            "LOW",
            "HIGH",
            "UNFINISHED",
            "LINE REFUSED 23",
        ],
        Some("\n"),
    ),
    of_set(
        "evaluate_set",
        &[
            "digits",
            "REFUSED 12",
            "REFUSED 13",
            "NOT A WORD",
            "UNFINISHED",
            "LINE REFUSED 23",
        ],
        None,
    ),
    of_set(
        "set_to_hex",
        &["record", "UNFINISHED", "LINE REFUSED 23"],
        Some("\n\n"),
    ),
    of_set(
        "hex_to_set",
        &[
            "digits",
            "UNFINISHED",
            "LINE REFUSED 21",
            "LINE REFUSED 22",
            "REFUSED 23",
        ],
        None,
    ),
    Wanted {
        refusals: OF_SEARCH,
        ..of_line(
            "smallest_design",
            &["digits", "ADMITTED", "NOT THREE NUMBERS"],
        )
    },
];

/// What is added to an answer behind a set.
const BEHIND: &str = " behind a set";

impl Wanted {
    fn of(name: &str) -> Option<&'static Wanted> {
        WANTED.iter().find(|wanted| wanted.name == name)
    }

    fn all(&self) -> Vec<String> {
        let refusals = self.refusals.iter();
        let refused = refusals.map(|n| format!("{} {n}", self.refused));
        let answers = self.answers.iter().map(|answer| answer.to_string());
        let all: Vec<String> = answers.chain(refused).collect();
        let behind = all.iter().filter(|_| self.ends.is_some());
        let behind: Vec<String> = behind.map(|answer| answer.clone() + BEHIND).collect();
        [all, behind].concat()
    }

    /// What the program printed for each set and at last.
    fn parts<'a>(&self, text: &'a str) -> Vec<&'a str> {
        match self.ends {
            Some(ends) => text.split(ends).filter(|part| !part.is_empty()).collect(),
            None => vec![text],
        }
    }
}

/// The answers in a printed line: the line without the numbers that only say where or how much, or
/// the classes that are not empty.
fn answers_in(line: &str) -> Vec<String> {
    let words: Vec<&str> = line.split(' ').collect();
    let answer = match words[..] {
        ["OUTSIDE", ..] => return classes(&words),
        ["LINE", _, "REFUSED", refusal] => format!("LINE REFUSED {refusal}"),
        ["BUDGET", _, "LIMIT", _, "BITS", "0", ..] => words[4..].join(" "),
        ["BUDGET", _, "LIMIT", _, "BITS", _, ref verdict @ ..] => verdict.join(" "),
        ["UNFAITHFUL" | "UNFINISHED", _] => words[0].into(),
        _ if line.starts_with(|c: char| c.is_ascii_digit()) => "digits".into(),
        _ if line.starts_with(':') => "record".into(),
        _ => line.into(),
    };
    vec![answer]
}

/// The classes with a count above 0, each class standing before its count.
fn classes(words: &[&str]) -> Vec<String> {
    let counts = words.chunks_exact(2).filter(|pair| pair[1] != "0");
    counts.map(|pair| pair[0].to_string()).collect()
}

#[derive(Default)]
pub struct Answers {
    counts: BTreeMap<(&'static str, String), usize>,
}

impl Answers {
    /// Counts the answers in each printed line.
    pub fn note(&mut self, name: &'static str, text: &str) {
        let parts = Wanted::of(name).map_or(vec![text], |wanted| wanted.parts(text));
        for (part, text) in parts.into_iter().enumerate() {
            let behind = if part == 0 { "" } else { BEHIND };
            for answer in text.lines().flat_map(answers_in) {
                *self.counts.entry((name, answer + behind)).or_default() += 1;
            }
        }
    }

    fn count(&self, name: &'static str, answer: &str) -> usize {
        let key = (name, answer.to_string());
        self.counts.get(&key).copied().unwrap_or(0)
    }

    pub fn print(&self) {
        println!("program         times each answer came up");
        for wanted in &WANTED {
            let each = wanted
                .all()
                .into_iter()
                .map(|answer| format!("{answer}: {}", self.count(wanted.name, &answer)));
            println!("{:15} {}", wanted.name, each.collect::<Vec<_>>().join("  "));
        }
    }

    /// What did not come up though it should have.
    pub fn missing(&self) -> Vec<String> {
        let of_program = |wanted: &'static Wanted| {
            let unmet = wanted
                .all()
                .into_iter()
                .filter(|answer| self.count(wanted.name, answer) == 0);
            unmet
                .map(|answer| format!("{}: {answer}", wanted.name))
                .collect::<Vec<_>>()
        };
        WANTED.iter().flat_map(of_program).collect()
    }
}
