//! What the programs print for files of sets, worked out by hand. The set of G has 98 lines.

use super::expected::{
    check_set, count_set, evaluate_set, hex_to_set, make_set, report, set_to_hex,
};

/// The line of G.
const G: &str = "010008080405010303DF\n";

/// The lines of G's filled set.
fn set() -> String {
    make_set(G.as_bytes())
}

/// The same with initial entry 0 changed from 4050 to 4045.
fn unfaithful() -> String {
    set().replace("020000000FD21D", "020000000FCD22")
}

/// The first lines of G's filled set.
fn start(lines: usize) -> String {
    set().split_inclusive('\n').take(lines).collect()
}

fn check(input: String) -> String {
    check_set(input.as_bytes())
}

#[test]
fn no_set() {
    for program in [check_set, count_set, evaluate_set, set_to_hex] {
        for (input, text) in [
            ("", "UNFINISHED 0\n"),
            ("\n", "UNFINISHED 1\n"),
            ("\n\n\n", "UNFINISHED 3\n"),
            ("\r\n", "LINE 0 REFUSED 15\n"),
            ("\n\n\r", "LINE 2 REFUSED 15\n"),
            ("\n0", "LINE 1 REFUSED 15\n"),
            ("\n0400619B\n\n", "LINE 1 REFUSED 16\n"),
        ] {
            assert_eq!(program(input.as_bytes()), text, "{input:?}");
        }
    }
}

#[test]
fn empty_lines_around_a_set() {
    let set = set();
    for input in [
        set.clone(),
        set.trim_end().to_string(),
        format!("{set}\n"),
        format!("{set}\n\n\n"),
        format!("\n{set}"),
        format!("\n\n\n{set}\n"),
    ] {
        assert_eq!(check(input), "FAITHFUL\n");
    }
}

#[test]
fn several_sets() {
    let (set, other) = (set(), unfaithful());
    for empty in ["\n", "\n\n", "\n\n\n\n"] {
        let input = format!("{set}{empty}{set}");
        assert_eq!(check(input), "FAITHFUL\nFAITHFUL\n");
        let input = format!("{other}{empty}{set}{empty}{other}{empty}");
        assert_eq!(check(input), "UNFAITHFUL 0\nFAITHFUL\nUNFAITHFUL 0\n");
    }
    let counts = [
        "OUTSIDE 0 NEAREST 239 FAITHFUL 17 LOW 0 HIGH 0\n",
        "OUTSIDE 0 NEAREST 238 FAITHFUL 17 LOW 1 HIGH 0\n",
    ];
    let input = format!("{set}\n{other}");
    assert_eq!(count_set(input.as_bytes()), counts.concat());
}

/// Lines count from the start of the input, empty ones, too.
#[test]
fn what_ends_a_file_too_early() {
    let (set, ten, fifty, most) = (set(), start(10), start(50), start(97));
    for (input, text) in [
        (format!("{set}{set}"), "FAITHFUL\nLINE 98 REFUSED 16\n"),
        (format!("{set}\r\n{set}"), "FAITHFUL\nLINE 98 REFUSED 15\n"),
        (format!("{set}\n\r\n"), "FAITHFUL\nLINE 99 REFUSED 15\n"),
        (format!("{set}\n{G}"), "FAITHFUL\nUNFINISHED 100\n"),
        (format!("{set}\n{G}\n"), "FAITHFUL\nLINE 100 REFUSED 16\n"),
        (
            format!("\n\n{set}\n\n\n{ten}"),
            "FAITHFUL\nUNFINISHED 113\n",
        ),
        (
            format!("\n{set}\n{set}\n{most}\n"),
            "FAITHFUL\nFAITHFUL\nLINE 296 REFUSED 16\n",
        ),
        (format!("\n{fifty}"), "UNFINISHED 51\n"),
        (format!("\n{fifty}\n"), "LINE 51 REFUSED 16\n"),
        (format!("\n{G}020000004000BE"), "LINE 2 REFUSED 23\n"),
    ] {
        assert_eq!(check(input), text);
    }
}

/// One empty line stands between two files of records, and between the last and a message.
#[test]
fn files_of_records() {
    let set = set();
    let hex = set_to_hex(set.as_bytes());
    assert!(hex.starts_with(":10000000000FD2") && hex.ends_with("\n:00000001FF\n"));
    assert_eq!(hex.lines().count(), 19);
    for (input, text) in [
        (format!("{set}\n{set}"), format!("{hex}\n{hex}")),
        (format!("\n{set}\n\n\n{set}\n"), format!("{hex}\n{hex}")),
        (format!("{set}\n\n"), hex.clone()),
        (
            format!("{set}{set}"),
            format!("{hex}\nLINE 98 REFUSED 16\n"),
        ),
        (format!("{set}\n{G}"), format!("{hex}\nUNFINISHED 100\n")),
    ] {
        assert_eq!(set_to_hex(input.as_bytes()), text);
    }
}

/// Words follow the first set, and an empty line is none of them.
#[test]
fn words_behind_a_set() {
    let (set, three) = (set(), start(3));
    let input = format!("\n\n{set}7\n\n255\n{G}256");
    assert_eq!(
        evaluate_set(input.as_bytes()),
        "249\nNOT A WORD\n128\nNOT A WORD\nREFUSED 12\n"
    );
    let input = format!("\n\n{three}");
    assert_eq!(evaluate_set(input.as_bytes()), "UNFINISHED 5\n");
}

/// A design's line on its own must not be empty.
#[test]
fn single_lines() {
    for input in ["\n", "\n010008080405010303DF\n"] {
        assert_eq!(report(input.as_bytes()), "REFUSED 15\n");
        assert_eq!(make_set(input.as_bytes()), "REFUSED 15\n");
        assert_eq!(hex_to_set(input.as_bytes()), "LINE 0 REFUSED 15\n");
    }
    assert_eq!(make_set(b""), "REFUSED 15\n");
    assert_eq!(hex_to_set(b""), "UNFINISHED 0\n");
    assert_eq!(hex_to_set(b"\r\n"), "LINE 0 REFUSED 15\n");
    let input = format!("{G}\n");
    assert_eq!(hex_to_set(input.as_bytes()), "LINE 1 REFUSED 21\n");
}
