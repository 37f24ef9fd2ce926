//! The inputs of the program that reads a kind and two widths.

use super::inputs::behind;
use super::{expected, Runs, WIDTHS_PROGRAM};
use compare::types::KINDS;

/// An accepted line.
const GOOD: &str = "0 8 8";

/// Three numbers that are refused: one of them is wrong, two or all three are, and at the end no
/// design is admitted.
const REFUSED: [&str; 18] = [
    "5 8 8",
    "6 8 8",
    "256 8 8",
    "4294967295 8 8",
    "0 0 8",
    "0 5 8",
    "0 17 8",
    "0 4294967295 8",
    "0 8 0",
    "0 8 5",
    "0 8 17",
    "0 8 4294967295",
    "5 17 17",
    "5 8 17",
    "4 17 5",
    "0 6 12",
    "0 8 16",
    "4 7 16",
];

/// Too few numbers, too many, and other characters before, between and behind them than one space.
const NOT_THREE: [&str; 24] = [
    " ",
    "  ",
    "0",
    "0 8",
    "0 8 ",
    "0  8",
    "0 8 8 8",
    "0 8 8 ",
    "0 8 8  ",
    " 0 8 8",
    "0  8 8",
    "0 8  8",
    "088",
    "0\t8 8",
    "0 8\t8",
    "0 8 8\t",
    "\t0 8 8",
    "0,8,8",
    "0, 8, 8",
    "0 8\r8",
    "0 \0 8",
    "0\08\08",
    "0\u{A0}8\u{A0}8",
    "010008080405010303DF",
];

/// What may stand in the place of a number: other characters, numbers at 2^32 and beyond, some of
/// them small modulo a power of two, and good ones.
const NUMBERS: [&str; 24] = [
    "",
    "-0",
    "+8",
    "-8",
    "8.",
    "8.0",
    "0x8",
    "8h",
    "1e1",
    "/",
    ":",
    "A",
    "٨",
    "4294967296",
    "4294967304",
    "42949672968",
    "18446744073709551616",
    "18446744073709551624",
    "340282366920938463463374607431768211464",
    "4294967295",
    "0",
    "00",
    "08",
    "000000000000000000008",
];

/// Bytes above 127, some of them a space or a digit if the high bit is not read.
const BYTES: [u8; 6] = [0x80, 0xA0, 0xB0, 0xB8, 0xC3, 0xFF];

/// What may follow a line.
const ENDS: [&str; 9] = [
    "",
    "\n",
    "\n\n",
    "\r\n",
    "\n\r",
    "\n8",
    "\n0 9 9\n",
    " \n",
    "\0\n",
];

/// Numbers of many digits: a small one, the least that is too large, and larger ones.
fn long_numbers(digits: usize) -> [String; 4] {
    let zeros = "0".repeat(digits);
    [
        zeros.clone() + "8",
        zeros + "4294967296",
        "8".repeat(digits),
        "8".to_string() + &"0".repeat(digits),
    ]
}

/// The accepted line with another number in a place.
fn with_number(place: usize, number: &str) -> String {
    let mut numbers: Vec<&str> = GOOD.split(' ').collect();
    numbers[place] = number;
    numbers.join(" ")
}

impl Runs {
    pub fn width_inputs(&mut self) {
        self.widths_of_all_kinds();
        self.any_widths();
        for text in REFUSED.iter().chain(&NOT_THREE) {
            self.with_end(text);
        }
        for text in [" ", "8", "8 ", "0 8 8 "] {
            self.with_end(&text.repeat(70_000));
        }
        for end in ENDS {
            self.widths(format!("{GOOD}{end}").as_bytes());
            self.widths(end.as_bytes());
        }
        for place in 0..3 {
            self.numbers_in_place(place);
        }
        self.other_bytes();
        self.made_and_checked();
        self.reads_only("smallest_design", "0 8 8\n", "7\n");
    }

    /// A line that ends with a newline, and one that does not.
    fn with_end(&mut self, text: &str) {
        self.widths(text.as_bytes());
        self.widths(format!("{text}\n").as_bytes());
    }

    fn widths_of_all_kinds(&mut self) {
        for kind in KINDS {
            for w in 6..=16 {
                for q in [6, w, 16] {
                    self.widths(format!("{kind} {w} {q}\n").as_bytes());
                }
            }
        }
    }

    /// Numbers at the limits and around them.
    fn any_widths(&mut self) {
        for _ in 0..60 {
            let kind = self.random.within(0..=5);
            let [w, q] = [(); 2].map(|()| self.random.within(4..=18));
            self.widths(format!("{kind} {w} {q}\n").as_bytes());
        }
    }

    /// One of the three numbers changed or with something behind it.
    fn numbers_in_place(&mut self, place: usize) {
        for number in NUMBERS {
            self.with_end(&with_number(place, number));
        }
        for digits in [9, 10, 19, 20, 100, 70_000] {
            for number in long_numbers(digits) {
                self.with_end(&with_number(place, &number));
            }
        }
        let numbers: Vec<&str> = GOOD.split(' ').collect();
        for behind in behind() {
            let number = format!("{}{behind}", numbers[place]);
            self.with_end(&with_number(place, &number));
        }
    }

    /// A byte above 127 in every place of the line, and between all of them.
    fn other_bytes(&mut self) {
        for byte in BYTES {
            for place in 0..=GOOD.len() {
                let (before, behind) = GOOD.as_bytes().split_at(place);
                self.widths(&[before, &[byte], behind, b"\n"].concat());
                let behind = behind.get(1..).unwrap_or_default();
                self.widths(&[before, &[byte], behind].concat());
            }
        }
    }

    /// The tables of the smallest design are made from its line, the first that is printed, and
    /// found to be faithful.
    fn made_and_checked(&mut self) {
        for widths in [
            "0 8 8", "1 10 12", "2 9 16", "3 12 12", "4 16 14", "0 16 16",
        ] {
            let printed = self.compare(WIDTHS_PROGRAM, widths.as_bytes());
            let set = self.compare(("make_set", expected::make_set), printed.as_bytes());
            let verdict = self.compare(("check_set", expected::check_set), set.as_bytes());
            assert_eq!(verdict, "FAITHFUL\n", "smallest design of {widths}");
        }
    }
}
