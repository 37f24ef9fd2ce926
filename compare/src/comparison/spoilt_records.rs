//! Intel HEX records spoilt in every place, out of order and in every state.

use super::lines::body;
use super::records::{fields, records_of, used_after, HUGE};
use super::Comparison;
use crate::by_hand::{record, sealed};
use crate::random::lengths;
use crate::refusal::number_of;
use crate::types::{Design, RecordReading, Tables, KINDS};

/// What a byte of a record belongs to.
fn field(place: usize, bytes: usize) -> &'static str {
    match place {
        0 => "length byte",
        1 | 2 => "address",
        3 => "type",
        _ if place + 1 == bytes => "sum",
        _ => "data byte",
    }
}

/// What may stand behind a record that is well-formed without it.
const BEHIND: [&[u8]; 8] = [
    b"\r",
    b"\n",
    b"\r\n",
    b"\0",
    b" ",
    b"0",
    b"00",
    b":00000001FF",
];

/// The two bytes of a state, used or not.
const HELD: [[u8; 2]; 9] = [
    [0, 0],
    [0, 1],
    [0, 255],
    [1, 0],
    [1, 1],
    [15, 240],
    [128, 128],
    [255, 0],
    [255, 255],
];

/// What the reader is given where a certain record is expected, and that record.
struct Given {
    d: Design,
    state: RecordReading,
    tables: Tables,
    text: Vec<u8>,
}

impl Comparison {
    /// The first records, which cut entries in all ways, the last ones, and the state after them.
    pub fn spoilt_records(&mut self) {
        for kind in KINDS {
            let d = self.random.legal_of_at_most(kind, 400);
            let records = records_of(&d);
            for number in [0, 1, 2, records - 2, records - 1, records] {
                let given = self.given(&d, number);
                self.spoilt_characters(&given);
                self.spoilt_bytes(&given);
                self.other_lengths(&given);
                self.records_of_every_length(&given);
            }
        }
    }

    fn given(&mut self, d: &Design, number: usize) -> Given {
        let (initial, offsets) = lengths(d);
        Given {
            d: *d,
            state: self.possible_state(d, number),
            tables: self.random.tables((initial + 1, offsets + 1)),
            text: self.well_formed_record(d, number),
        }
    }

    /// Reads a record and notes the refusal under a name.
    fn read_as(&mut self, given: &Given, text: &[u8], name: &str) {
        let Given {
            d, state, tables, ..
        } = given;
        let answer = self.calls.read_record(d, *state, tables, text).0;
        let refusal = number_of(&answer);
        self.note(&format!("record, {name}: {refusal}"));
    }

    /// Every other character in every place.
    fn spoilt_characters(&mut self, given: &Given) {
        let bytes = given.text.len() / 2;
        for place in 0..given.text.len() {
            let spoilt = match place {
                0 => "colon",
                _ => field((place - 1) / 2, bytes),
            };
            for character in (0..=255).filter(|&character| character != given.text[place]) {
                let mut text = given.text.clone();
                text[place] = character;
                self.read_as(given, &text, &format!("spoilt {spoilt}"));
            }
        }
    }

    /// Every other byte in every place, with the sum made right again.
    fn spoilt_bytes(&mut self, given: &Given) {
        let body = body(&given.text[1..]).unwrap_or_default();
        for place in 0..body.len() {
            let spoilt = field(place, body.len() + 1);
            for byte in (0..=255).filter(|&byte| byte != body[place]) {
                let mut body = body.clone();
                body[place] = byte;
                let text = [b":", &sealed(&body)[..]].concat();
                self.read_as(given, &text, &format!("well-formed with another {spoilt}"));
            }
        }
    }

    /// A record cut off everywhere, and one with something behind it.
    fn other_lengths(&mut self, given: &Given) {
        for length in 0..given.text.len() {
            self.read_as(given, &given.text[..length], "cut off");
        }
        for behind in BEHIND {
            let text = [&given.text[..], behind].concat();
            self.read_as(given, &text, "longer");
        }
    }

    /// Well-formed records of every number of bytes there is, where they are expected but for that, each also
    /// with a spoilt character, with a spoilt last one and with one behind it; and one byte more.
    fn records_of_every_length(&mut self, given: &Given) {
        let (address, kind, data) = fields(&given.text);
        for length in (0..=255).filter(|&length| length != data.len()) {
            let text = record(address, kind, &self.data(length));
            self.read_as(given, &text, "well-formed with another length");
            let place = self.random.place(text.len());
            for place in [place, text.len() - 1] {
                let mut text = text.clone();
                text[place] = if text[place] == b'0' { b'1' } else { b'g' };
                self.read_as(given, &text, "spoilt with another length");
            }
            self.read_as(given, &[&text[..], b"\r"].concat(), "longer");
        }
        let text = record(address, kind, &[0; 256]);
        self.read_as(given, &text, "of 256 bytes");
    }

    /// Every record of a set where every one is expected, and after all.
    pub fn records_out_of_order(&mut self) {
        for round in 0..40 {
            let d = self.random.legal_of_at_most(round % 5, 200);
            let end = records_of(&d) - 1;
            for taken in 0..=end + 1 {
                let given = self.given(&d, taken);
                for number in 0..=end {
                    let text = self.well_formed_record(&d, number);
                    let name = match number {
                        _ if number == taken => "expected",
                        _ if taken > end => "after the end record",
                        _ if number == end => "end record too early",
                        _ if number < taken => "of those taken",
                        _ => "of those to come",
                    };
                    self.read_as(&given, &text, name);
                }
            }
        }
    }

    /// The expected record in every state of a set and past it, with bytes held of every use.
    pub fn records_in_every_state(&mut self) {
        for round in 0..40 {
            let d = self.random.legal_of_at_most(round % 5, 200);
            let records = records_of(&d);
            for taken in (0..=records + 2).chain(HUGE) {
                let mut given = self.given(&d, taken);
                let name = match used_after(&d, taken) {
                    _ if taken > records => "in a state past the set".to_string(),
                    used => format!("in a state that holds {used}"),
                };
                for held in HELD {
                    given.state.held = held;
                    self.calls.records_finished(&d, &given.state);
                    self.read_as(&given, &given.text, &name);
                }
            }
        }
    }
}
