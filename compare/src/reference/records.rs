//! Request A2, "Intel HEX for the device programmer": a set's entries as records.

use super::bytes::{
    initial_bytes, initial_entry, last_byte, offset_bytes, offset_entry, read_digits, sum,
    write_digits,
};
use super::design::Legal;
use crate::refusal::Refusal;
use crate::types::{Design, RecordReading, Tables};

/// The bytes of an entry.
const ENTRY: usize = 3;

/// The data bytes of a record, "the last one shorter where fewer are left".
const DATA: usize = 16;

/// The entries with a byte in such a record: at most two bytes of the first come before it.
const ENTRIES: usize = (2 + DATA).div_ceil(ENTRY);

/// The bytes before the data: length, address (2), type.
const HEAD: usize = 4;

/// Those of the end record.
const END: [u8; HEAD] = [0, 0, 0, 1];

/// The bytes of the longest record that can be expected, and of the longest that there is.
const LONGEST_EXPECTED: usize = HEAD + DATA + 1;
const LONGEST: usize = HEAD + 255 + 1;

/// The record with a certain number: its first bytes, and which bytes of the set are its data.
/// The end record has none.
struct Expected {
    head: [u8; HEAD],
    start: usize,
    length: usize,
}

impl Expected {
    /// The entry that the data begin in, and how many of its bytes come before them.
    fn first_entry(&self) -> (usize, usize) {
        (self.start / ENTRY, self.start % ENTRY)
    }
}

impl Legal {
    /// The bytes of all entries.
    fn bytes(&self) -> usize {
        ENTRY * self.entries()
    }

    /// Refusal 20: "the entries take more than 65,536 bytes".
    pub fn addressable(&self) -> Result<(), Refusal> {
        if self.bytes() > 65_536 {
            Err(Refusal::Addresses)
        } else {
            Ok(())
        }
    }

    /// The data records and the end record.
    fn records(&self) -> usize {
        self.bytes().div_ceil(DATA) + 1
    }

    /// The bytes in a number of records, which is not above that of all.
    fn bytes_in(&self, records: usize) -> usize {
        (DATA * records).min(self.bytes())
    }

    /// The records in their order; none past the set.
    fn expected_record(&self, number: usize) -> Option<Expected> {
        if number >= self.records() {
            return None;
        }
        let start = self.bytes_in(number);
        let length = self.bytes_in(number + 1) - start;
        let [a1, a0] = (start as u16).to_be_bytes();
        let head = match length {
            0 => END,
            _ => [length as u8, a1, a0, 0],
        };
        Some(Expected {
            head,
            start,
            length,
        })
    }

    /// The data of a record, with anything behind them. Refusal 18, "for any entry with a byte in
    /// the record".
    #[inline]
    fn data(&self, record: &Expected, tables: &Tables) -> Result<[u8; DATA], Refusal> {
        let (first, before) = record.first_entry();
        let mut entries = [[0; ENTRY]; ENTRIES];
        let of_record = (before + record.length).div_ceil(ENTRY);
        for (entry, bytes) in (first..).zip(&mut entries[..of_record]) {
            *bytes = match entry.checked_sub(self.initial()) {
                None => initial_bytes(tables.initial[entry])?,
                Some(place) => offset_bytes(tables.offsets[place])?,
            };
        }
        let mut data = [0; DATA];
        data.copy_from_slice(&entries.as_flattened()[before..][..DATA]);
        Ok(data)
    }
}

/// What writer and reader check first; refusals 1 to 10, 20.
fn of_records(d: &Design, tables: &Tables) -> Result<Legal, Refusal> {
    let legal = Legal::new(d)?;
    legal.fits(tables)?;
    legal.addressable()?;
    Ok(legal)
}

/// Writes the record with the asked number and returns its length; refusals 1 to 10, 20, 19, 18,
/// 14.
pub fn write_record(
    d: &Design,
    tables: &Tables,
    number: usize,
    record: &mut [u8],
) -> Result<usize, Refusal> {
    let legal = of_records(d, tables)?;
    let expected = legal.expected_record(number).ok_or(Refusal::PastSet)?;
    let mut bytes = [0; LONGEST_EXPECTED];
    bytes[..HEAD].copy_from_slice(&expected.head);
    bytes[HEAD..][..DATA].copy_from_slice(&legal.data(&expected, tables)?);
    let last = HEAD + expected.length;
    bytes[last] = last_byte(&bytes[..last]);
    to_text(&bytes[..=last], record)
}

/// Puts a colon and the digits at the start of the buffer. Refusal 14: the buffer is shorter.
fn to_text(bytes: &[u8], record: &mut [u8]) -> Result<usize, Refusal> {
    let length = 1 + 2 * bytes.len();
    let record = record.get_mut(..length).ok_or(Refusal::Output)?;
    record[0] = b':';
    write_digits(bytes, &mut record[1..]);
    Ok(length)
}

/// The bytes of a record for which there is room, with zeros behind them. Refusal 21: it "lacks
/// its colon, has wrong digits or sum, or does not have the length its own length byte says".
fn from_text<const ROOM: usize>(record: &[u8]) -> Result<[u8; ROOM], Refusal> {
    let Some((b':', digits)) = record.split_first() else {
        return Err(Refusal::Record);
    };
    let mut bytes = [0; ROOM];
    let all_digits = read_digits(digits, &mut bytes);
    let length = HEAD + usize::from(bytes[0]) + 1;
    if !all_digits || digits.len() != 2 * length || sum(&bytes[..length]) != 0 {
        return Err(Refusal::Record);
    }
    Ok(bytes)
}

/// The bytes of a record that can be expected; refusals 21 and 22.
fn read_text(record: &[u8]) -> Result<[u8; LONGEST_EXPECTED], Refusal> {
    if record.len() <= 1 + 2 * LONGEST_EXPECTED {
        return from_text(record);
    }
    // None this long is ever expected, well-formed or not.
    from_text::<LONGEST>(record)?;
    Err(Refusal::RecordHead)
}

/// Takes one record of the design's set and returns the next state; refusals 1 to 10, 20, 17, 21, 22.
/// A refused record gives back the state that came in.
pub fn read_record(
    state: RecordReading,
    d: &Design,
    tables: &mut Tables,
    record: &[u8],
) -> (Result<(), Refusal>, RecordReading) {
    match after(&state, d, tables, record) {
        Ok(next) => (Ok(()), next),
        Err(refusal) => (Err(refusal), state),
    }
}

/// All records of the set are taken, the end record too.
pub fn records_finished(state: &RecordReading, d: &Design) -> bool {
    Legal::new(d).is_ok_and(|legal| {
        legal.addressable().is_ok()
            && possible(state, &legal).is_ok()
            && state.taken == legal.records()
    })
}

/// "A state with more records than the set has, or an unused byte not 0, is not possible":
/// refusal 17.
fn possible(state: &RecordReading, legal: &Legal) -> Result<(), Refusal> {
    if state.taken > legal.records() {
        return Err(Refusal::State);
    }
    let used = legal.bytes_in(state.taken) % ENTRY;
    if state.held[used..].iter().any(|&byte| byte != 0) {
        return Err(Refusal::State);
    }
    Ok(())
}

/// The state after a record, whose entries are stored.
fn after(
    state: &RecordReading,
    d: &Design,
    tables: &mut Tables,
    record: &[u8],
) -> Result<RecordReading, Refusal> {
    let legal = of_records(d, tables)?;
    possible(state, &legal)?;
    let bytes = read_text(record)?;
    let expected = legal.expected_record(state.taken);
    let expected = expected.filter(|expected| bytes.starts_with(&expected.head));
    let expected = expected.ok_or(Refusal::RecordHead)?;
    Ok(RecordReading {
        taken: state.taken + 1,
        held: store(
            &legal,
            &expected,
            state.held,
            &bytes[HEAD..][..DATA],
            tables,
        ),
    })
}

/// Stores each entry "when its third byte comes". Returns the bytes of one that is cut.
fn store(
    legal: &Legal,
    record: &Expected,
    held: [u8; 2],
    data: &[u8],
    tables: &mut Tables,
) -> [u8; 2] {
    let (first, before) = record.first_entry();
    let mut bytes = [0; ENTRY * ENTRIES];
    bytes[..2].copy_from_slice(&held);
    bytes[before..][..DATA].copy_from_slice(data);
    let (entries, cut) = bytes[..before + record.length].as_chunks();
    for (entry, &bytes) in (first..).zip(entries) {
        match entry.checked_sub(legal.initial()) {
            None => tables.initial[entry] = initial_entry(bytes),
            Some(place) => tables.offsets[place] = offset_entry(bytes),
        }
    }
    let mut held = [0; 2];
    held[..cut.len()].copy_from_slice(cut);
    held
}

#[cfg(test)]
mod tests;
