//! "Bits, lines": a set stored as lines of hexadecimal, one frame a line; and request A8's empty
//! lines between sets.

use super::bytes::{
    initial_bytes, initial_entry, last_byte, offset_bytes, offset_entry, read_digits, sum,
    write_digits,
};
use super::design::Legal;
use crate::refusal::Refusal;
use crate::types::{Design, LineReading, Tables};

/// The bytes of one frame. No frame is longer than 16 bytes, 32 digits.
struct Frame {
    bytes: [u8; 16],
    length: usize,
}

impl Frame {
    fn empty() -> Frame {
        Frame {
            bytes: [0; 16],
            length: 0,
        }
    }

    /// A frame of the given bytes and the last byte.
    fn sealed(body: &[u8]) -> Frame {
        let mut frame = Frame::empty();
        frame.bytes[..body.len()].copy_from_slice(body);
        frame.bytes[body.len()] = last_byte(body);
        frame.length = body.len() + 1;
        frame
    }

    fn bytes(&self) -> &[u8] {
        &self.bytes[..self.length]
    }

    /// Two digits 0-9 A-F a byte. Refusal 15: empty, odd length, over 32 digits, other character,
    /// wrong sum.
    fn from_line(line: &[u8]) -> Result<Frame, Refusal> {
        if line.is_empty() || !line.len().is_multiple_of(2) || line.len() > 32 {
            return Err(Refusal::Line);
        }
        let mut frame = Frame::empty();
        frame.length = line.len() / 2;
        if !read_digits(line, &mut frame.bytes) || sum(frame.bytes()) != 0 {
            return Err(Refusal::Line);
        }
        Ok(frame)
    }

    /// Puts the digits at the start of the line buffer. Refusal 14: the buffer is shorter.
    fn to_line(&self, line: &mut [u8]) -> Result<usize, Refusal> {
        let length = 2 * self.length;
        let line = line.get_mut(..length).ok_or(Refusal::Output)?;
        write_digits(self.bytes(), line);
        Ok(length)
    }
}

/// What the line with a certain number holds.
enum Expected {
    Design,
    Initial {
        index: usize,
    },
    Offset {
        table: usize,
        index: usize,
        place: usize,
    },
    End {
        before: usize,
    },
}

impl Legal {
    /// The 01 line, a line for each entry, the 04 line.
    fn lines(&self) -> usize {
        self.entries() + 2
    }

    /// The frames in their order; none past the set.
    fn expected_line(&self, number: usize) -> Option<Expected> {
        let Some(entry) = number.checked_sub(1) else {
            return Some(Expected::Design);
        };
        let Some(place) = entry.checked_sub(self.initial()) else {
            return Some(Expected::Initial { index: entry });
        };
        for (i, table) in self.tables().iter().enumerate() {
            // Tables come one after another, so a place before this one's end is in this one.
            let index = place - table.start;
            if index < table.entries() {
                return Some(Expected::Offset {
                    table: i,
                    index,
                    place,
                });
            }
        }
        (place == self.offsets).then_some(Expected::End { before: number })
    }

    /// Refusal 23, for lines alone: an initial entry is 2^(P+2) or more.
    fn limited(&self, entry: u32) -> Result<(), Refusal> {
        if entry >> (self.function.p + 2) == 0 {
            Ok(())
        } else {
            Err(Refusal::Initial)
        }
    }
}

/// Writes the line with the asked number and returns its length; refusals 1 to 10, 19, 18, 23, 14.
pub fn write_line(
    d: &Design,
    tables: &Tables,
    number: usize,
    line: &mut [u8],
) -> Result<usize, Refusal> {
    let legal = Legal::new(d)?;
    legal.fits(tables)?;
    let frame = match legal.expected_line(number).ok_or(Refusal::PastSet)? {
        Expected::Design => design_frame(d),
        Expected::Initial { index } => {
            let entry = tables.initial[index];
            let frame = initial_frame(index, entry)?;
            legal.limited(entry)?;
            frame
        }
        Expected::Offset {
            table,
            index,
            place,
        } => offset_frame(table, index, tables.offsets[place])?,
        Expected::End { before } => end_frame(before),
    };
    frame.to_line(line)
}

/// 01: kind, w, q, g, alpha, m, then a_i, b_i, a byte each. All are small in a legal design.
fn design_frame(d: &Design) -> Frame {
    let pairs = d.read_pairs().as_flattened();
    let numbers = [1, d.kind, d.w, d.q, d.g, d.alpha, d.m];
    let mut body = [0; 15];
    for (byte, &number) in body.iter_mut().zip(numbers.iter().chain(pairs)) {
        *byte = number as u8;
    }
    Frame::sealed(&body[..numbers.len() + pairs.len()])
}

/// 02: index (2 bytes), initial entry (3 bytes). Refusal 18: the entry does not fit.
fn initial_frame(index: usize, entry: u32) -> Result<Frame, Refusal> {
    let [e2, e1, e0] = initial_bytes(entry)?;
    let [i1, i0] = (index as u16).to_be_bytes();
    Ok(Frame::sealed(&[2, i1, i0, e2, e1, e0]))
}

/// 03: table number (1), index (2), offset (3, two's complement). Refusal 18: it does not fit.
fn offset_frame(table: usize, index: usize, offset: i32) -> Result<Frame, Refusal> {
    let [e2, e1, e0] = offset_bytes(offset)?;
    let [i1, i0] = (index as u16).to_be_bytes();
    Ok(Frame::sealed(&[3, table as u8, i1, i0, e2, e1, e0]))
}

/// 04: number of frames before it (2 bytes).
fn end_frame(before: usize) -> Frame {
    let [n1, n0] = (before as u16).to_be_bytes();
    Frame::sealed(&[4, n1, n0])
}

/// The design of an 01 line on its own; refusals 15, 16, then 1 to 9. The pairs beyond m are zeros.
pub fn read_design(line: &[u8]) -> Result<Design, Refusal> {
    read_legal(line).map(|(design, _)| design)
}

/// The same with what the design fixes.
pub fn read_legal(line: &[u8]) -> Result<(Design, Legal), Refusal> {
    let frame = Frame::from_line(line)?;
    let &[1, kind, w, q, g, alpha, m, ref rest @ ..] = frame.bytes() else {
        return Err(Refusal::Frame);
    };
    // "8 + 2m bytes by its own m": the pairs and the last byte are left.
    if rest.len() != 2 * usize::from(m) + 1 {
        return Err(Refusal::Frame);
    }
    let mut pairs = [[0, 0]; 4];
    for (pair, bytes) in pairs.iter_mut().zip(rest.chunks_exact(2)) {
        *pair = [bytes[0].into(), bytes[1].into()];
    }
    let design = Design::new([kind, w, q, g, alpha, m].map(u32::from), pairs);
    Ok((design, Legal::new(&design)?))
}

/// An entry that an accepted line brings.
enum Entry {
    Initial { index: usize, entry: u32 },
    Offset { place: usize, entry: i32 },
}

/// The entry of a later line, none for the 04 line. Refusal 16: not the expected frame.
fn read_entry(expected: Option<Expected>, bytes: &[u8]) -> Result<Option<Entry>, Refusal> {
    match (expected, bytes) {
        (Some(Expected::Initial { index }), &[2, i1, i0, e2, e1, e0, _])
            if usize::from(u16::from_be_bytes([i1, i0])) == index =>
        {
            let entry = initial_entry([e2, e1, e0]);
            Ok(Some(Entry::Initial { index, entry }))
        }
        (
            Some(Expected::Offset {
                table,
                index,
                place,
            }),
            &[3, number, i1, i0, e2, e1, e0, _],
        ) if usize::from(number) == table && usize::from(u16::from_be_bytes([i1, i0])) == index => {
            let entry = offset_entry([e2, e1, e0]);
            Ok(Some(Entry::Offset { place, entry }))
        }
        (Some(Expected::End { before }), &[4, n1, n0, _])
            if usize::from(u16::from_be_bytes([n1, n0])) == before =>
        {
            Ok(None)
        }
        _ => Err(Refusal::Frame),
    }
}

/// Takes one line and returns the next state; refusals 17, 15, 16, on an 01 line 1 to 9, on a 02 line
/// 23, then 10; for an empty line 17 and 16 alone. A refused line gives back the state that came in.
pub fn read_line(
    state: LineReading,
    tables: &mut Tables,
    line: &[u8],
) -> (Result<(), Refusal>, LineReading) {
    if line.is_empty() {
        return read_empty(state);
    }
    let design = match state.taken {
        0 => read_first(tables, line),
        _ => read_later(&state, tables, line),
    };
    match design {
        Ok(design) => {
            let taken = state.taken + 1;
            (Ok(()), LineReading { design, taken })
        }
        Err(refusal) => (Err(refusal), state),
    }
}

/// "After 04 nothing more is due and the reading is finished."
pub fn lines_finished(state: &LineReading) -> bool {
    state.taken > 0 && possible(state).is_ok_and(|legal| legal.lines() == state.taken)
}

/// With lines taken, "the state is possible if the design is legal and no more lines are taken
/// than the set has"; else refusal 17.
fn possible(state: &LineReading) -> Result<Legal, Refusal> {
    match Legal::new(&state.design) {
        Ok(legal) if state.taken <= legal.lines() => Ok(legal),
        _ => Err(Refusal::State),
    }
}

/// Request A8: "after a finished set" an empty line "gives a reading state with no line taken,
/// the design in it standing as it came", "before a set's first line" it "is passed over, the
/// state unchanged", and "inside a set it is refused with 16".
fn read_empty(state: LineReading) -> (Result<(), Refusal>, LineReading) {
    if state.taken == 0 {
        return (Ok(()), state);
    }
    match possible(&state) {
        Ok(legal) if state.taken == legal.lines() => (Ok(()), LineReading { taken: 0, ..state }),
        Ok(_) => (Err(Refusal::Frame), state),
        Err(refusal) => (Err(refusal), state),
    }
}

/// The first line: its design is the one to go on with.
fn read_first(tables: &Tables, line: &[u8]) -> Result<Design, Refusal> {
    let (design, legal) = read_legal(line)?;
    legal.fits(tables)?;
    Ok(design)
}

/// A line after the first: it stores its entry, and the design stays as it was.
fn read_later(state: &LineReading, tables: &mut Tables, line: &[u8]) -> Result<Design, Refusal> {
    let legal = possible(state)?;
    let frame = Frame::from_line(line)?;
    let entry = read_entry(legal.expected_line(state.taken), frame.bytes())?;
    if let Some(Entry::Initial { entry, .. }) = entry {
        legal.limited(entry)?;
    }
    legal.fits(tables)?;
    match entry {
        Some(Entry::Initial { index, entry }) => tables.initial[index] = entry,
        Some(Entry::Offset { place, entry }) => tables.offsets[place] = entry,
        None => {}
    }
    Ok(state.design)
}

#[cfg(test)]
mod tests;
