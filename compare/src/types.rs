//! What goes into the calls and comes out of them, the same for every version.

use std::ops::RangeInclusive;

/// All kinds.
pub const KINDS: RangeInclusive<u32> = 0..=4;

/// kind, w, q, g, alpha, m and the pairs (a, b); pairs beyond m are not read. The 14 numbers lie one
/// after another: that is how a design is lent to C.
#[repr(C)]
#[derive(Clone, Copy, PartialEq, Eq, Debug, Default)]
pub struct Design {
    pub kind: u32,
    pub w: u32,
    pub q: u32,
    pub g: u32,
    pub alpha: u32,
    pub m: u32,
    pub pairs: [[u32; 2]; 4],
}

/// The document's example.
pub const G: Design = Design::cut([0, 8, 8, 4, 5], &[[3, 3]]);

impl Design {
    pub const fn new([kind, w, q, g, alpha, m]: [u32; 6], pairs: [[u32; 2]; 4]) -> Design {
        Design {
            kind,
            w,
            q,
            g,
            alpha,
            m,
            pairs,
        }
    }

    /// The design of kind, w, q, g and alpha with these pairs, and zeros beyond them.
    pub const fn cut([kind, w, q, g, alpha]: [u32; 5], pairs: &[[u32; 2]]) -> Design {
        let mut all = [[0; 2]; 4];
        all.split_at_mut(pairs.len()).0.copy_from_slice(pairs);
        Design::new([kind, w, q, g, alpha, pairs.len() as u32], all)
    }

    /// The pairs that are read, for an m of at most 4.
    pub fn read_pairs(&self) -> &[[u32; 2]] {
        &self.pairs[..self.m as usize]
    }
}

/// Both lent tables.
#[derive(Clone, PartialEq, Eq, Debug, Default)]
pub struct Tables {
    pub initial: Vec<u32>,
    pub offsets: Vec<i32>,
}

impl Tables {
    /// Tables of given lengths with all initial entries alike, and all offsets.
    pub fn alike((initial, offsets): (usize, usize), entry: u32, offset: i32) -> Tables {
        Tables {
            initial: vec![entry; initial],
            offsets: vec![offset; offsets],
        }
    }

    pub fn lengths(&self) -> (usize, usize) {
        (self.initial.len(), self.offsets.len())
    }

    /// The entries of a set with these lengths.
    pub fn start(&self, (initial, offsets): (usize, usize)) -> Tables {
        Tables {
            initial: self.initial[..initial].to_vec(),
            offsets: self.offsets[..offsets].to_vec(),
        }
    }
}

/// "The reading state is a design and the number of lines taken; with 0 taken the design is not
/// read."
#[derive(Clone, Copy, PartialEq, Eq, Debug)]
pub struct LineReading {
    pub design: Design,
    pub taken: usize,
}

/// Request A2: "The reading state is the number of records taken and two bytes, which from the first
/// on hold the start of an entry cut by a record's end; unused ones are 0".
#[derive(Clone, Copy, PartialEq, Eq, Debug, Default)]
pub struct RecordReading {
    pub taken: usize,
    pub held: [u8; 2],
}

/// L(X), and whether E(X) is that whole number.
#[derive(Clone, Copy, PartialEq, Eq, Debug)]
pub struct Value {
    pub floor: i64,
    pub whole: bool,
}

#[derive(Clone, Copy, PartialEq, Eq, Debug)]
pub enum Checked {
    Faithful,
    /// The lowest word that is not faithful.
    Unfaithful(u32),
}

/// How many of the 2^w inputs land in each class. The classes stand in the order in which they
/// are tried.
#[derive(Clone, Copy, PartialEq, Eq, Debug, Default)]
pub struct Counts {
    /// Sum out of range.
    pub outside: u32,
    /// Within half an output unit of the exact value, the half included.
    pub nearest: u32,
    /// Faithful but not nearest.
    pub faithful: u32,
    /// Too low, as is a word 0.
    pub low: u32,
    /// Too high.
    pub high: u32,
}

impl Counts {
    /// The five in their order.
    pub fn all(&self) -> [u32; 5] {
        [
            self.outside,
            self.nearest,
            self.faithful,
            self.low,
            self.high,
        ]
    }

    /// "The five add up to 2^w, and the check says faithful exactly when the first and the last two
    /// are zero."
    pub fn agree_with(&self, d: &Design, checked: Checked) -> bool {
        let unfaithful = self.outside + self.low + self.high;
        self.all().iter().sum::<u32>() == 1 << d.w
            && (checked == Checked::Faithful) == (unfaithful == 0)
    }
}
