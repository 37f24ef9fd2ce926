//! Why a call is refused.

use std::fmt;

/// Names the refusals and gives each its number.
macro_rules! refusals {
    ($($(#[$doc:meta])* $name:ident = $number:literal,)*) => {
        #[derive(Clone, Copy, PartialEq, Eq, PartialOrd, Ord, Debug)]
        pub enum Refusal {
            $($(#[$doc])* $name = $number,)*
        }

        impl Refusal {
            /// The refusal with a number.
            pub fn with_number(number: u8) -> Option<Refusal> {
                match number {
                    $($number => Some(Refusal::$name),)*
                    _ => None,
                }
            }
        }
    };
}

// The document's table "What is turned down, by place", and what requests A2, A4 and A5 add to it.
refusals! {
    Kind = 1,
    W = 2,
    Q = 3,
    G = 4,
    Alpha = 5,
    M = 6,
    A = 7,
    B = 8,
    BSum = 9,
    Tables = 10,
    NotAdmitted = 11,
    Word = 12,
    Range = 13,
    Output = 14,
    Line = 15,
    Frame = 16,
    State = 17,
    Entry = 18,
    PastSet = 19,
    Addresses = 20,
    Record = 21,
    RecordHead = 22,
    Initial = 23,
    NoneAdmitted = 24,
    /// None of the documents': the library gave another number, or changed a result variable though
    /// it refused. No version in Rust answers it, so the comparison reports it.
    Other = 255,
}

impl Refusal {
    pub fn number(self) -> u8 {
        self as u8
    }

    /// The refusals from 1 on, up to this one.
    pub fn up_to(self) -> impl Iterator<Item = Refusal> {
        (1..=self.number()).filter_map(Refusal::with_number)
    }
}

/// A refusal is printed as its number.
impl fmt::Display for Refusal {
    fn fmt(&self, f: &mut fmt::Formatter) -> fmt::Result {
        self.number().fmt(f)
    }
}

/// The number of a refusal, 0 for an accepted call.
pub fn number_of<T>(answer: &Result<T, Refusal>) -> u8 {
    answer.as_ref().err().map_or(0, |refusal| refusal.number())
}
