//! Document 01: multipartite tables for reciprocal, root and reciprocal root; and requests A1, A2
//! and A4 to A8.
//!
//! Names are the document's: kind, w, q, g, alpha, m, a, b, P, hi, lo, budget. `Int` is the type
//! of every intermediate product, `Signed` that of sums; both come from the module that includes this
//! one.

// Casts from `Int` change nothing in one of its two types.
#![allow(clippy::unnecessary_cast)]

use super::{Int, Signed};

mod bytes;
mod check;
mod count;
mod design;
mod evaluate;
#[cfg(test)]
mod examples;
mod fill;
mod function;
mod lines;
mod quick_smallest;
mod records;
mod report;
mod size;
mod slopes;
mod smallest;

pub use check::check;
pub use count::count;
pub use design::legal;
pub use evaluate::{evaluate, evaluate_batch, sum};
pub use fill::fill;
pub use function::value;
pub use lines::{lines_finished, read_design, read_line, write_line};
pub use quick_smallest::quick_smallest;
pub use records::{read_record, records_finished, write_record};
pub use report::report;
pub use size::size;
pub use slopes::budget;
pub use smallest::{every_legal, smallest};

/// The same number in a narrower type. Document 01's numbers fit; if one did not, nothing should
/// go on as if it did.
#[inline]
fn fitting<T, U: TryFrom<T>>(n: T) -> U
where
    U::Error: std::fmt::Debug,
{
    U::try_from(n).expect("a number of document 01 fits its type")
}
