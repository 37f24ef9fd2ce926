//! Document 01 and requests A1, A2 and A4 to A8 written a second time, in Rust, and what is
//! needed to compare them with the proved library.

// The reference is compiled twice on purpose, see `wide` and `narrow`.
#![allow(clippy::duplicate_mod)]

pub mod by_hand;
pub mod comparison;
pub mod library;
pub mod narrow;
pub mod random;
pub mod refusal;
pub mod types;
pub mod wide;
