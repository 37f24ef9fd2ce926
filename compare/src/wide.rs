//! The reference computed in 128 bits, with room to spare: what the comparison uses.

pub type Int = u128;
pub type Signed = i128;

#[path = "reference/mod.rs"]
pub mod reference;
