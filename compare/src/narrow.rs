//! The reference computed in 64 bits, which document 01's ranges fit: what the benchmark times.

pub type Int = u64;
pub type Signed = i64;

#[path = "reference/mod.rs"]
pub mod reference;
