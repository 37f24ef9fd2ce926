//! The report program.

use super::lines::read_legal;

/// The whole output for a line without its newline; refusals 15, 16, 1 to 9. Request A6: "the
/// report prints `BITS 0`" for a legal design that is not admitted.
pub fn report(line: &[u8]) -> String {
    let legal = match read_legal(line) {
        Ok((_, legal)) => legal,
        Err(refusal) => return format!("REFUSED {refusal}\n"),
    };
    let (budget, limit) = (legal.budget(), legal.limit());
    let (size, verdict) = if budget < limit {
        (legal.size(), "ADMITTED")
    } else {
        (0, "NOT ADMITTED")
    };
    format!("BUDGET {budget} LIMIT {limit} BITS {size} {verdict}\n")
}

#[cfg(test)]
mod tests;
