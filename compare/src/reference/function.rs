//! "Functions and their exact values": the five kinds, L(X), what faithful means, and request A7's
//! whole values.

use super::{fitting, Int};
use crate::refusal::Refusal;
use crate::types::Value;

/// The three shapes that the defining inequalities have.
#[derive(Clone, Copy, PartialEq, Eq, Debug)]
pub enum Form {
    Reciprocal,
    Root,
    ReciprocalRoot,
}

/// One row of the table of kinds. The sign is + when the function rises.
#[derive(Clone, Copy, Debug)]
pub struct Row {
    pub form: Form,
    pub c: Int,
    pub k: Int,
    pub rises: bool,
}

const fn row(form: Form, c: Int, k: Int, rises: bool) -> Row {
    Row { form, c, k, rises }
}

/// The table of kinds, by kind.
const KINDS: [Row; 5] = [
    row(Form::Reciprocal, 1, 1, false),
    row(Form::Root, 1, 2, true),
    row(Form::Root, 2, 2, true),
    row(Form::ReciprocalRoot, 1, 2, false),
    row(Form::ReciprocalRoot, 2, 2, false),
];

/// A kind with the widths of its input word (w), output (q) and table entries (P = q + g).
#[derive(Clone, Copy, Debug)]
pub struct Function {
    pub row: Row,
    pub w: u32,
    pub q: u32,
    pub g: u32,
    pub p: u32,
}

/// Evaluates an expression with the two sides of the function's inequality: `$number` of n and X,
/// which is n^k times something, and `$exact` of X. Here n counts units of `$bits` fraction bits: P for
/// table units, q for output units. It is below the exact value, equal to it or above when its side is
/// below the other, equal or above. `$root` of r is the greatest n with n^k ≤ r. The form is matched
/// here alone, and outside every loop.
macro_rules! by_form {
    ($function:expr, $bits:expr, |$number:ident, $exact:ident, $root:ident| $body:expr) => {{
        let (Function { row, w, .. }, bits) = (*$function, $bits);
        let one: Int = 1;
        match row.form {
            // n·X and 2^(bits+w)
            Form::Reciprocal => {
                let (exact, $root) = (one << (bits + w), |n: Int| n);
                let ($number, $exact) = (|n: Int, x: Int| n * x, |_: Int| exact);
                $body
            }
            // n²·2^w and c·X·4^bits
            Form::Root => {
                let ($number, $root) = (|n: Int, _: Int| (n * n) << w, |n: Int| n.isqrt());
                let $exact = |x: Int| (row.c * x) << (2 * bits);
                $body
            }
            // n²·c·X and 4^bits·2^w
            Form::ReciprocalRoot => {
                let (exact, $root) = (one << (2 * bits + w), |n: Int| n.isqrt());
                let ($number, $exact) = (|n: Int, x: Int| n * n * (row.c * x), |_: Int| exact);
                $body
            }
        }
    }};
}
pub(super) use by_form;

impl Function {
    /// Refusals 1 to 4, in this order.
    #[inline]
    pub fn new(kind: u32, w: u32, q: u32, g: u32) -> Result<Function, Refusal> {
        let row = *KINDS.get(kind as usize).ok_or(Refusal::Kind)?;
        if !(6..=16).contains(&w) {
            return Err(Refusal::W);
        }
        if !(6..=16).contains(&q) {
            return Err(Refusal::Q);
        }
        if !(2..=6).contains(&g) || q + g > 20 {
            return Err(Refusal::G);
        }
        let p = q + g;
        Ok(Function { row, w, q, g, p })
    }

    /// X = 2^w + x.
    #[inline]
    pub fn argument(&self, x: u32) -> Int {
        (1 << self.w) + Int::from(x)
    }

    /// Refusal 12: x ≥ 2^w.
    #[inline]
    pub fn accepts(&self, x: u32) -> Result<(), Refusal> {
        if x >> self.w == 0 {
            Ok(())
        } else {
            Err(Refusal::Word)
        }
    }

    /// L(X), the floor of the exact value in table units: the greatest n whose side of the
    /// inequality is at most the other. The side of n is n^k times that of 1. The division rounds
    /// down, and the greatest n with n² ≤ r is also the greatest with n² ≤ floor(r).
    #[inline]
    pub fn floor(&self, x: Int) -> Int {
        by_form!(self, self.p, |number, exact, root| {
            root(exact(x) / number(1, x))
        })
    }

    /// Whether the exact value is this whole number, which is its floor: the same lines with =.
    #[inline]
    pub fn is_exactly(&self, x: Int, floor: Int) -> bool {
        by_form!(self, self.p, |number, exact, _root| {
            number(floor, x) == exact(x)
        })
    }
}

/// The value for X = 2^w + x; refusals 1 to 4, 12.
pub fn value(kind: u32, w: u32, q: u32, g: u32, x: u32) -> Result<Value, Refusal> {
    let function = Function::new(kind, w, q, g)?;
    function.accepts(x)?;
    let argument = function.argument(x);
    let floor = function.floor(argument);
    Ok(Value {
        floor: fitting(floor),
        whole: function.is_exactly(argument, floor),
    })
}

#[cfg(test)]
mod tests;
