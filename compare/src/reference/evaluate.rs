//! "Evaluating".

use super::design::Legal;
use super::{fitting, Signed};
use crate::refusal::Refusal;
use crate::types::{Design, Tables};

/// One offset table, ready to be looked up.
#[derive(Clone, Copy)]
pub struct Lookup<'a> {
    entries: &'a [i32],
    /// Brings A_i to its place above B_i; not below 0, since b_i ≤ w-alpha ≤ w-a_i.
    shift: u32,
    p: u32,
    mask: u32,
}

impl<'a> Lookup<'a> {
    /// A_i·2^(b_i) + B_i, for x < 2^w.
    #[inline(always)]
    fn place(&self, x: u32) -> u32 {
        (x >> self.shift) & !self.mask | self.b(x)
    }

    /// B_i.
    #[inline(always)]
    fn b(&self, x: u32) -> u32 {
        (x >> self.p) & self.mask
    }

    /// The entries of x's A_i, to be looked up by B_i.
    #[inline(always)]
    fn row(&self, x: u32) -> &'a [i32] {
        let start = self.place(x) & !self.mask;
        &self.entries[start as usize..][..=self.mask as usize]
    }
}

/// The lent tables of a legal design with m = M, cut to the set.
pub struct Set<'a, const M: usize> {
    pub initial: &'a [u32],
    pub low: u32,
    w: u32,
    p: u32,
    g: u32,
    tables: [Lookup<'a>; M],
}

impl<'a, const M: usize> Set<'a, M> {
    /// The tables must be long enough for the design, and M its m.
    pub fn new(legal: &Legal, lent: &'a Tables) -> Set<'a, M> {
        let function = &legal.function;
        let tables = std::array::from_fn(|i| {
            let table = &legal.tables()[i];
            Lookup {
                entries: &lent.offsets[table.start..][..table.entries()],
                shift: function.w - table.a - table.b,
                p: table.p,
                mask: (1 << table.b) - 1,
            }
        });
        Set {
            initial: &lent.initial[..legal.initial()],
            low: function.w - legal.alpha,
            w: function.w,
            p: function.p,
            g: function.g,
            tables,
        }
    }

    /// Y: the initial entry plus the m offsets, each offset signed.
    #[inline(always)]
    fn sum(&self, x: u32) -> Signed {
        let initial = self.initial[(x >> self.low) as usize];
        let offsets = self.tables.iter().map(|table| {
            let place = table.place(x);
            Signed::from(table.entries[place as usize])
        });
        Signed::from(initial) + offsets.sum::<Signed>()
    }

    /// The same for all x of one initial entry, which share A_i in every table: a sum for each
    /// word, given as its last w-alpha bits.
    #[inline(always)]
    pub fn sums_of(&self, number: u32) -> impl Fn(u32) -> Signed + use<'a, '_, M> {
        let initial = Signed::from(self.initial[number as usize]);
        let rows = self.tables.map(|table| table.row(number << self.low));
        move |rest| {
            let offsets = rows.iter().zip(&self.tables).map(|(row, table)| {
                let place = table.b(rest);
                Signed::from(row[place as usize])
            });
            initial + offsets.sum::<Signed>()
        }
    }

    /// "If 0 ≤ Y < 2^(P+2) the word is floor(Y / 2^g)"; else refusal 13.
    #[inline(always)]
    pub fn word(&self, y: Signed) -> Result<u32, Refusal> {
        if (0..1 << (self.p + 2)).contains(&y) {
            Ok((y >> self.g) as u32)
        } else {
            Err(Refusal::Range)
        }
    }

    /// Refusal 12 for x ≥ 2^w, then 13.
    #[inline(always)]
    fn evaluate(&self, x: u32) -> Result<u32, Refusal> {
        if x >> self.w != 0 {
            return Err(Refusal::Word);
        }
        self.word(self.sum(x))
    }

    /// The lowest bad place of a batch with its refusal.
    fn first_bad(&self, words: &[u32]) -> Option<(Refusal, usize)> {
        let refused = |(place, &x)| self.evaluate(x).err().map(|refusal| (refusal, place));
        words.iter().enumerate().find_map(refused)
    }

    /// Whether no word at all can have its Y out of range, whichever entries come together.
    fn always_in_range(&self) -> bool {
        let (least, greatest) = extremes(self.initial);
        let (mut least, mut greatest) = (Signed::from(least), Signed::from(greatest));
        for table in &self.tables {
            let (low, high) = extremes(table.entries);
            least += Signed::from(low);
            greatest += Signed::from(high);
        }
        least >= 0 && self.word(greatest).is_ok()
    }

    /// Whether the whole batch is known to be good without going through it word by word. The
    /// tables are looked through only when that is less work than the batch itself.
    fn known_good(&self, words: &[u32]) -> bool {
        let offsets: usize = self.tables.iter().map(|table| table.entries.len()).sum();
        words.len() > self.initial.len() + offsets
            && words.iter().fold(0, |all, x| all | x) >> self.w == 0
            && self.always_in_range()
    }

    /// Refuses the batch before anything is written, or writes all its words.
    fn evaluate_batch(&self, words: &[u32], output: &mut [u32]) -> Result<usize, (Refusal, usize)> {
        if !self.known_good(words) {
            if let Some(refused) = self.first_bad(words) {
                return Err(refused);
            }
        }
        for (&x, word) in words.iter().zip(output) {
            *word = (self.sum(x) >> self.g) as u32;
        }
        Ok(words.len())
    }
}

/// The least and the greatest of a table's entries, of which there is at least one.
fn extremes<T: Copy + Ord + Default>(entries: &[T]) -> (T, T) {
    let first = entries.first().copied().unwrap_or_default();
    entries
        .iter()
        .fold((first, first), |(least, greatest), &entry| {
            (least.min(entry), greatest.max(entry))
        })
}

/// Evaluates an expression with the set of a legal design, whose m is the set's M. It is matched here
/// alone; the compiler unrolls the loops over M tables.
macro_rules! by_m {
    ($legal:expr, $tables:expr, |$set:ident| $body:expr) => {
        match $legal.m {
            1 => {
                let $set = Set::<1>::new(&$legal, $tables);
                $body
            }
            2 => {
                let $set = Set::<2>::new(&$legal, $tables);
                $body
            }
            3 => {
                let $set = Set::<3>::new(&$legal, $tables);
                $body
            }
            _ => {
                let $set = Set::<4>::new(&$legal, $tables);
                $body
            }
        }
    };
}
pub(super) use by_m;

/// Y with A, A_i and B_i worked out as the document has them; refusals 1 to 10, 12.
pub fn sum(d: &Design, tables: &Tables, x: u32) -> Result<i64, Refusal> {
    let legal = Legal::new(d)?;
    legal.fits(tables)?;
    legal.function.accepts(x)?;
    let w = legal.function.w;
    let number = x / (1 << (w - legal.alpha));
    let mut y = Signed::from(tables.initial[number as usize]);
    for table in legal.tables() {
        let a = x / (1 << (w - table.a));
        let b = x / (1 << table.p) % (1 << table.b);
        let entry = a * (1 << table.b) + b;
        y += Signed::from(tables.offsets[table.start + entry as usize]);
    }
    Ok(fitting(y))
}

/// The word of x; refusals 1 to 10, 12, 13.
pub fn evaluate(d: &Design, tables: &Tables, x: u32) -> Result<u32, Refusal> {
    let legal = Legal::new(d)?;
    legal.fits(tables)?;
    by_m!(legal, tables, |set| set.evaluate(x))
}

/// "It is all evaluated or all refused, at its lowest bad place"; refusals 1 to 10, 14, then 12
/// and 13 word by word. Returns the number of words; output beyond the batch stays.
pub fn evaluate_batch(
    d: &Design,
    tables: &Tables,
    words: &[u32],
    output: &mut [u32],
) -> Result<usize, (Refusal, usize)> {
    let legal = Legal::new(d).map_err(|refusal| (refusal, 0))?;
    legal.fits(tables).map_err(|refusal| (refusal, 0))?;
    if output.len() < words.len() {
        return Err((Refusal::Output, 0));
    }
    by_m!(legal, tables, |set| set.evaluate_batch(words, output))
}

#[cfg(test)]
mod tests;
