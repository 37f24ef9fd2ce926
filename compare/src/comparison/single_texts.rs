//! Single lines and records written: any number, entries that do not fit, buffers of any length.

use super::calls::Calls;
use super::Comparison;
use crate::refusal::Refusal;
use crate::types::{Design, Tables};

/// A call of both versions of a writer.
type Write = fn(&mut Calls, &Design, &Tables, usize, &[u8]) -> Result<Vec<u8>, Refusal>;

/// What the texts of a stored form, lines or records, are written from and into.
pub struct Written {
    pub write: Write,
    pub number: fn(&mut Comparison, &Design) -> usize,
    /// Tables of any sort, and tables of which some texts can be written.
    pub tables: [fn(&mut Comparison, &Design) -> Tables; 2],
    /// Lengths of buffers, and one that every text fits.
    pub rooms: [usize; 12],
    pub room: usize,
}

impl Comparison {
    pub fn single_texts(&mut self, form: &Written) {
        for _ in 0..20_000 {
            let d = self.random.any_design();
            let tables = form.tables[0](self, &d);
            for _ in 0..3 {
                let number = (form.number)(self, &d);
                let room = self.random.pick(&form.rooms);
                let room = vec![self.random.word() as u8; room];
                let _ = (form.write)(&mut self.calls, &d, &tables, number, &room);
            }
        }
        for _ in 0..5_000 {
            self.exact_room(form);
        }
    }

    /// A buffer that is short by one, one that is exact, and one that is longer by one.
    fn exact_room(&mut self, form: &Written) {
        let d = self.random.legal_of_any_kind();
        let tables = form.tables[1](self, &d);
        let number = (form.number)(self, &d);
        let mut write = |room: &[u8]| (form.write)(&mut self.calls, &d, &tables, number, room);
        let Ok(text) = write(&vec![b'.'; form.room]) else {
            return;
        };
        for length in [text.len() - 1, text.len(), text.len() + 1] {
            let _ = write(&vec![b'#'; length]);
        }
    }
}
