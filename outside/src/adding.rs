//! Adding sheets to a part, one after another (01, "Turned down because of the part").

use crate::join::{join, Joined};
use crate::part::{Part, Table};
use crate::sheet::Sheet;
use crate::NETS;

/// What a part accepted: its sheets in order, as drawn and joined, and the least number of each.
#[derive(Clone, Debug)]
pub struct Accepted {
    pub k: usize,
    pub capacity: usize,
    /// The tables that the sheets' tables stand after.
    pub old: Vec<Table>,
    pub sheets: Vec<Sheet>,
    pub joined: Vec<Joined>,
    pub least: Vec<usize>,
}

/// The nets that the tables so far drive and read. Each leaf of a sheet is an input of a table, whichever cover is taken.
struct Nets {
    driven: [bool; NETS as usize + 1],
    read: [bool; NETS as usize + 1],
}

impl Nets {
    fn of(tables: &[Table]) -> Nets {
        let mut nets = Nets { driven: [false; NETS as usize + 1], read: [false; NETS as usize + 1] };
        for table in tables {
            nets.add(table.net, table.inputs.iter().copied().filter(|&input| i64::from(input) <= NETS));
        }
        nets
    }

    /// Refusals 21 and 22.
    fn refuse(&self, net: u16) -> Result<(), u32> {
        if self.driven[usize::from(net)] {
            Err(21)
        } else if self.read[usize::from(net)] {
            Err(22)
        } else {
            Ok(())
        }
    }

    fn add(&mut self, driven: u16, read: impl IntoIterator<Item = u16>) {
        self.driven[usize::from(driven)] = true;
        for net in read {
            self.read[usize::from(net)] = true;
        }
    }
}

/// A part to which sheets are added; `tables` gives how many tables a joined sheet takes at K.
pub struct Adding<F> {
    pub accepted: Accepted,
    nets: Nets,
    left: usize,
    tables: F,
}

impl<F: FnMut(&Sheet, usize) -> usize> Adding<F> {
    /// The part, sound, with no sheet added; the sheets find `left` tables.
    pub fn to(part: Part, left: usize, tables: F) -> Adding<F> {
        let Part { k, capacity, tables: old } = part;
        let nets = Nets::of(&old);
        Adding { accepted: Accepted { k, capacity, old, sheets: Vec::new(), joined: Vec::new(), least: Vec::new() }, nets, left, tables }
    }

    /// Takes the next sheet, or gives its refusal: 21, 22 or 23.
    pub fn add(&mut self, sheet: Sheet) -> Result<(), u32> {
        self.nets.refuse(sheet.net)?;
        let joined = join(&sheet);
        let least = (self.tables)(&joined.sheet, self.accepted.k);
        self.left = self.left.checked_sub(least).ok_or(23u32)?;
        self.nets.add(sheet.net, sheet.leaves());
        self.accepted.sheets.push(sheet);
        self.accepted.joined.push(joined);
        self.accepted.least.push(least);
        Ok(())
    }
}
