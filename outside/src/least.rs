//! The least number of tables of a sheet, by a search over the sets of each gate's fanins.
//!
//! What matters of a group of fanins is how many tables lie below the table that holds it, and how many inputs of that table it
//! takes. Fewer tables below come first: one table more buys at most a group that takes one input only, and every group can be
//! had so. Two groups join in one table, with either of them, or both, made a table of its own where they are too wide together.

use crate::sheet::{Gate, Sheet, Source};
use crate::{FANINS, INPUTS};

/// Tables below times 8, plus inputs taken. A leaf takes one input and has no table below.
pub type Key = u32;

const LEAF: Key = 1;

pub fn below(key: Key) -> u32 {
    key / 8
}

pub fn width(key: Key) -> u32 {
    key % 8
}

/// The least keys of all sets of one gate's fanins, and for each set of two or more the part split off in the best join.
pub struct Search {
    k: u32,
    /// `change[8 * w1 + w2]`: what a join of groups of these widths adds to the sum of their keys.
    change: [i32; 64],
    keys: [Key; 1 << FANINS],
    parts: [u16; 1 << FANINS],
}

impl Search {
    pub fn new(k: usize) -> Search {
        let k = k as u32;
        let mut change = [0; 64];
        for (widths, change) in (0..).zip(&mut change) {
            *change = change_of_join(k, widths / 8, widths % 8);
        }
        Search { k, change, keys: [0; 1 << FANINS], parts: [0; 1 << FANINS] }
    }

    /// Fills in the keys of all sets of a gate's fanins, whose own keys are given; the least key of the gate.
    pub fn run(&mut self, fanins: &[Key]) -> Key {
        let all = (1usize << fanins.len()) - 1;
        for set in 1..=all {
            let low = set & set.wrapping_neg();
            let rest = set ^ low;
            if rest == 0 {
                self.keys[set] = fanins[set.trailing_zeros() as usize];
            } else {
                self.join_all(set, rest);
            }
        }
        self.keys[all]
    }

    /// The least join of two groups that make up `set`; the one split off is within `rest`.
    fn join_all(&mut self, set: usize, rest: usize) {
        let (mut least, mut chosen) = (Key::MAX, 0);
        let mut part = rest;
        while part != 0 {
            let key = self.join(self.keys[set ^ part], self.keys[part]);
            if key < least {
                (least, chosen) = (key, part);
            }
            part = (part - 1) & rest;
        }
        self.keys[set] = least;
        self.parts[set] = chosen as u16;
    }

    fn join(&self, a: Key, b: Key) -> Key {
        let change = self.change[(8 * width(a) + width(b)) as usize];
        (a + b).wrapping_add_signed(change)
    }

    /// The two sets that the best join of `set` is of.
    pub fn split(&self, set: usize) -> (usize, usize) {
        let part = usize::from(self.parts[set]);
        (set ^ part, part)
    }

    /// Which of two joined groups are made tables of their own.
    pub fn placed(&self, a: usize, b: usize) -> (bool, bool) {
        let (wa, wb) = (width(self.keys[a]), width(self.keys[b]));
        match tables_of_join(self.k, wa, wb) {
            0 => (false, false),
            1 => (wa >= wb, wa < wb),
            _ => (true, true),
        }
    }
}

/// How many of two groups of these widths must become tables for the rest to fit into one table.
fn tables_of_join(k: u32, wa: u32, wb: u32) -> u32 {
    if wa + wb <= k {
        0
    } else if wa.min(wb) < k {
        1
    } else {
        2
    }
}

fn change_of_join(k: u32, wa: u32, wb: u32) -> i32 {
    let tables = tables_of_join(k, wa, wb);
    let width = match tables {
        0 => wa + wb,
        1 => 1 + wa.min(wb),
        _ => 2,
    };
    (8 * tables + width) as i32 - (wa + wb) as i32
}

/// The keys of a gate's fanins, from those of the gates before it.
pub fn fanin_keys(gate: &Gate, gates: &[Key], keys: &mut [Key; FANINS]) {
    for (key, edge) in keys.iter_mut().zip(&gate.fanins) {
        *key = match edge.source {
            Source::Net(_) => LEAF,
            Source::Gate(gate) => gates[gate],
        };
    }
}

/// The least number of tables of a sheet's tree, as it is.
pub fn least(sheet: &Sheet, k: usize) -> usize {
    let mut search = Search::new(k);
    let mut gates = Vec::with_capacity(sheet.gates.len());
    let mut keys = [0; FANINS];
    for gate in &sheet.gates {
        fanin_keys(gate, &gates, &mut keys);
        gates.push(search.run(&keys[..gate.fanins.len()]));
    }
    1 + below(gates[gates.len() - 1]) as usize
}

/// The same number by a search that keeps the least count for every width, and so does not rest on the order of keys.
pub fn least_by_width(sheet: &Sheet, k: usize) -> usize {
    let mut gates: Vec<Counts> = Vec::with_capacity(sheet.gates.len());
    for gate in &sheet.gates {
        let mut sets = vec![[NEVER; INPUTS + 1]; 1 << gate.fanins.len()];
        for set in 1..sets.len() {
            sets[set] = if set.is_power_of_two() {
                match gate.fanins[set.trailing_zeros() as usize].source {
                    Source::Net(_) => {
                        let mut counts = [NEVER; INPUTS + 1];
                        counts[1] = 0;
                        counts
                    }
                    Source::Gate(gate) => gates[gate],
                }
            } else {
                counts_of_set(&sets, set, k)
            };
        }
        gates.push(sets[sets.len() - 1]);
    }
    gates[gates.len() - 1][1]
}

/// For each width, the least number of tables at or below a group that takes so many inputs of its reader: width 1 is a leaf's, or
/// that of a table of its own.
type Counts = [usize; INPUTS + 1];

const NEVER: usize = 1 << 32;

fn counts_of_set(sets: &[Counts], set: usize, k: usize) -> Counts {
    let mut counts = [NEVER; INPUTS + 1];
    for part in (1..set).filter(|part| part & !set == 0) {
        let (a, b) = (&sets[part], &sets[set ^ part]);
        for wa in 1..k {
            for wb in 1..=k - wa {
                counts[wa + wb] = counts[wa + wb].min(a[wa] + b[wb]);
            }
        }
    }
    counts[1] = 1 + counts.iter().min().unwrap();
    counts
}
