//! A least cover of a sheet as tables.

use crate::least::{fanin_keys, Search};
use crate::part::Table;
use crate::sheet::{Kind, Sheet, Source};
use crate::{CODES, FANINS, INPUTS};

/// A table not yet made: its inputs in rising order, and its truth table repeated to 64 bits.
#[derive(Clone, Copy)]
struct Pending {
    count: usize,
    inputs: [u16; INPUTS],
    truth: u64,
}

/// The truth table of an input in place 0, repeated.
const FIRST: u64 = 0xaaaa_aaaa_aaaa_aaaa;

impl Pending {
    fn of_input(input: u16) -> Pending {
        let mut inputs = [0; INPUTS];
        inputs[0] = input;
        Pending { count: 1, inputs, truth: FIRST }
    }

    fn inverted(self, inverted: bool) -> Pending {
        Pending { truth: if inverted { !self.truth } else { self.truth }, ..self }
    }

    fn join(&self, kind: Kind, other: &Pending) -> Pending {
        let mut merged = Pending { count: self.count + other.count, inputs: [0; INPUTS], truth: 0 };
        let (mut left, mut right) = ([0; INPUTS], [0; INPUTS]);
        let (mut i, mut j) = (0, 0);
        for place in 0..merged.count {
            if j == other.count || (i < self.count && self.inputs[i] < other.inputs[j]) {
                merged.inputs[place] = self.inputs[i];
                left[i] = place;
                i += 1;
            } else {
                merged.inputs[place] = other.inputs[j];
                right[j] = place;
                j += 1;
            }
        }
        let (a, b) = (self.moved(&left), other.moved(&right));
        merged.truth = if kind == Kind::And { a & b } else { a | b };
        merged
    }

    /// The truth table with input i moved to place `places[i]`, last input first.
    fn moved(&self, places: &[usize; INPUTS]) -> u64 {
        let mut truth = self.truth;
        for input in (0..self.count).rev() {
            for place in input..places[input] {
                truth = swapped(truth, place);
            }
        }
        truth
    }

    fn table(&self, net: u16) -> Table {
        let bits = 1u32 << self.count;
        let truth = if bits == 64 { self.truth } else { self.truth & ((1 << bits) - 1) };
        Table { net, inputs: self.inputs[..self.count].to_vec(), truth }
    }
}

/// The truth table with the inputs in places `place` and `place + 1` swapped.
fn swapped(truth: u64, place: usize) -> u64 {
    /// The indices at which the lower of the two inputs is 1 and the higher 0.
    const LOWER: [u64; 5] =
        [0x2222_2222_2222_2222, 0x0c0c_0c0c_0c0c_0c0c, 0x00f0_00f0_00f0_00f0, 0x0000_ff00_0000_ff00, 0x0000_0000_ffff_0000];
    let shift = 1 << place;
    let lower = LOWER[place];
    let higher = lower << shift;
    truth & !(lower | higher) | (truth & lower) << shift | (truth & higher) >> shift
}

/// One gate's fanins, each upright with its inversion beside it, and the part's tables so far.
struct Gate<'a> {
    kind: Kind,
    fanins: [(Pending, bool); FANINS],
    search: &'a Search,
    tables: &'a mut Vec<Table>,
}

impl Gate<'_> {
    /// A set of fanins, two or more, as one table not yet made.
    fn group(&mut self, set: usize) -> Pending {
        let (a, b) = self.search.split(set);
        let (place_a, place_b) = self.search.placed(a, b);
        let a = self.operand(a, place_a);
        let b = self.operand(b, place_b);
        a.join(self.kind, &b)
    }

    /// A table gives an upright value: the inversion stays with what reads it.
    fn operand(&mut self, set: usize, placed: bool) -> Pending {
        let single = set.is_power_of_two();
        let (pending, inverted) = if single { self.fanins[set.trailing_zeros() as usize] } else { (self.group(set), false) };
        if !placed {
            return pending.inverted(inverted);
        }
        self.tables.push(pending.table(0));
        let code = CODES as usize + self.tables.len();
        Pending::of_input(code as u16).inverted(inverted)
    }
}

/// Adds the tables of a least cover of the sheet's tree, as it is, to those of the part, and gives how many they are.
pub fn add(sheet: &Sheet, k: usize, tables: &mut Vec<Table>) -> usize {
    let used = tables.len();
    let mut search = Search::new(k);
    let mut gate_keys = Vec::with_capacity(sheet.gates.len());
    let mut pending: Vec<Pending> = Vec::with_capacity(sheet.gates.len());
    let mut keys = [0; FANINS];
    for gate in &sheet.gates {
        fanin_keys(gate, &gate_keys, &mut keys);
        gate_keys.push(search.run(&keys[..gate.fanins.len()]));
        let mut fanins = [(Pending::of_input(0), false); FANINS];
        for (fanin, edge) in fanins.iter_mut().zip(&gate.fanins) {
            let source = match edge.source {
                Source::Net(net) => Pending::of_input(net),
                Source::Gate(gate) => pending[gate],
            };
            *fanin = (source, edge.inverted);
        }
        let all = (1 << gate.fanins.len()) - 1;
        pending.push(Gate { kind: gate.kind, fanins, search: &search, tables }.group(all));
    }
    let root = pending[pending.len() - 1].inverted(sheet.inverted);
    tables.push(root.table(sheet.net));
    tables.len() - used
}
