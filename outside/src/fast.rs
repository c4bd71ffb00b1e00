//! Fewest levels (request 107): the least root level that a cover of a sheet's tree has, and the fewest tables of the covers that have it.
//!
//! A bound on the root's level runs down the tree: where a table has level L at most, each of its inputs has L - 1 at most. So of some
//! fanins of a gate, and a bound on the levels of the inputs that they take, it is asked how few tables lie below the table that holds them,
//! for each number of those inputs. The least bound with an answer at the root gives the least root level. No answer is taken to be better
//! than another before the end: off the longest path a deeper cover of fewer tables may be the right one.

use std::collections::HashMap;

use crate::exhaustive::{table, Below, Node};
use crate::part::Table;
use crate::sheet::{Sheet, Source};
use crate::{CODES, INPUTS};

/// The root level of a cover, and its number of tables.
#[derive(Clone, Copy, Debug, PartialEq, Eq, PartialOrd, Ord)]
pub struct Fastest {
    pub level: usize,
    pub tables: usize,
}

/// The level of a leaf's net: a free one's is 0, a driven one's that of its driver.
pub type Levels<'a> = &'a dyn Fn(u16) -> usize;

/// How few tables an operand of a table has below it.
#[derive(Clone, Copy)]
struct Counts {
    /// By the number of inputs that it takes of the table: 1 for a leaf, or for a table of its own.
    by_inputs: [u16; INPUTS + 1],
    /// Where it is held in the table, whatever it takes.
    held: u16,
}

const NEVER: u16 = 1 << 12;
const NONE: Counts = Counts { by_inputs: [NEVER; INPUTS + 1], held: NEVER };

/// What stands at a fanin: a leaf by its net's level, or a gate.
#[derive(Clone, Copy)]
enum Fanin {
    Leaf(usize),
    Gate(usize),
}

/// What is known of a gate's fanins before the search. A set of them is a number: bit i is fanin i.
struct Gate {
    fanins: Vec<Fanin>,
    /// By set: the one with the first leaves of each level in place of its own. One leaf of a level is as good as another.
    like: Vec<usize>,
    /// By set: the highest level and the number of the leaves at or below it.
    leaves: Vec<(usize, usize)>,
    /// By bound and set of two or more: what the search found.
    found: Vec<Vec<Option<Counts>>>,
}

impl Gate {
    fn of(fanins: Vec<Fanin>, gates: &[Gate]) -> Gate {
        let alike = alike(&fanins);
        let like = |set: usize| alike.iter().fold(set, |set, same| set & !same | lowest(*same, (set & same).count_ones()));
        let mut leaves = vec![(0, 0)];
        for set in 1..1usize << fanins.len() {
            let (highest, count) = match fanins[set.trailing_zeros() as usize] {
                Fanin::Leaf(level) => (level, 1),
                Fanin::Gate(gate) => *gates[gate].leaves.last().unwrap(),
            };
            let (others, more) = leaves[set & (set - 1)];
            leaves.push((highest.max(others), count + more));
        }
        Gate { like: (0..1 << fanins.len()).map(like).collect(), fanins, leaves, found: Vec::new() }
    }

    fn all(&self) -> usize {
        self.leaves.len() - 1
    }

    /// The greatest level of an input that a set takes in any cover: over n leaves at most n - 2 tables lie below the one that holds it.
    fn deepest(&self, set: usize) -> usize {
        let (highest, count) = self.leaves[set];
        highest + count - 2
    }

    /// Whether no leaf of the set is above the bound.
    fn reaches(&self, set: usize, bound: usize) -> bool {
        let within = |fanin: &Fanin| !matches!(fanin, Fanin::Leaf(level) if *level > bound);
        self.fanins.iter().enumerate().all(|(place, fanin)| set >> place & 1 == 0 || within(fanin))
    }

    fn found(&self, set: usize, bound: usize) -> Option<Counts> {
        *self.found.get(bound)?.get(set)?
    }

    fn find(&mut self, set: usize, bound: usize, counts: Counts) {
        if self.found.len() <= bound {
            self.found.resize(bound + 1, Vec::new());
        }
        self.found[bound].resize(self.leaves.len(), None);
        self.found[bound][set] = Some(counts);
    }
}

/// The sets of two leaves or more that have one level.
fn alike(fanins: &[Fanin]) -> Vec<usize> {
    let mut sets: HashMap<usize, usize> = HashMap::new();
    for (place, fanin) in fanins.iter().enumerate() {
        if let Fanin::Leaf(level) = fanin {
            *sets.entry(*level).or_default() |= 1 << place;
        }
    }
    sets.into_values().filter(|set| !set.is_power_of_two()).collect()
}

/// So many of the lowest members of a set.
fn lowest(set: usize, count: u32) -> usize {
    let mut above = set;
    for _ in 0..count {
        above &= above - 1;
    }
    set ^ above
}

/// The parts of a set that have its lowest member, and not all of it.
fn parts(set: usize) -> impl Iterator<Item = usize> {
    let low = set & set.wrapping_neg();
    let rest = set ^ low;
    std::iter::successors(Some(rest), move |&part| (part != 0).then(|| (part - 1) & rest)).skip(1).map(move |part| part | low)
}

/// A search over one sheet's tree, as it is.
pub struct Search<'a> {
    sheet: &'a Sheet,
    k: usize,
    gates: Vec<Gate>,
    /// Levels are counted from here: see `base`.
    base: usize,
}

/// A level so far below the highest leaf that no input at it or below is ever too high: a root lies above the highest leaf, and has at most
/// n - 2 tables between itself and a leaf, of n. Leaves below it are taken to be at it.
fn base(levels: &[usize]) -> usize {
    levels.iter().max().map_or(0, |highest| highest.saturating_sub(levels.len()))
}

impl<'a> Search<'a> {
    pub fn of(sheet: &'a Sheet, k: usize, level: Levels) -> Search<'a> {
        let base = base(&sheet.leaves().into_iter().map(level).collect::<Vec<usize>>());
        let mut gates: Vec<Gate> = Vec::new();
        for gate in &sheet.gates {
            let fanin = |source: Source| match source {
                Source::Net(net) => Fanin::Leaf(level(net).saturating_sub(base)),
                Source::Gate(gate) => Fanin::Gate(gate),
            };
            let gate = Gate::of(gate.fanins.iter().map(|edge| fanin(edge.source)).collect(), &gates);
            gates.push(gate);
        }
        Search { sheet, k, gates, base }
    }

    /// The fewest tables of a cover whose root level is `level` or less, from 1.
    pub fn within(&mut self, level: usize) -> Option<usize> {
        let root = self.gates.len() - 1;
        let bound = (level - 1).checked_sub(self.base)?;
        let below = self.gate(root, bound).held;
        (below < NEVER).then_some(1 + usize::from(below))
    }

    /// The least root level, and the fewest tables of the covers that have it.
    pub fn fastest(&mut self) -> Fastest {
        let root = &self.gates[self.gates.len() - 1];
        let mut levels = self.base + 1..=self.base + 1 + root.deepest(root.all());
        let found = levels.find_map(|level| Some(Fastest { level, tables: self.within(level)? }));
        found.expect("a cover of some level")
    }

    /// Adds the tables of a cover of that root level or less, one of those with the fewest, to those of the part.
    pub fn add(&mut self, level: usize, tables: &mut Vec<Table>) {
        let root = self.gates.len() - 1;
        let held = self.chosen(root, self.gates[root].all(), level - 1 - self.base, tables);
        tables.push(table(&held, self.sheet.net, self.sheet.inverted));
    }

    /// One fanin or more as an operand of a table, the levels of the inputs that they take at most `bound`: a leaf, held in the table, or a
    /// table of its own.
    fn operand(&mut self, gate: usize, set: usize, bound: usize) -> Counts {
        if !set.is_power_of_two() {
            return self.group(gate, set, bound);
        }
        match self.gates[gate].fanins[set.trailing_zeros() as usize] {
            Fanin::Leaf(level) => leaf(level, bound),
            Fanin::Gate(below) => self.gate(below, bound),
        }
    }

    fn gate(&mut self, gate: usize, bound: usize) -> Counts {
        self.group(gate, self.gates[gate].all(), bound)
    }

    /// The same for two fanins or more of a gate.
    fn group(&mut self, gate: usize, set: usize, bound: usize) -> Counts {
        let set = self.gates[gate].like[set];
        let bound = bound.min(1 + self.gates[gate].deepest(set));
        if let Some(counts) = self.gates[gate].found(set, bound) {
            return counts;
        }
        let mut counts = NONE;
        if self.gates[gate].reaches(set, bound) {
            for part in parts(set) {
                if self.gates[gate].like[part] == part {
                    let (a, b) = (self.operand(gate, part, bound), self.operand(gate, set ^ part, bound));
                    join(self.k, &a, &b, &mut counts);
                }
            }
        }
        counts.held = *counts.by_inputs.iter().min().unwrap();
        if bound > 0 {
            counts.by_inputs[1] = NEVER.min(1 + self.group(gate, set, bound - 1).held);
        }
        self.gates[gate].find(set, bound, counts);
        counts
    }

    /// What a table holds of these fanins that has the fewest tables below; those are added to `tables`.
    fn chosen(&mut self, gate: usize, set: usize, bound: usize, tables: &mut Vec<Table>) -> Node {
        let counts = self.group(gate, set, bound);
        let width = (2..=self.k).find(|&width| counts.by_inputs[width] == counts.held).expect("some inputs");
        self.chosen_of(gate, set, bound, width, tables)
    }

    /// The same where they take so many inputs.
    fn chosen_of(&mut self, gate: usize, set: usize, bound: usize, width: usize, tables: &mut Vec<Table>) -> Node {
        let count = self.group(gate, set, bound).by_inputs[width];
        for part in parts(set) {
            let (a, b) = (self.operand(gate, part, bound).by_inputs, self.operand(gate, set ^ part, bound).by_inputs);
            let found = (1..width).find(|&inputs| a[inputs] + b[width - inputs] == count);
            if let Some(inputs) = found {
                let a = self.chosen_operand(gate, part, bound, inputs, tables);
                let b = self.chosen_operand(gate, set ^ part, bound, width - inputs, tables);
                return Node { kind: self.sheet.gates[gate].kind, fanins: vec![a, b] };
            }
        }
        unreachable!("the count is that of two operands");
    }

    fn chosen_operand(&mut self, gate: usize, set: usize, bound: usize, width: usize, tables: &mut Vec<Table>) -> (bool, Below) {
        if set.is_power_of_two() {
            let edge = self.sheet.gates[gate].fanins[set.trailing_zeros() as usize];
            return match edge.source {
                Source::Net(net) => (edge.inverted, Below::Leaf(net)),
                Source::Gate(below) => (edge.inverted, self.chosen_operand(below, self.gates[below].all(), bound, width, tables).1),
            };
        }
        if width > 1 {
            return (false, Below::Gate(self.chosen_of(gate, set, bound, width, tables)));
        }
        let held = self.chosen(gate, set, bound - 1, tables);
        tables.push(table(&held, 0, false));
        (false, Below::Leaf((CODES as usize + tables.len()) as u16))
    }
}

fn leaf(level: usize, bound: usize) -> Counts {
    let mut counts = NONE;
    if level <= bound {
        counts.by_inputs[1] = 0;
    }
    counts
}

/// Two operands side by side in one table, as well as what is found already.
fn join(k: usize, a: &Counts, b: &Counts, counts: &mut Counts) {
    for wa in 1..k {
        for wb in 1..=k - wa {
            let count = &mut counts.by_inputs[wa + wb];
            *count = (*count).min(a.by_inputs[wa] + b.by_inputs[wb]);
        }
    }
}

/// The least root level of a sheet's tree, as it is, and the fewest tables of the covers that have it.
pub fn fastest(sheet: &Sheet, k: usize, level: Levels) -> Fastest {
    Search::of(sheet, k, level).fastest()
}
