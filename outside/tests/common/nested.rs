//! Request 104 once more, by nested trees, and with other rules for mappers that join wrongly.

use outside::sheet::{Edge, Gate, Kind, Sheet, Source};
use outside::FANINS;

#[derive(Clone, Debug, PartialEq, Eq)]
pub enum Tree {
    Leaf(u16),
    Gate(Kind, Vec<Fanin>),
}

/// Whether a fanin is inverted, and what it reads.
pub type Fanin = (bool, Tree);

/// How gates are joined: the most fanins of a joined gate, the edges that are joined by the kind above, the kind below and the inversion,
/// and whether an inverted edge turns the fanins of the lower gate over.
pub struct Rule {
    pub most: usize,
    pub chained: fn(Kind, Kind, bool) -> bool,
    pub turned: bool,
}

/// 02's rule.
pub const RIGHT: Rule = Rule { most: 10, chained: |upper, lower, inverted| inverted == (upper != lower), turned: true };

impl Rule {
    pub fn join(&self, tree: Tree) -> Tree {
        let Tree::Gate(kind, fanins) = tree else { return tree };
        let mut count = fanins.len();
        let mut joined = Vec::new();
        for (inverted, below) in fanins {
            match self.join(below) {
                Tree::Gate(lower, more) if (self.chained)(kind, lower, inverted) && count - 1 + more.len() <= self.most => {
                    count += more.len() - 1;
                    joined.extend(more.into_iter().map(|(sign, tree)| (sign != (inverted && self.turned), tree)));
                }
                below => joined.push((inverted, below)),
            }
        }
        Tree::Gate(kind, joined)
    }
}

/// The tree of a sheet.
pub fn tree(sheet: &Sheet) -> Tree {
    gate_tree(sheet, sheet.gates.len() - 1)
}

fn gate_tree(sheet: &Sheet, gate: usize) -> Tree {
    let Gate { kind, fanins } = &sheet.gates[gate];
    let below = |source: Source| match source {
        Source::Net(net) => Tree::Leaf(net),
        Source::Gate(gate) => gate_tree(sheet, gate),
    };
    Tree::Gate(*kind, fanins.iter().map(|edge| (edge.inverted, below(edge.source))).collect())
}

/// The tree as a sheet like another. A gate of more fanins than a sheet may have is split: the last two become a gate.
pub fn sheet(tree: Tree, like: &Sheet) -> Sheet {
    let mut sheet = Sheet { gates: Vec::new(), ..*like };
    push(tree, &mut sheet.gates);
    sheet
}

fn push(tree: Tree, gates: &mut Vec<Gate>) -> Source {
    let (kind, mut fanins) = match tree {
        Tree::Leaf(net) => return Source::Net(net),
        Tree::Gate(kind, fanins) => (kind, fanins),
    };
    while fanins.len() > FANINS {
        let last = fanins.split_off(fanins.len() - 2);
        fanins.push((false, Tree::Gate(kind, last)));
    }
    let fanins = fanins.into_iter().map(|(inverted, below)| Edge { inverted, source: push(below, gates) }).collect();
    gates.push(Gate { kind, fanins });
    Source::Gate(gates.len() - 1)
}
