//! Every splitting and every cover of a small sheet, straight from 01's section "Cover".

use crate::part::Table;
use crate::sheet::{Kind, Sheet, Source};
use crate::CODES;

/// A gate of a split tree.
#[derive(Clone, Debug)]
pub struct Node {
    pub kind: Kind,
    pub fanins: Vec<(bool, Below)>,
}

#[derive(Clone, Debug)]
pub enum Below {
    Leaf(u16),
    Gate(Node),
}

/// All splittings of the sheet's tree.
pub fn splittings(sheet: &Sheet) -> Vec<Node> {
    of_gate(sheet, sheet.gates.len() - 1)
}

fn of_gate(sheet: &Sheet, gate: usize) -> Vec<Node> {
    let gate = &sheet.gates[gate];
    let mut all: Vec<Vec<(bool, Below)>> = vec![Vec::new()];
    for edge in &gate.fanins {
        let below: Vec<Below> = match edge.source {
            Source::Net(net) => vec![Below::Leaf(net)],
            Source::Gate(gate) => of_gate(sheet, gate).into_iter().map(Below::Gate).collect(),
        };
        let longer =
            |fanins: &Vec<(bool, Below)>| below.iter().map(|below| append(fanins, (edge.inverted, below.clone()))).collect::<Vec<_>>();
        all = all.iter().flat_map(longer).collect();
    }
    all.iter().flat_map(|fanins| trees(gate.kind, fanins)).collect()
}

fn append<T: Clone>(items: &[T], item: T) -> Vec<T> {
    let mut items = items.to_vec();
    items.push(item);
    items
}

/// All trees of gates of one kind, two or more fanins each, over the given fanins, each once; new edges are upright.
fn trees(kind: Kind, fanins: &[(bool, Below)]) -> Vec<Node> {
    let mut all = Vec::new();
    for blocks in partitions(fanins).into_iter().filter(|blocks| blocks.len() > 1) {
        let mut nodes: Vec<Vec<(bool, Below)>> = vec![Vec::new()];
        for block in &blocks {
            let below: Vec<(bool, Below)> = match &block[..] {
                [fanin] => vec![fanin.clone()],
                block => trees(kind, block).into_iter().map(|node| (false, Below::Gate(node))).collect(),
            };
            nodes = nodes.iter().flat_map(|fanins| below.iter().map(|fanin| append(fanins, fanin.clone())).collect::<Vec<_>>()).collect();
        }
        all.extend(nodes.into_iter().map(|fanins| Node { kind, fanins }));
    }
    all
}

/// All partitions of a list into blocks.
fn partitions<T: Clone>(items: &[T]) -> Vec<Vec<Vec<T>>> {
    let [rest @ .., last] = items else { return vec![Vec::new()] };
    let mut all = Vec::new();
    for blocks in partitions(rest) {
        for place in 0..blocks.len() {
            let mut with = blocks.clone();
            with[place].push(last.clone());
            all.push(with);
        }
        all.push(append(&blocks, vec![last.clone()]));
    }
    all
}

impl Node {
    /// How many gates the tree has.
    pub fn gates(&self) -> usize {
        1 + self.fanins.iter().map(|(_, below)| if let Below::Gate(node) = below { node.gates() } else { 0 }).sum::<usize>()
    }

    /// How many tables the cover has that chooses the root and the gates of `choice` (bit i is gate i + 1, counted from the root
    /// downward, left first); `None` where a table has more than `k` inputs.
    pub fn count(&self, choice: u32, k: usize) -> Option<usize> {
        let mut walk = Walk { next: 0, choice };
        let (tables, inputs) = walk.count(self, k)?;
        (inputs <= k).then_some(tables + 1)
    }

    /// The root level of that cover, where `level` gives that of a leaf's net, with how many tables it has.
    pub fn level(&self, choice: u32, k: usize, level: &dyn Fn(u16) -> usize) -> Option<(usize, usize)> {
        let mut walk = Walk { next: 0, choice };
        Some((1 + walk.highest(self, level), self.count(choice, k)?))
    }

    /// The tables of that cover, inputs before readers, after `used` tables.
    pub fn tables(&self, choice: u32, used: usize, net: u16, inverted: bool) -> Vec<Table> {
        let mut walk = Walk { next: 0, choice };
        let mut tables = Vec::new();
        let held = walk.held(self, used, &mut tables);
        tables.push(table(&held, net, inverted));
        tables
    }
}

/// A walk over a tree's gates that numbers the gates other than the root.
struct Walk {
    next: u32,
    choice: u32,
}

impl Walk {
    fn chosen(&mut self) -> bool {
        self.next += 1;
        self.choice >> (self.next - 1) & 1 == 1
    }

    /// The tables below the one that holds `node`, and the inputs of that one that `node` takes.
    fn count(&mut self, node: &Node, k: usize) -> Option<(usize, usize)> {
        let (mut tables, mut inputs) = (0, 0);
        for (_, below) in &node.fanins {
            let Below::Gate(node) = below else {
                inputs += 1;
                continue;
            };
            let chosen = self.chosen();
            let (more, taken) = self.count(node, k)?;
            if chosen && taken > k {
                return None;
            }
            tables += more + usize::from(chosen);
            inputs += if chosen { 1 } else { taken };
        }
        Some((tables, inputs))
    }

    /// The greatest level among the inputs, below `node`, of the table that holds it.
    fn highest(&mut self, node: &Node, level: &dyn Fn(u16) -> usize) -> usize {
        let mut highest = 0;
        for (_, below) in &node.fanins {
            let below = match below {
                Below::Leaf(net) => level(*net),
                Below::Gate(node) if self.chosen() => 1 + self.highest(node, level),
                Below::Gate(node) => self.highest(node, level),
            };
            highest = highest.max(below);
        }
        highest
    }

    /// The part of the tree that one table holds; the tables below are added to `tables`.
    fn held(&mut self, node: &Node, used: usize, tables: &mut Vec<Table>) -> Node {
        let mut held = Node { kind: node.kind, fanins: Vec::new() };
        for (inverted, below) in &node.fanins {
            let below = match below {
                Below::Leaf(net) => Below::Leaf(*net),
                Below::Gate(node) if self.chosen() => {
                    let part = self.held(node, used, tables);
                    tables.push(table(&part, 0, false));
                    Below::Leaf((CODES as usize + used + tables.len()) as u16)
                }
                Below::Gate(node) => Below::Gate(self.held(node, used, tables)),
            };
            held.fanins.push((*inverted, below));
        }
        held
    }
}

/// The table that holds `held`, whose leaves are its inputs.
pub fn table(held: &Node, net: u16, inverted: bool) -> Table {
    let mut inputs = Vec::new();
    codes(held, &mut inputs);
    inputs.sort_unstable();
    let bit = |index: usize| {
        let setting = |code: u16| index >> inputs.iter().position(|&input| input == code).unwrap() & 1 == 1;
        u64::from(value(held, &setting) != inverted) << index
    };
    let truth = (0..1usize << inputs.len()).map(bit).fold(0, |all, bit| all | bit);
    Table { net, inputs, truth }
}

fn codes(node: &Node, found: &mut Vec<u16>) {
    for (_, below) in &node.fanins {
        match below {
            Below::Leaf(code) => found.push(*code),
            Below::Gate(node) => codes(node, found),
        }
    }
}

fn value(node: &Node, setting: &dyn Fn(u16) -> bool) -> bool {
    let mut fanins = node.fanins.iter().map(|(inverted, below)| {
        inverted
            ^ match below {
                Below::Leaf(code) => setting(*code),
                Below::Gate(node) => value(node, setting),
            }
    });
    match node.kind {
        Kind::And => fanins.all(|value| value),
        Kind::Or => fanins.any(|value| value),
    }
}

/// All covers of all splittings at `k`, each with its count.
pub fn covers(splittings: &[Node], k: usize) -> impl Iterator<Item = (&Node, u32, usize)> {
    splittings.iter().flat_map(move |node| {
        let choices = 0..1u32 << (node.gates() - 1);
        choices.filter_map(move |choice| Some((node, choice, node.count(choice, k)?)))
    })
}

/// The least number, by trying every splitting and every cover.
pub fn least(splittings: &[Node], k: usize) -> usize {
    covers(splittings, k).map(|(_, _, count)| count).min().unwrap()
}

/// The least root level, and the fewest tables of the covers that have it, by trying every splitting and every cover.
pub fn fastest(splittings: &[Node], k: usize, level: &dyn Fn(u16) -> usize) -> (usize, usize) {
    covers(splittings, k).filter_map(|(node, choice, _)| node.level(choice, k, level)).min().unwrap()
}
