//! One leaf more (02, request 111): sheets with a leaf added to a gate, what that does to their least numbers, and small trees to try it on.

use std::collections::{BTreeMap, HashMap};
use std::ops::RangeInclusive;

use crate::join::{join, Chained};
use crate::least::{below, fanin_keys, Key, Search};
use crate::sheet::{Edge, Gate, Kind, Sheet, Source};
use crate::{FANINS, INPUTS, LEAVES};

/// Where a leaf is added: to a gate, by its index, with so many fanins to its left.
#[derive(Clone, Copy, Debug)]
pub struct Place {
    pub gate: usize,
    pub left: usize,
    pub inverted: bool,
}

/// The sheet with one leaf more, of the least net that is new to it; nothing where the gate has more than 9 fanins, or the sheet no fewer than
/// 256 leaves.
pub fn grown(sheet: &Sheet, place: Place) -> Option<Sheet> {
    let leaves = sheet.leaves();
    if sheet.gates[place.gate].fanins.len() >= FANINS || leaves.len() >= LEAVES {
        return None;
    }
    let net = (1..).find(|net| *net != sheet.net && !leaves.contains(net))?;
    let mut grown = sheet.clone();
    grown.gates[place.gate].fanins.insert(place.left, Edge { inverted: place.inverted, source: Source::Net(net) });
    Some(grown)
}

/// Whether the sheet has an edge that request 104 would join.
pub fn has_join(sheet: &Sheet) -> bool {
    join(sheet).chained.iter().any(Chained::is_joined)
}

/// A tree without names. A gate has first its leaves and the gates that it reads by edges that are not chained, whose order makes no
/// difference, and then those that it reads by chained edges.
#[derive(Clone, Debug, PartialEq, Eq)]
pub enum Tree {
    Leaf,
    Gate { apart: Vec<Tree>, chained: Vec<Tree> },
}

impl Tree {
    /// A gate over so many leaves.
    fn flat(leaves: usize) -> Tree {
        Tree::Gate { apart: vec![Tree::Leaf; leaves], chained: Vec::new() }
    }

    /// The sheet that draws the tree, nets 1 up at its leaves.
    pub fn sheet(&self) -> Sheet {
        let mut sheet = Sheet { net: 9999, inverted: false, gates: Vec::new() };
        self.draw(Kind::And, &mut sheet.gates, &mut 0);
        sheet
    }

    fn draw(&self, kind: Kind, gates: &mut Vec<Gate>, nets: &mut u16) -> Source {
        let Tree::Gate { apart, chained } = self else {
            *nets += 1;
            return Source::Net(*nets);
        };
        let other = if kind == Kind::And { Kind::Or } else { Kind::And };
        let fanins = apart.iter().map(|tree| (other, tree)).chain(chained.iter().map(|tree| (kind, tree)));
        let fanins = fanins.map(|(kind, tree)| Edge { inverted: false, source: tree.draw(kind, gates, nets) }).collect();
        gates.push(Gate { kind, fanins });
        Source::Gate(gates.len() - 1)
    }
}

/// All trees of two leaves up to `most`.
pub fn small_trees(most: usize) -> Vec<Tree> {
    let mut all = vec![(1, Tree::Leaf)];
    for leaves in 2..=most {
        let gates: Vec<Tree> = (0..=leaves).flat_map(|chained| gates(&all, leaves - chained, chained)).collect();
        all.extend(gates.into_iter().map(|gate| (leaves, gate)));
    }
    all.into_iter().skip(1).map(|(_, tree)| tree).collect()
}

/// All gates over these trees, with so many leaves in the trees that are apart, and so many in the chained ones.
fn gates(trees: &[(usize, Tree)], apart: usize, chained: usize) -> Vec<Tree> {
    let sequences = sequences(trees, chained);
    let pairs =
        multisets(trees, apart, trees.len()).into_iter().flat_map(|apart| sequences.iter().map(move |chained| (apart.clone(), chained)));
    let gates = pairs.filter(|(apart, chained)| (2..=FANINS).contains(&(apart.len() + chained.len())));
    gates.map(|(apart, chained)| Tree::Gate { apart, chained: chained.clone() }).collect()
}

/// All lists of the first `count` trees that have so many leaves together, in one order each.
fn multisets(trees: &[(usize, Tree)], leaves: usize, count: usize) -> Vec<Vec<Tree>> {
    if leaves == 0 {
        return vec![Vec::new()];
    }
    let with = |(index, (size, tree)): (usize, &(usize, Tree))| {
        let rest = if *size <= leaves { multisets(trees, leaves - size, index + 1) } else { Vec::new() };
        rest.into_iter().map(|rest| after(tree, rest)).collect::<Vec<_>>()
    };
    trees[..count].iter().enumerate().flat_map(with).collect()
}

/// All lists of gates that have so many leaves together, in every order.
fn sequences(trees: &[(usize, Tree)], leaves: usize) -> Vec<Vec<Tree>> {
    if leaves == 0 {
        return vec![Vec::new()];
    }
    let with = |(size, tree): &(usize, Tree)| {
        let rest = if *size > 1 && *size <= leaves { sequences(trees, leaves - size) } else { Vec::new() };
        rest.into_iter().map(|rest| after(tree, rest)).collect::<Vec<_>>()
    };
    trees.iter().flat_map(with).collect()
}

fn after(tree: &Tree, mut rest: Vec<Tree>) -> Vec<Tree> {
    rest.insert(0, tree.clone());
    rest
}

/// Trees of two or three chained gates, each over leaves and gates of `width` leaves, as many of these together as `fanins` says.
pub fn chained_trees(width: usize, fanins: RangeInclusive<usize>) -> Vec<Tree> {
    let items = |count: usize, wide: usize| [vec![Tree::Leaf; count - wide], vec![Tree::flat(width); wide]].concat();
    let counts = triples(FANINS - 2, FANINS - 1, FANINS).filter(|(root, one, two)| fanins.contains(&(root + one + two)));
    let trees = |(root, one, two)| {
        let wide = triples(root, one, two);
        wide.flat_map(move |wide| arranged(&items(root, wide.0), &items(one, wide.1), &items(two, wide.2)))
    };
    counts.flat_map(trees).collect()
}

/// The trees of chained gates over these fanins, `root` those of the root: one gate below it, or two, beside one another or one below the other.
fn arranged(root: &[Tree], one: &[Tree], two: &[Tree]) -> Vec<Tree> {
    let gate = |apart: &[Tree], chained: Vec<Tree>| Tree::Gate { apart: apart.to_vec(), chained };
    let single = || gate(root, vec![gate(one, vec![])]);
    let beside = || gate(root, vec![gate(one, vec![]), gate(two, vec![])]);
    let nested = || gate(root, vec![gate(one, vec![gate(two, vec![])])]);
    match (root.len(), one.len(), two.len()) {
        (1.., 2.., 0) => vec![single()],
        (0, 2.., 2..) => vec![beside()],
        (1.., 1, 2..) => vec![nested()],
        (1.., 2.., 2..) => vec![beside(), nested()],
        _ => vec![],
    }
}

/// All triples of numbers from 0 to these.
fn triples(a: usize, b: usize, c: usize) -> impl Iterator<Item = (usize, usize, usize)> {
    (0..=a).flat_map(move |a| (0..=b).flat_map(move |b| (0..=c).map(move |c| (a, b, c))))
}

/// Least numbers at one K, with what is known of gates that have the same fanins.
pub struct Counter {
    search: Search,
    known: HashMap<Vec<Key>, Key>,
}

impl Counter {
    pub fn new(k: usize) -> Counter {
        Counter { search: Search::new(k), known: HashMap::new() }
    }

    /// The least number of a sheet, its gates joined.
    pub fn least(&mut self, sheet: &Sheet) -> usize {
        let sheet = join(sheet).sheet;
        let mut gates = Vec::with_capacity(sheet.gates.len());
        let mut keys = [0; FANINS];
        for gate in &sheet.gates {
            fanin_keys(gate, &gates, &mut keys);
            let mut fanins = keys[..gate.fanins.len()].to_vec();
            fanins.sort_unstable();
            let search = &mut self.search;
            gates.push(*self.known.entry(fanins).or_insert_with_key(|fanins| search.run(fanins)));
        }
        1 + below(gates[gates.len() - 1]) as usize
    }
}

/// How the least number changed, over some sheets and their gates: how often by how much, and for each the first sheet with the fewest leaves.
#[derive(Default)]
pub struct Changes {
    pub seen: BTreeMap<isize, (usize, Example)>,
}

/// A sheet, the gate that gets a leaf more, by its index, and the least numbers before and after.
#[derive(Clone, Debug)]
pub struct Example {
    pub sheet: Sheet,
    pub gate: usize,
    pub least: [usize; 2],
}

/// The changes at every K from 2 up, of sheets without an edge to join, and of those with one.
pub fn changes(trees: &[Tree]) -> Vec<(usize, [Changes; 2])> {
    let mut all: Vec<(usize, Counter, [Changes; 2])> = (2..=INPUTS).map(|k| (k, Counter::new(k), Default::default())).collect();
    for sheet in trees.iter().map(Tree::sheet) {
        let grown: Vec<(usize, Sheet)> =
            (0..sheet.gates.len()).filter_map(|gate| Some((gate, grown(&sheet, Place { gate, left: 0, inverted: false })?))).collect();
        let kind = usize::from(has_join(&sheet));
        for (_, counter, changes) in &mut all {
            let before = counter.least(&sheet);
            for (gate, grown) in &grown {
                changes[kind].note(Example { sheet: sheet.clone(), gate: *gate, least: [before, counter.least(grown)] });
            }
        }
    }
    all.into_iter().map(|(k, _, changes)| (k, changes)).collect()
}

impl Changes {
    fn note(&mut self, example: Example) {
        let [before, after] = example.least;
        let (count, smallest) = self.seen.entry(after as isize - before as isize).or_insert_with(|| (0, example.clone()));
        *count += 1;
        if example.sheet.leaves().len() < smallest.sheet.leaves().len() {
            *smallest = example;
        }
    }
}
