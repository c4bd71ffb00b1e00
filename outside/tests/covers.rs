//! The search against every splitting and every cover of small trees, and the checker against their tables.

use std::collections::BTreeSet;

use outside::check::{check_list, sheet_tables, PATTERNS};
use outside::exhaustive::{covers, least, splittings};
use outside::join::join;
use outside::part::{Part, Table};
use outside::rng::Rng;
use outside::sheet::{Edge, Gate, Kind, Sheet, Source};

/// A drawn tree without names.
#[derive(Clone, Debug, PartialEq, Eq, PartialOrd, Ord)]
enum Shape {
    Leaf,
    Gate(Vec<Shape>),
}

/// All trees with `leaves` leaves whose gates have two fanins or more, up to the order of fanins.
fn shapes(leaves: usize) -> Vec<Shape> {
    if leaves == 1 {
        return vec![Shape::Leaf];
    }
    let mut all: Vec<Shape> = groups(leaves, leaves - 1).into_iter().map(Shape::Gate).collect();
    for shape in &mut all {
        if let Shape::Gate(fanins) = shape {
            fanins.sort();
        }
    }
    all.sort();
    all.dedup();
    all
}

/// All lists of trees that have `leaves` leaves together, the first with at most `most`, none with more than the one before.
fn groups(leaves: usize, most: usize) -> Vec<Vec<Shape>> {
    if leaves == 0 {
        return vec![Vec::new()];
    }
    let mut all = Vec::new();
    for first in 1..=most.min(leaves) {
        for shape in shapes(first) {
            for rest in groups(leaves - first, first) {
                all.push([vec![shape.clone()], rest].concat());
            }
        }
    }
    all
}

/// Adds the gates of `shape`; the bits of `marks` say which gates are OR and which edges are inverted.
fn draw(shape: &Shape, sheet: &mut Sheet, nets: &mut u16, marks: &mut u64) -> Source {
    let Shape::Gate(fanins) = shape else {
        *nets += 1;
        return Source::Net(*nets);
    };
    let mut edges = Vec::new();
    for fanin in fanins {
        let source = draw(fanin, sheet, nets, marks);
        edges.push(Edge { inverted: mark(marks), source });
    }
    let kind = if mark(marks) { Kind::Or } else { Kind::And };
    sheet.gates.push(Gate { kind, fanins: edges });
    Source::Gate(sheet.gates.len() - 1)
}

fn mark(marks: &mut u64) -> bool {
    let bit = *marks & 1 == 1;
    *marks = marks.rotate_right(1);
    bit
}

fn sheet(shape: &Shape, mut marks: u64) -> Sheet {
    let mut sheet = Sheet { net: 9999, inverted: mark(&mut marks), gates: Vec::new() };
    draw(shape, &mut sheet, &mut 0, &mut marks);
    sheet
}

const MARKS: [u64; 3] = [0, 0x5a3c_96e1_0f2d_b487, 0xc3d2_e1f0_5a69_7887];

#[test]
fn small_shapes() {
    let counts: Vec<usize> = (1..=7).map(|leaves| shapes(leaves).len()).collect();
    assert_eq!(counts, [1, 1, 2, 5, 12, 33, 90]);
    let flat = sheet(&Shape::Gate(vec![Shape::Leaf; 5]), 0);
    assert_eq!(splittings(&flat).len(), 236);
}

/// On every tree of up to seven leaves and at every K, the search finds the least number over all splittings and covers.
#[test]
fn the_search_is_right_on_small_trees() {
    for leaves in 2..=7 {
        for shape in shapes(leaves) {
            let sheet = sheet(&shape, 0);
            let splittings = splittings(&sheet);
            for k in 2..=6 {
                assert_eq!(outside::least::least(&sheet, k), least(&splittings, k), "K {k}, {shape:?}");
                assert_eq!(outside::least::least_by_width(&sheet, k), least(&splittings, k), "K {k}, {shape:?}");
            }
        }
    }
}

/// Request 105: a gate more is a leaf fewer. On every tree of up to seven leaves and at every K, the covers with the most tables have one
/// fewer than the tree has leaves; so a sheet's covers, with its 256 leaves at most, have 255 at most.
#[test]
fn no_cover_has_as_many_tables_as_leaves() {
    for leaves in 2..=7 {
        for shape in shapes(leaves) {
            let splittings = splittings(&sheet(&shape, 0));
            for k in 2..=6 {
                let most = covers(&splittings, k).map(|(_, _, count)| count).max();
                assert_eq!(most, Some(leaves - 1), "K {k}, {shape:?}");
            }
        }
    }
}

/// The tables of every cover of every splitting of a joined tree of up to five leaves are taken, and those of each least cover make a good
/// list for the sheet as drawn.
#[test]
fn every_cover_is_taken() {
    for leaves in 2..=5 {
        for shape in shapes(leaves) {
            for marks in MARKS {
                every_cover_of(&sheet(&shape, marks));
            }
        }
    }
}

fn every_cover_of(sheet: &Sheet) {
    let joined = join(sheet).sheet;
    let splittings = splittings(&joined);
    for k in 2..=6 {
        let least = least(&splittings, k);
        for (node, choice, count) in covers(&splittings, k) {
            let tables = node.tables(choice, 3, sheet.net, sheet.inverted);
            assert_eq!(tables.len(), count);
            assert_eq!(sheet_tables(&joined, 3, &tables), Ok(()), "{joined:?} {tables:?}");
            let tables = node.tables(choice, 0, sheet.net, sheet.inverted);
            let list = Part { k, capacity: 9, tables }.list();
            let input = format!("{k:>6}     9\n{}", sheet.text());
            assert_eq!(check_list(input.as_bytes(), list.as_bytes()).is_ok(), count == least, "{input}{list}");
        }
    }
}

/// What the tables give at the settings of up to six leaves. A function of a tree tells its leaves, so this settles the tables of a cover
/// up to their order.
fn outputs(tables: &[Table]) -> BTreeSet<u64> {
    let mut given: Vec<u64> = Vec::new();
    for table in tables {
        given.push(table.output(|code| match usize::from(code).checked_sub(10_001) {
            Some(index) => given[index],
            None => PATTERNS[usize::from(code) - 1],
        }));
    }
    given.into_iter().collect()
}

/// Of the covers of a tree as drawn those are taken that are covers of the joined tree too: all where only upright edges are joined, and
/// where an inverted one is, those without a table of the lower gate's fanins, which gives their drawn value and not the one turned over.
#[test]
fn covers_of_the_drawn_tree() {
    let (mut taken, mut turned_down) = (0, 0);
    let mut rng = Rng::new(1);
    for shape in (2..=5).flat_map(shapes) {
        for marks in [(); 20].map(|_| rng.word()) {
            let sheet = sheet(&shape, marks);
            let joined = join(&sheet).sheet;
            let tables = |sheet: &Sheet| -> Vec<Vec<Table>> {
                covers(&splittings(sheet), 6).map(|(node, choice, _)| node.tables(choice, 0, sheet.net, sheet.inverted)).collect()
            };
            let right: BTreeSet<BTreeSet<u64>> = tables(&joined).iter().map(|tables| outputs(tables)).collect();
            for tables in tables(&sheet) {
                let is_right = right.contains(&outputs(&tables));
                assert_eq!(sheet_tables(&joined, 0, &tables).is_ok(), is_right, "{sheet:?} {tables:?}");
                *if is_right { &mut taken } else { &mut turned_down } += 1;
            }
        }
    }
    assert!(taken > 1000 && turned_down > 100, "{taken} {turned_down}");
}

/// No other truth table, input or net is taken in any table of any cover of up to four leaves, unless it is another cover's.
#[test]
fn nothing_else_is_taken() {
    for leaves in 2..=4 {
        for shape in shapes(leaves) {
            for marks in MARKS {
                let sheet = sheet(&shape, marks);
                let splittings = splittings(&sheet);
                let all: Vec<Vec<Table>> =
                    covers(&splittings, 6).map(|(node, choice, _)| node.tables(choice, 0, sheet.net, sheet.inverted)).collect();
                for tables in &all {
                    for changed in changes(tables) {
                        let taken = sheet_tables(&sheet, 0, &changed).is_ok();
                        assert!(!taken || all.contains(&changed), "{sheet:?} {changed:?}");
                    }
                }
            }
        }
    }
}

/// Lists with one bit of a truth table turned over, another input, another net, or a table left out or put twice.
fn changes(tables: &[Table]) -> Vec<Vec<Table>> {
    let mut all = Vec::new();
    for (index, table) in tables.iter().enumerate() {
        let mut with = |table: Table| {
            let mut tables = tables.to_vec();
            tables[index] = table;
            all.push(tables);
        };
        for bit in 0..1 << table.inputs.len() {
            with(Table { truth: table.truth ^ 1 << bit, ..table.clone() });
        }
        with(Table { truth: table.truth ^ ((1 << (1 << table.inputs.len())) - 1), ..table.clone() });
        for place in 0..table.inputs.len() {
            for other in (1..=5).chain(10001..=10003) {
                let mut inputs = table.inputs.clone();
                inputs[place] = other;
                if inputs != table.inputs && inputs.is_sorted() {
                    with(Table { inputs, ..table.clone() });
                }
            }
        }
        with(Table { net: 9998 - table.net.min(9998), ..table.clone() });
        let mut fewer = tables.to_vec();
        fewer.remove(index);
        all.push(fewer);
        let mut more = tables.to_vec();
        more.insert(index, table.clone());
        all.push(more);
    }
    all
}

/// A tree whose values are right, but whose inner table is inverted in both the table that gives it and the one that reads it.
#[test]
fn inverted_twice_is_found() {
    let gates = vec![
        Gate { kind: Kind::And, fanins: vec![edge(Source::Net(1)), edge(Source::Net(2))] },
        Gate { kind: Kind::And, fanins: vec![edge(Source::Gate(0)), edge(Source::Net(3))] },
    ];
    let sheet = Sheet { net: 9, inverted: false, gates };
    let inner = |truth| Table { net: 0, inputs: vec![1, 2], truth };
    let root = |truth| Table { net: 9, inputs: vec![3, 10001], truth };
    assert_eq!(sheet_tables(&sheet, 0, &[inner(8), root(8)]), Ok(()));
    assert!(sheet_tables(&sheet, 0, &[inner(7), root(2)]).is_err());
}

fn edge(source: Source) -> Edge {
    Edge { inverted: false, source }
}
