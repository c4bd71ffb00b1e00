//! Programs that go wrong in a small thing about fewest levels (request 107): the generated inputs find each of them out.

mod common;

use common::fast_ways::{deeper, fastest, root_level, turned_down, Way, RIGHT};
use outside::cover;
use outside::fast::Search;
use outside::least::least;
use outside::level::levels;
use outside::part::Table;
use outside::sheet::{Gate, Sheet, Source};

#[test]
fn the_right_way() {
    assert_eq!(turned_down(&RIGHT), [""; 0]);
}

/// Each of these is turned down on so many inputs, at least.
fn found(ways: &[(&str, Way)], times: usize) {
    let faults: Vec<(&str, Vec<String>)> = ways.iter().map(|(name, way)| (*name, turned_down(way))).collect();
    for (name, faults) in &faults {
        println!("{:>4} {name}: {}", faults.len(), faults.first().map_or("", String::as_str));
    }
    assert!(faults.iter().all(|(_, faults)| faults.len() >= times));
}

/// A cover of the fewest tables, whatever its level, and the level that it has.
fn fewest_tables(sheet: &Sheet, k: usize, level: &dyn Fn(u16) -> usize, tables: &mut Vec<Table>) -> usize {
    let used = tables.len();
    cover::add(sheet, k, tables);
    root_level(tables, used, level)
}

/// Of the covers of the fewest tables one of the fewest levels.
fn tables_then_levels(sheet: &Sheet, k: usize, level: &dyn Fn(u16) -> usize, tables: &mut Vec<Table>) -> usize {
    let least = least(sheet, k);
    let mut search = Search::of(sheet, k, level);
    let bound = (1..).find(|&bound| search.within(bound) == Some(least)).expect("a level");
    search.add(bound, tables);
    bound
}

/// A cover of the fewest tables that may be one level deeper, and the level that it has.
fn one_deeper(sheet: &Sheet, k: usize, level: &dyn Fn(u16) -> usize, tables: &mut Vec<Table>) -> usize {
    let used = tables.len();
    deeper(sheet, k, level, tables, 1);
    root_level(tables, used, level)
}

/// A fastest cover with tables of an input fewer, where it is as fast.
fn not_minimal(sheet: &Sheet, k: usize, level: &dyn Fn(u16) -> usize, tables: &mut Vec<Table>) -> usize {
    let narrow = k - 1;
    let as_fast = narrow > 1 && fastest(sheet, narrow, level).level == fastest(sheet, k, level).level;
    deeper(sheet, if as_fast { narrow } else { k }, level, tables, 0)
}

/// Each gate below a gate is a table as fast as can be by itself where the whole is as fast with that, though a slower one would do.
fn fast_everywhere(sheet: &Sheet, k: usize, level: &dyn Fn(u16) -> usize, tables: &mut Vec<Table>) -> usize {
    let right = fastest(sheet, k, level).level;
    for gate in (0..sheet.gates.len() - 1).rev() {
        let below = below(sheet, gate);
        let own = fastest(&below, k, level).level;
        let cut = cut(sheet, gate);
        let with_net = |net: u16| if net == 0 { own } else { level(net) };
        if fastest(&cut, k, &with_net).level > right {
            continue;
        }
        let used = tables.len();
        Search::of(&below, k, level).add(own, tables);
        tables.last_mut().expect("a table").net = 0;
        let code = 10_000 + tables.len() as u16;
        let rest = Search::of(&cut, k, &with_net).fastest().level;
        let mut above = tables.clone();
        Search::of(&cut, k, &with_net).add(rest, &mut above);
        for table in &mut above[used..] {
            renamed(table, code);
        }
        *tables = above;
        return rest;
    }
    deeper(sheet, k, level, tables, 0)
}

/// Net 0 stands for a table: its code in its place, the highest before all tables after it.
fn renamed(table: &mut Table, code: u16) {
    if table.inputs.first() != Some(&0) {
        return;
    }
    let place = table.inputs.iter().filter(|&&input| input != 0 && input < code).count();
    let mut inputs = table.inputs[1..].to_vec();
    inputs.insert(place, code);
    let moved = |row: usize| (row & !((2 << place) - 1)) | (row & ((1 << place) - 1)) << 1 | row >> place & 1;
    let truth = (0..1usize << inputs.len()).fold(0, |truth, row| truth | (table.truth >> moved(row) & 1) << row);
    *table = Table { net: table.net, inputs, truth };
}

/// The gates at and below a gate, as a sheet.
fn below(sheet: &Sheet, gate: usize) -> Sheet {
    let mut below = Sheet { net: 9999, inverted: false, gates: Vec::new() };
    copied(sheet, gate, &mut below, usize::MAX);
    below
}

/// The sheet with a gate as a leaf of net 0.
fn cut(sheet: &Sheet, gate: usize) -> Sheet {
    let mut cut = Sheet { gates: Vec::new(), ..*sheet };
    copied(sheet, sheet.gates.len() - 1, &mut cut, gate);
    cut
}

fn copied(sheet: &Sheet, gate: usize, to: &mut Sheet, leaf: usize) -> Source {
    if gate == leaf {
        return Source::Net(0);
    }
    let Gate { kind, fanins } = sheet.gates[gate].clone();
    let mut edges = fanins;
    for edge in &mut edges {
        if let Source::Gate(below) = edge.source {
            edge.source = copied(sheet, below, to, leaf);
        }
    }
    to.gates.push(Gate { kind, fanins: edges });
    Source::Gate(to.gates.len() - 1)
}

#[test]
fn other_covers() {
    let ways = [
        ("fewest tables, whatever the level", Way { cover: fewest_tables, ..RIGHT }),
        ("fewest tables first", Way { cover: tables_then_levels, ..RIGHT }),
        ("one level deeper, for fewer tables", Way { cover: one_deeper, ..RIGHT }),
        ("tables not minimal among the fastest", Way { cover: not_minimal, ..RIGHT }),
        ("levels of driven nets taken as 0", Way { leaf: |_| 0, ..RIGHT }),
        ("a driven net one level too low", Way { leaf: |driven| driven.map_or(0, |level| level - 1), ..RIGHT }),
        ("free nets at level 1", Way { leaf: |driven| driven.unwrap_or(1), ..RIGHT }),
        ("all driven nets at level 1", Way { leaf: |driven| driven.map_or(0, |_| 1), ..RIGHT }),
        ("the joined tree not used", Way { tree: Sheet::clone, ..RIGHT }),
    ];
    found(&ways, 10);
}

/// Off the longest path each gate as fast as can be: the lists are good but for having tables too many.
#[test]
fn fast_where_it_need_not_be() {
    let way = Way { cover: fast_everywhere, ..RIGHT };
    found(&[("fast everywhere", way)], 5);
    let too_many = |fault: &String| fault.contains("it is missing") || fault.contains("-23");
    assert!(turned_down(&way).iter().all(too_many));
}

/// The cover chosen by levels of 0, and the slack of what it has in truth.
#[test]
fn levels_of_driven_nets_left_out_of_the_choice_alone() {
    let cover = |sheet: &Sheet, k: usize, level: &dyn Fn(u16) -> usize, tables: &mut Vec<Table>| {
        let used = tables.len();
        deeper(sheet, k, &|_| 0, tables, 0);
        root_level(tables, used, level)
    };
    found(&[("chosen as if all nets were free", Way { cover, ..RIGHT })], 5);
}

#[test]
fn other_slacks() {
    let ways = [
        ("slack turned round", Way { slack: |wanted, level| level - wanted, ..RIGHT }),
        ("slack never below zero", Way { slack: |wanted, level| (wanted - level).max(0), ..RIGHT }),
        ("slack one too low", Way { slack: |wanted, level| wanted - level - 1, ..RIGHT }),
        ("slack in eight bits", Way { slack: |wanted, level| i64::from((wanted - level) as i8), ..RIGHT }),
        ("the root level for the slack", Way { slack: |_, level| level, ..RIGHT }),
        (
            "the output net signed",
            Way { lines: |slacks| slacks.iter().map(|(net, slack)| format!("{net:>6}{slack:>6}\n")).collect(), ..RIGHT },
        ),
        (
            "slack first",
            Way { lines: |slacks| slacks.iter().map(|(net, slack)| format!("{slack:>6}{:>6}\n", net.abs())).collect(), ..RIGHT },
        ),
        ("the last sheet first", Way { lines: |slacks| (RIGHT.lines)(&slacks.iter().rev().copied().collect::<Vec<_>>()), ..RIGHT }),
        ("the last sheet alone", Way { lines: |slacks| (RIGHT.lines)(&slacks[slacks.len().saturating_sub(1)..]), ..RIGHT }),
        ("no slack", Way { lines: |_| String::new(), ..RIGHT }),
        ("a line feed more", Way { lines: |slacks| (RIGHT.lines)(slacks) + "\n", ..RIGHT }),
    ];
    found(&ways, 10);
}

#[test]
fn other_numbers_left() {
    let ways = [
        ("the number left not reduced", Way { fits: |capacity, _, tables, _| tables <= capacity, ..RIGHT }),
        ("the least number compared", Way { fits: |capacity, used, _, least| used <= capacity && least <= capacity - used, ..RIGHT }),
        ("a table kept back", Way { fits: |capacity, used, tables, _| used + tables < capacity, ..RIGHT }),
        ("no room asked for", Way { fits: |_, _, _, _| true, ..RIGHT }),
    ];
    found(&ways, 5);
}

/// The refusal of three fields by tests in another order, or with other bounds.
fn three(fields: &[i64], order: [u32; 3], wanted: std::ops::RangeInclusive<i64>) -> Result<[i64; 3], u32> {
    let &[k, capacity, level] = fields else { return Err(1) };
    let good = |number: u32| match number {
        2 => (2..=6).contains(&k),
        3 => (1..=800).contains(&capacity),
        _ => wanted.contains(&level),
    };
    order.into_iter().find(|&number| !good(number)).map_or(Ok([k, capacity, level]), Err)
}

#[test]
fn other_opening_lines() {
    let ways = [
        ("34 before 3", Way { opening: |fields| three(fields, [2, 34, 3], 0..=1024), ..RIGHT }),
        ("34 before 2", Way { opening: |fields| three(fields, [34, 2, 3], 0..=1024), ..RIGHT }),
        ("3 before 2", Way { opening: |fields| three(fields, [3, 2, 34], 0..=1024), ..RIGHT }),
        ("a wanted level from 1", Way { opening: |fields| three(fields, [2, 3, 34], 1..=1024), ..RIGHT }),
        ("a wanted level below 1024", Way { opening: |fields| three(fields, [2, 3, 34], 0..=1023), ..RIGHT }),
        ("a wanted level of 1025", Way { opening: |fields| three(fields, [2, 3, 34], 0..=1025), ..RIGHT }),
        ("a wanted level of -1", Way { opening: |fields| three(fields, [2, 3, 34], -1..=1024), ..RIGHT }),
        (
            "a minus sign taken for a fault of layout",
            Way {
                opening: |fields| if fields.get(2).is_some_and(|&wanted| wanted < 0) { Err(1) } else { (RIGHT.opening)(fields) },
                ..RIGHT
            },
        ),
        (
            "two fields taken",
            Way {
                opening: |fields| if fields.len() == 2 { (RIGHT.opening)(&[fields, &[0]].concat()) } else { (RIGHT.opening)(fields) },
                ..RIGHT
            },
        ),
        ("more fields taken", Way { opening: |fields| (RIGHT.opening)(&fields[..fields.len().min(3)]), ..RIGHT }),
        (
            "the count of fields after the ranges",
            Way {
                opening: |fields| {
                    let padded: Vec<i64> = [fields, &[1, 1, 1]].concat();
                    (RIGHT.opening)(&padded[..3]).and_then(|_| (RIGHT.opening)(fields))
                },
                ..RIGHT
            },
        ),
    ];
    found(&ways, 1);
}

/// `root_level` gives what the levels of a list are.
#[test]
fn root_levels_are_levels() {
    let tables = [
        Table { net: 1, inputs: vec![8, 9], truth: 8 },
        Table { net: 0, inputs: vec![1, 2], truth: 8 },
        Table { net: 20, inputs: vec![3, 10_002], truth: 8 },
    ];
    assert_eq!(root_level(&tables, 1, &|net| usize::from(net == 1)), levels(&tables)[2]);
}
