//! Fewest levels (request 107): worked by hand, the search against every splitting and every cover of small trees, refusals and slack.

mod common;

use common::{gate, line, nets, one_gate, sheet, AND, OR};
use outside::exhaustive::{covers, fastest as fastest_of_all, splittings};
use outside::fast::{fastest, Fastest, Search};
use outside::fast_cases::{case, SHOWN};
use outside::fast_check::check_output;
use outside::fast_program::{map, print};
use outside::join::join;
use outside::least::least;
use outside::level::levels;
use outside::part::{Part, Table};
use outside::refusal::Refusal;
use outside::rng::Rng;
use outside::sheet::{Edge, Gate, Kind, Sheet, Source};

/// The root level and the number of tables of a joined sheet; the levels are those of nets 1 up, then 0.
fn of(gates: &[(i64, &[i64])], k: usize, levels: &[usize]) -> (usize, usize) {
    let level = |net: u16| levels.get(usize::from(net) - 1).copied().unwrap_or(0);
    let Fastest { level, tables } = fastest(&join(&sheet(gates)).sheet, k, &level);
    (level, tables)
}

/// At K 2 a gate has as many tables as it has leaves, less one, and 2^L is the sum of 2^level at least.
#[test]
fn one_gate_at_k_2() {
    for (leaves, level) in [(2, 1), (3, 2), (4, 2), (5, 3), (8, 3), (9, 4), (10, 4)] {
        assert_eq!(of(&[(AND, &nets(1, leaves))], 2, &[]), (level, leaves as usize - 1));
    }
    assert_eq!(of(&[(AND, &[1, 2, 3])], 2, &[5]), (6, 2));
    assert_eq!(of(&[(AND, &[1, 2, 3])], 2, &[5, 5]), (7, 2));
    assert_eq!(of(&[(AND, &[1, 2, 3, 4, 5])], 2, &[2]), (3, 4));
    assert_eq!(of(&[(AND, &[1, 2, 3, 4, 5, 6])], 2, &[2]), (4, 5));
}

#[test]
fn one_gate_wider() {
    assert_eq!(of(&[(AND, &nets(1, 10))], 6, &[]), (2, 2));
    assert_eq!(of(&[(AND, &nets(1, 10))], 5, &[]), (2, 3));
    assert_eq!(of(&[(AND, &nets(1, 10))], 3, &[]), (3, 5));
    assert_eq!(of(&[(AND, &nets(1, 9))], 3, &[]), (2, 4));
    assert_eq!(of(&[(AND, &nets(1, 6))], 6, &[3, 0, 0, 0, 0, 800]), (801, 1));
}

/// Two tables have one above the other, and the lower one reads net 1; three can keep net 1 at the root.
#[test]
fn a_table_more_for_a_level() {
    let gates: [(i64, &[i64]); 3] = [(OR, &[2, 3]), (OR, &[4, 5]), (AND, &[1, 10001, 10002])];
    assert_eq!(of(&gates, 3, &[1]), (2, 3));
    assert_eq!(of(&gates, 3, &[]), (2, 2));
    assert_eq!(of(&gates, 3, &[1, 1]), (3, 2));
    assert_eq!(of(&gates, 5, &[1]), (2, 1));
    assert_eq!(least(&join(&sheet(&gates)).sheet, 3), 2);
}

/// The tree above stands below an OR with net 6: where that is at level 3, the tree may be at level 3 with two tables, though it could be
/// at level 2 with three; where it is at level 2, the tree must be.
#[test]
fn slower_off_the_longest_path() {
    let gates: [(i64, &[i64]); 4] = [(OR, &[2, 3]), (OR, &[4, 5]), (AND, &[1, 10001, 10002]), (OR, &[10003, 6, 7])];
    assert_eq!(of(&gates, 3, &[1, 0, 0, 0, 0, 3]), (4, 3));
    assert_eq!(of(&gates, 3, &[1, 0, 0, 0, 0, 2]), (3, 4));
}

/// Joins: a chain of three ANDs is one gate of four leaves, two levels at K 2; of AND, OR, AND it is three.
#[test]
fn joined_first() {
    assert_eq!(of(&[(AND, &[1, 2]), (AND, &[10001, 3]), (AND, &[10002, 4])], 2, &[]), (2, 3));
    assert_eq!(of(&[(AND, &[1, 2]), (OR, &[-10001, 3]), (AND, &[-10002, 4])], 2, &[]), (2, 3));
    assert_eq!(of(&[(AND, &[1, 2]), (OR, &[10001, 3]), (AND, &[10002, 4])], 2, &[]), (3, 3));
}

/// A small tree of any kinds and inversions: each subtree is a leaf or a gate of two to four.
fn small(rng: &mut Rng, leaves: usize) -> Sheet {
    let mut sheet = Sheet { net: 9999, inverted: rng.once_in(2), gates: Vec::new() };
    let chain = rng.below(3);
    subtree(rng, leaves, chain, &mut 0, &mut sheet);
    sheet
}

fn subtree(rng: &mut Rng, leaves: usize, chain: usize, net: &mut u16, sheet: &mut Sheet) -> Source {
    if leaves == 1 {
        *net += 1;
        return Source::Net(*net);
    }
    let mut sizes = vec![1; rng.between(2, leaves.min(4))];
    for _ in sizes.len()..leaves {
        let at = rng.below(sizes.len());
        sizes[at] += 1;
    }
    let kind = if rng.once_in(2) { Kind::And } else { Kind::Or };
    let mut fanins = Vec::new();
    for size in sizes {
        let source = subtree(rng, size, chain, net, sheet);
        let chained = match source {
            Source::Gate(gate) => sheet.gates[gate].kind != kind,
            Source::Net(_) => false,
        };
        let inverted = if chain > 0 && rng.below(3) < chain { chained } else { rng.once_in(2) };
        fanins.push(Edge { inverted, source });
    }
    sheet.gates.push(Gate { kind, fanins });
    Source::Gate(sheet.gates.len() - 1)
}

/// The search finds what trying every splitting and every cover does: at every bound the fewest tables, on 3,000 trees of up to seven leaves with
/// levels of a few up to 5, and now and then up to 12.
#[test]
fn against_every_cover() {
    let mut rng = Rng::new(107);
    let (mut joined_trees, mut others, mut dearer, mut slower) = (0, 0, 0, 0);
    for index in 0..3000 {
        let leaves = if index % 100 == 0 { 7 } else { *rng.pick(&[2, 3, 4, 4, 5, 5, 5, 6]) };
        let drawn = small(&mut rng, leaves);
        let joined = join(&drawn);
        let most = *rng.pick(&[1, 1, 2, 2, 3, 5, 5, 12]);
        let given: Vec<usize> = (0..leaves).map(|_| if rng.once_in(3) { 0 } else { rng.between(0, most) }).collect();
        let level = |net: u16| given[usize::from(net) - 1];
        let splittings = splittings(&joined.sheet);
        for k in 2..=4 {
            let all: Vec<(usize, usize)> = covers(&splittings, k).filter_map(|(node, choice, _)| node.level(choice, k, &level)).collect();
            let &(least_level, tables) = all.iter().min().unwrap();
            let mut search = Search::of(&joined.sheet, k, &level);
            assert_eq!(search.fastest(), Fastest { level: least_level, tables }, "K {k}, {given:?}, {drawn:?}");
            for bound in 1..=least_level + 3 {
                let within = all.iter().filter(|(level, _)| *level <= bound).map(|&(_, tables)| tables).min();
                assert_eq!(search.within(bound), within, "K {k}, level {bound}, {given:?}, {drawn:?}");
            }
            dearer += usize::from(tables > least(&joined.sheet, k));
            slower += usize::from(all.iter().any(|&(level, count)| level > least_level && count == tables));
        }
        *if joined.chained.is_empty() { &mut others } else { &mut joined_trees } += 1;
    }
    assert!(joined_trees > 1000 && others > 500 && dearer > 60 && slower > 1000, "{joined_trees} {others} {dearer} {slower}");
}

/// The level that the walk over a split tree gives is that of the cover's last table in a list.
#[test]
fn levels_of_covers_are_levels_of_tables() {
    let mut rng = Rng::new(3);
    for _ in 0..200 {
        let leaves = rng.between(2, 5);
        let sheet = join(&small(&mut rng, leaves)).sheet;
        for (node, choice, _) in covers(&splittings(&sheet), 3) {
            // Net 1 is driven at level 2, net 2 at level 1, the others are free.
            let drivers = [Table { net: 2, inputs: vec![100, 101], truth: 0 }, Table { net: 1, inputs: vec![2, 100], truth: 0 }];
            let tables = [drivers.to_vec(), node.tables(choice, 2, 9999, false)].concat();
            let level = |net: u16| [2, 1].get(usize::from(net) - 1).copied().unwrap_or(0);
            assert_eq!(node.level(choice, 3, &level).map(|(level, _)| level), levels(&tables).last().copied());
        }
    }
}

/// What the search adds are the tables of a cover of the level and the number that it found: the checker takes what is printed.
#[test]
fn the_checker_takes_what_we_print() {
    let mut shown = [0; SHOWN.len()];
    for index in 0..800 {
        let case = case(5, index);
        let answer = map(&case.input);
        if let Some(wanted) = case.wanted {
            assert_eq!(answer.as_ref().map(drop).map_err(|&refusal| refusal), wanted, "{} {index}", case.kind);
        }
        if let Ok(mapped) = &answer {
            SHOWN.iter().zip(&mut shown).for_each(|((_, shows), count)| *count += usize::from(shows(mapped)));
        }
        assert_eq!(check_output(&case.input, print(&case.input).as_bytes()), Ok(()), "{} {index}", case.kind);
    }
    assert!(shown.iter().filter(|&&count| count >= 10).count() >= 9, "{shown:?}");
}

/// Of all covers of a small sheet the checker takes those of the least root level that have the fewest tables, and no other. Net 1 is driven
/// at level 2, net 2 at level 1.
#[test]
fn the_fastest_covers_are_taken() {
    let drivers = one_gate(2, AND, &[100, 101]) + &one_gate(1, AND, &[2, 102]);
    let driving = [Table { net: 2, inputs: vec![100, 101], truth: 8 }, Table { net: 1, inputs: vec![2, 102], truth: 8 }];
    let level = |net: u16| [2, 1].get(usize::from(net) - 1).copied().unwrap_or(0);
    let mut rng = Rng::new(11);
    let (mut taken, mut deeper, mut dearer) = (0, 0, 0);
    for _ in 0..120 {
        let leaves = rng.between(3, 5);
        let drawn = small(&mut rng, leaves);
        let splittings = splittings(&join(&drawn).sheet);
        let k = rng.between(2, 4);
        let least = fastest_of_all(&splittings, k, &level);
        let input = line(&[k as i64, 9, 5]) + &drivers + &drawn.text();
        for (node, choice, _) in covers(&splittings, k) {
            let found = node.level(choice, k, &level).expect("a cover");
            let tables = [driving.to_vec(), node.tables(choice, 2, drawn.net, drawn.inverted)].concat();
            let list = Part { k, capacity: 9, tables }.list();
            let printed = |level: usize| list.clone() + &line(&[2, 4]) + &line(&[1, 3]) + &line(&[9999, 5 - level as i64]);
            assert_eq!(check_output(input.as_bytes(), printed(least.0).as_bytes()).is_ok(), found == least, "{input}{list}");
            assert_eq!(check_output(input.as_bytes(), printed(found.0).as_bytes()).is_ok(), found == least, "{input}{list}");
            let (is_deeper, is_dearer) = (found.0 > least.0 && found.1 == least.1, found.0 == least.0 && found.1 > least.1);
            taken += usize::from(found == least);
            deeper += usize::from(is_deeper);
            dearer += usize::from(is_dearer);
        }
    }
    assert!(taken > 300 && deeper > 300 && dearer > 300, "{taken} {deeper} {dearer}");
}

const EXAMPLE: &str = "    20     3
     2     2     1     2
     2     2     3     4
     1     2 10001 10002
   -21     1
     1     2    20    -5
";

fn with_opening(fields: &[i64]) -> String {
    line(fields) + EXAMPLE
}

/// One table for each sheet, so that nothing is left free: levels 1 and 2.
#[test]
fn the_example() {
    let list = common::LIST;
    for (wanted, slack) in [(0, [-1, -2]), (1, [0, -1]), (2, [1, 0]), (3, [2, 1]), (1024, [1023, 1022])] {
        let printed = list.to_string() + &line(&[20, slack[0]]) + &line(&[21, slack[1]]);
        assert_eq!(print(with_opening(&[4, 8, wanted]).as_bytes()), printed);
        assert_eq!(check_output(with_opening(&[4, 8, wanted]).as_bytes(), printed.as_bytes()), Ok(()));
    }
}

#[test]
fn no_sheet() {
    assert_eq!(print(line(&[4, 8, 5]).as_bytes()), line(&[4, 8, 0]));
}

fn refused(input: &str, number: u32, sheet: usize, place: usize) {
    assert_eq!(map(input.as_bytes()).map(drop), Err(Refusal::new(number, sheet, place)), "{input}");
    assert_eq!(print(input.as_bytes()), line(&[-i64::from(number), sheet as i64, place as i64]));
}

#[test]
fn refusals_of_the_opening_line() {
    for wanted in [-1, 1025, -1024, 999_999, -99_999] {
        refused(&with_opening(&[4, 8, wanted]), 34, 0, 0);
        refused(&with_opening(&[4, 801, wanted]), 3, 0, 0);
        refused(&with_opening(&[7, 8, wanted]), 2, 0, 0);
        refused(&with_opening(&[7, 801, wanted]), 2, 0, 0);
        refused(&with_opening(&[7, 801, wanted, 5]), 1, 0, 0);
    }
    for fields in [&[4][..], &[4, 8], &[7, 8], &[4, 801], &[4, 8, 5, 5], &[4, 8, 1025, 5], &[1; 12]] {
        refused(&with_opening(fields), 1, 0, 0);
    }
    for opening in
        ["", "\n", "     4     8     5", "     4     8    -0\n", "     4     8    05\n", "     4     8    +5\n", "     4     8      \n"]
    {
        refused(opening, 1, 0, 0);
    }
}

/// 23 compares the number of the fastest cover; 21 and 22 come first; a sheet's own refusals come with their line.
#[test]
fn refusals_of_sheets() {
    let driver = one_gate(1, AND, &[6, 7]);
    let dear = line(&[20, 3]) + &gate(OR, &[2, 3]) + &gate(OR, &[4, 5]) + &gate(AND, &[1, 10001, 10002]);
    let input = |capacity: i64, sheets: &str| line(&[3, capacity, 2]) + sheets;
    refused(&input(3, &(driver.clone() + &dear)), 23, 2, 0);
    assert!(map(input(4, &(driver.clone() + &dear)).as_bytes()).is_ok());
    assert!(map(input(3, &(dear.clone() + &one_gate(21, AND, &[6, 7]))).as_bytes()).is_ok());
    refused(&input(1, &(driver.clone() + &driver)), 21, 2, 0);
    refused(&input(1, &(driver.clone() + &one_gate(6, AND, &[8, 9]))), 22, 2, 0);
    refused(&input(8, &(driver + &one_gate(20, 3, &[8, 9]))), 6, 2, 2);
}
