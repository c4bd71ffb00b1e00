//! Levels (request 103), worked by hand, and tested by their definition on generated lists.

mod common;

use common::{chain, input, one_gate};
use outside::level::levels;
use outside::list;
use outside::list_cases::cases;
use outside::part::Table;
use outside::program::map;

/// The levels of tables that drive these nets and read these inputs.
fn of(tables: &[(u16, &[u16])]) -> Vec<usize> {
    let table = |&(net, inputs): &(u16, &[u16])| Table { net, inputs: inputs.to_vec(), truth: 0 };
    levels(&tables.iter().map(table).collect::<Vec<Table>>())
}

/// The levels of the tables that the mapper makes of these sheets.
fn mapped(k: i64, sheets: &str) -> Vec<usize> {
    levels(&map(input(k, 800, sheets).as_bytes()).expect("accepted").tables)
}

fn up_to(last: usize) -> Vec<usize> {
    (1..=last).collect()
}

#[test]
fn no_tables() {
    assert_eq!(of(&[]), []);
}

/// The second table of 01's example reads the net that the first drives.
#[test]
fn the_example() {
    assert_eq!(of(&[(20, &[1, 2, 3, 4]), (21, &[5, 20])]), [1, 2]);
}

#[test]
fn the_greatest_counts() {
    let tables: [(u16, &[u16]); 6] =
        [(0, &[1, 2]), (0, &[3, 4]), (30, &[10001, 10002]), (0, &[5, 6]), (31, &[1, 30, 10004]), (32, &[30, 31])];
    assert_eq!(of(&tables), [1, 1, 2, 1, 3, 4]);
}

/// Driven nets have levels wherever their drivers stand.
#[test]
fn against_the_order() {
    assert_eq!(of(&[(24, &[21, 23]), (23, &[3, 22]), (22, &[1, 21]), (21, &[1, 2])]), [4, 3, 2, 1]);
}

#[test]
fn one_gate_after_another() {
    assert_eq!(mapped(2, &chain(9999, 255)), up_to(255));
    assert_eq!(mapped(6, &chain(9999, 255)), up_to(51));
}

/// An AND of four leaves at K 2 is three tables: a chain, or two below one.
#[test]
fn one_gate_split() {
    let levels = mapped(2, &one_gate(9, 1, &[1, 2, 3, 4]));
    assert!(levels == [1, 2, 3] || levels == [1, 1, 2], "{levels:?}");
}

#[test]
fn a_sheet_above_another() {
    let second = one_gate(9998, 1, &[1, 9999]);
    assert_eq!(mapped(2, &(chain(9999, 255) + &second)), up_to(256));
    assert_eq!(mapped(6, &(chain(9999, 255) + &second)), up_to(52));
}

#[test]
fn sheets_with_free_nets_in_common() {
    assert_eq!(mapped(2, &(chain(9999, 3) + &chain(9998, 3))), [1, 2, 3, 1, 2, 3]);
}

/// The level of what an input reads: of the table that it names, or that drives it, or of a free net.
fn level_of(input: u16, tables: &[Table], levels: &[usize]) -> usize {
    let reads = |&index: &usize| usize::from(input) == 10_001 + index || input == tables[index].net;
    (0..tables.len()).find(reads).map_or(0, |index| levels[index])
}

/// Each level is what the definition says of the others, and the levels reach from 1 to 800.
#[test]
fn generated_lists() {
    let mut deepest = 0;
    for index in 0..150 {
        let Ok(part) = list::read(&cases(1, index)[0].text) else { continue };
        let levels = levels(&part.tables);
        for (table, &level) in part.tables.iter().zip(&levels) {
            let below = table.inputs.iter().map(|&input| level_of(input, &part.tables, &levels)).max();
            assert_eq!(Some(level), below.map(|below| below + 1), "list {index}");
            deepest = deepest.max(level);
        }
    }
    assert_eq!(deepest, 800);
}
