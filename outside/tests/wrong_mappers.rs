//! 01's "Ways a mapper goes wrong", and mappers that join wrongly (request 104): what each such mapper prints is turned down.

mod common;

use common::nested::{self, Rule, RIGHT};
use common::{gate, input, line, text};
use outside::check::{check_list, check_output};
use outside::cover;
use outside::generate::case;
use outside::part::{Part, Table};
use outside::program::read;
use outside::sheet::Sheet;

/// 01's example: 20 = AND(OR(1, 2), OR(3, 4)), and 21 = NOT AND(20, NOT 5).
const EXAMPLE: &[&[i64]] = &[&[4, 8], &[20, 3], &[2, 2, 1, 2], &[2, 2, 3, 4], &[1, 2, 10001, 10002], &[-21, 1], &[1, 2, 20, -5]];

fn table(net: u16, inputs: &[u16], truth: u64) -> Table {
    Table { net, inputs: inputs.to_vec(), truth }
}

fn list(k: usize, capacity: usize, tables: &[Table]) -> String {
    Part { k, capacity, tables: tables.to_vec() }.list()
}

fn first() -> Table {
    table(20, &[1, 2, 3, 4], 61152)
}

fn second() -> Table {
    table(21, &[5, 20], 11)
}

fn taken(printed: &str) -> bool {
    check_output(text(EXAMPLE).as_bytes(), printed.as_bytes()).is_ok()
}

#[test]
fn the_right_list() {
    assert!(taken(&list(4, 8, &[first(), second()])));
}

#[test]
fn one_table_for_each_gate() {
    let gates = [table(0, &[1, 2], 14), table(0, &[3, 4], 14), table(20, &[10001, 10002], 8)];
    assert!(!taken(&list(4, 8, &[&gates[..], &[second()]].concat())));
}

#[test]
fn a_used_count_of_its_own() {
    let good = list(4, 8, &[first(), second()]);
    for used in ["     0\n", "     1\n", "     3\n"] {
        assert!(!taken(&good.replacen("     2\n", used, 1)));
    }
}

#[test]
fn copied_tables() {
    assert!(!taken(&list(4, 8, &[first(), Table { net: 21, ..first() }])));
    assert!(!taken(&list(4, 8, &[first(), first()])));
}

#[test]
fn no_tables() {
    assert!(!taken(&list(4, 8, &[])));
    assert!(!taken(&list(4, 8, &[first()])));
}

#[test]
fn one_fixed_table() {
    assert!(!taken(&list(4, 8, &[table(20, &[1, 2], 8), table(21, &[1, 2], 8)])));
}

#[test]
fn needless_refusals() {
    for refusal in [[-23, 1, 0], [-23, 2, 0], [-1, 0, 0], [-1, 1, 1], [-21, 2, 0]] {
        assert!(!taken(&line(&refusal)));
    }
    let full = text(EXAMPLE).replacen("     8\n", "     1\n", 1);
    assert!(check_output(full.as_bytes(), line(&[-23, 2, 0]).as_bytes()).is_ok());
    assert!(check_output(full.as_bytes(), list(4, 1, &[first()]).as_bytes()).is_err());
    for wrong in ["   -23     2     0", "   -23     2     0\n\n", "   -23     1     0\n", "   -22     2     0\n", "   -23     2     1\n"] {
        assert!(check_output(full.as_bytes(), wrong.as_bytes()).is_err());
    }
}

#[test]
fn another_opening() {
    assert!(!taken(&list(5, 8, &[first(), second()])));
    assert!(!taken(&list(4, 9, &[first(), second()])));
}

#[test]
fn sheets_in_another_order() {
    let two = input(4, 8, &text(&[&[20, 1], &[1, 2, 1, 2], &[21, 1], &[1, 2, 3, 4]]));
    let (one, other) = (table(20, &[1, 2], 8), table(21, &[3, 4], 8));
    assert!(check_output(two.as_bytes(), list(4, 8, &[one.clone(), other.clone()]).as_bytes()).is_ok());
    assert!(check_output(two.as_bytes(), list(4, 8, &[other, one]).as_bytes()).is_err());
}

/// Where the AND's root table takes four inputs, the OR needs a table of its own: three tables in place of two.
#[test]
fn the_width_forgotten() {
    let input = input(4, 8, &(line(&[99, 2]) + &gate(1, &[1, 2, 3, 4, 5]) + &gate(2, &[10001, 6, 7])));
    let three = [table(0, &[1, 2], 8), table(0, &[3, 4, 5, 10001], 32768), table(99, &[6, 7, 10002], 254)];
    let two = [table(0, &[1, 2, 3, 4], 32768), table(99, &[5, 6, 7, 10001], 65276)];
    assert!(check_output(input.as_bytes(), list(4, 8, &three).as_bytes()).is_err());
    assert_eq!(check_output(input.as_bytes(), list(4, 8, &two).as_bytes()), Ok(()));
}

/// The OR of five ANDs stays whole at K 5, since it has five fanins: six tables in place of three.
#[test]
fn only_wide_gates_split() {
    let ands = [gate(1, &[1, 2, 3]), gate(1, &[4, 5]), gate(1, &[6, 7]), gate(1, &[8, 9]), gate(1, &[10, 11])].concat();
    let input = input(5, 8, &(line(&[99, 6]) + &ands + &gate(2, &[10001, 10002, 10003, 10004, 10005])));
    let two = |a, b| table(0, &[a, b], 8);
    let or = table(99, &[10001, 10002, 10003, 10004, 10005], 0xffff_fffe);
    let six = [table(0, &[1, 2, 3], 128), two(4, 5), two(6, 7), two(8, 9), two(10, 11), or];
    assert!(check_output(input.as_bytes(), list(5, 8, &six).as_bytes()).is_err());
}

/// Right values over the right number of tables, with an inner value inverted where it is given and again where it is read.
#[test]
fn inverted_twice() {
    let input = input(2, 8, &(line(&[99, 1]) + &gate(1, &[1, 2, 3])));
    let upright = [table(0, &[1, 2], 8), table(99, &[3, 10001], 8)];
    let inverted = [table(0, &[1, 2], 7), table(99, &[3, 10001], 2)];
    assert_eq!(check_output(input.as_bytes(), list(2, 8, &upright).as_bytes()), Ok(()));
    assert!(check_output(input.as_bytes(), list(2, 8, &inverted).as_bytes()).is_err());
}

/// The sheet's list is the one of these tables, and not the one of those.
fn right_and_wrong(k: i64, sheet: &str, right: &[Table], wrong: &[Table]) {
    let input = input(k, 8, sheet);
    assert_eq!(check_output(input.as_bytes(), list(k as usize, 8, right).as_bytes()), Ok(()));
    assert!(check_output(input.as_bytes(), list(k as usize, 8, wrong).as_bytes()).is_err());
}

/// Three tables where two are enough for the joined gate; and where the number is the same, the lower gate's value as drawn and not turned
/// over.
#[test]
fn nothing_joined() {
    let ands = [gate(1, &[1, 2, 3]), gate(1, &[4, 5, 6]), gate(1, &[7, 8, 9])].concat();
    let sheet = line(&[99, 4]) + &ands + &gate(1, &[10001, 10002, 10003]);
    let two = [table(0, &[1, 2, 3, 4, 5], 1 << 31), table(99, &[6, 7, 8, 9, 10001], 1 << 31)];
    let drawn = [table(0, &[1, 2, 3], 1 << 7), table(0, &[4, 5, 6], 1 << 7), table(99, &[7, 8, 9, 10001, 10002], 1 << 31)];
    right_and_wrong(5, &sheet, &two, &drawn);
    let sheet = line(&[99, 2]) + &gate(1, &[1, 2]) + &gate(2, &[-10001, 3]);
    let joined = [table(0, &[1, 2], 7), table(99, &[3, 10001], 14)];
    let drawn = [table(0, &[1, 2], 8), table(99, &[3, 10001], 11)];
    right_and_wrong(2, &sheet, &joined, &drawn);
}

/// Eight fanins and two more are one gate, any six of whose leaves may be a table. Nine and two more are two gates.
#[test]
fn joined_up_to_eleven() {
    let and = |inputs: &[u16], net| table(net, inputs, 1 << ((1 << inputs.len()) - 1));
    let ten = line(&[99, 2]) + &gate(1, &[1, 2, 3, 4, 5, 6, 7, 8]) + &gate(1, &[10001, 9, 10]);
    let across = [and(&[1, 2, 3, 4, 5, 9], 0), and(&[6, 7, 8, 10, 10001], 99)];
    right_and_wrong(6, &ten, &across, &[]);
    let eleven = line(&[99, 2]) + &gate(1, &[1, 2, 3, 4, 5, 6, 7, 8, 9]) + &gate(1, &[10001, 10, 11]);
    let drawn = [and(&[1, 2, 3, 4, 5, 6], 0), and(&[7, 8, 9, 10, 11, 10001], 99)];
    let across = [and(&[1, 2, 3, 4, 5, 10], 0), and(&[6, 7, 8, 9, 11, 10001], 99)];
    right_and_wrong(6, &eleven, &drawn, &across);
}

/// NOT (1 AND 2) AND 3 is neither NOT 1 AND NOT 2 AND 3 nor 1 AND 2 AND 3.
#[test]
fn an_inverted_edge_of_one_kind_joined() {
    let sheet = line(&[99, 2]) + &gate(1, &[1, 2]) + &gate(1, &[-10001, 3]);
    right_and_wrong(2, &sheet, &[table(0, &[1, 2], 8), table(99, &[3, 10001], 2)], &[table(0, &[1, 2], 1), table(99, &[3, 10001], 8)]);
    for wrong in [1 << 4, 1 << 7] {
        right_and_wrong(3, &sheet, &[table(99, &[1, 2, 3], 112)], &[table(99, &[1, 2, 3], wrong)]);
    }
}

/// NOT (1 AND 2) OR 3 is NOT 1 OR NOT 2 OR 3, 0 in row 3 alone, and not 1 OR 2 OR 3.
#[test]
fn fanins_not_turned_over() {
    let sheet = line(&[99, 2]) + &gate(1, &[1, 2]) + &gate(2, &[-10001, 3]);
    right_and_wrong(3, &sheet, &[table(99, &[1, 2, 3], 247)], &[table(99, &[1, 2, 3], 254)]);
}

#[test]
fn the_output_inversion_lost() {
    let sheet = line(&[-99, 2]) + &gate(1, &[1, 2]) + &gate(1, &[10001, 3]);
    right_and_wrong(3, &sheet, &[table(99, &[1, 2, 3], 127)], &[table(99, &[1, 2, 3], 128)]);
}

/// How many of the lists are turned down that a mapper makes of generated inputs which are accepted; `joined` is what it covers of a sheet.
fn turned_down(joined: impl Fn(&Sheet) -> Sheet) -> usize {
    let wrong = |index: &u64| {
        let input = case(4, *index).input;
        let Ok(accepted) = read(&input) else { return false };
        let mut tables = Vec::new();
        for sheet in &accepted.sheets {
            cover::add(&joined(sheet), accepted.k, &mut tables);
        }
        check_list(&input, list(accepted.k, accepted.capacity, &tables).as_bytes()).is_err()
    };
    (0..2000).filter(wrong).count()
}

fn turned_down_by(rule: &Rule) -> usize {
    turned_down(|sheet| nested::sheet(rule.join(nested::tree(sheet)), sheet))
}

/// The generated inputs find each of these mappers out.
#[test]
fn wrong_joins_of_generated_inputs() {
    assert_eq!(turned_down_by(&RIGHT), 0);
    let wrong = [
        Rule { most: 0, ..RIGHT },
        Rule { most: 9, ..RIGHT },
        Rule { most: 11, ..RIGHT },
        Rule { chained: |upper, lower, inverted| upper == lower || inverted, ..RIGHT },
        Rule { chained: |upper, lower, inverted| upper == lower && !inverted, ..RIGHT },
        Rule { turned: false, ..RIGHT },
    ];
    let mut counts: Vec<usize> = wrong.iter().map(turned_down_by).collect();
    counts.push(turned_down(|sheet| {
        let joined = nested::sheet(RIGHT.join(nested::tree(sheet)), sheet);
        Sheet { inverted: sheet.inverted && joined.gates.len() == sheet.gates.len(), ..joined }
    }));
    assert!(counts.iter().all(|&count| count >= 20), "{counts:?}");
}
