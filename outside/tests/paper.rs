//! 01's example and its panels worked by hand, with what 02's requests changed.

mod common;

use common::{chain, gate, input, line, one_gate, refused, text};
use outside::check::{check_list, check_output};
use outside::program::{map, print, read};
use outside::refusal::Refusal;

const INPUT: &str = "     4     8
    20     3
     2     2     1     2
     2     2     3     4
     1     2 10001 10002
   -21     1
     1     2    20    -5
";

const PRINTED: &str = "     4     8     2
     1    20     4     1     2     3     4                61152
     2    21     2     5    20                   11
";

#[test]
fn the_example() {
    assert_eq!(print(INPUT.as_bytes()), PRINTED);
    assert_eq!(check_list(INPUT.as_bytes(), PRINTED.as_bytes()), Ok(()));
    assert_eq!(check_output(INPUT.as_bytes(), PRINTED.as_bytes()), Ok(()));
}

/// 01's example as 01 prints it, in the codes from before request 102: 1001 and 1002 are nets, so that gate 1, on line 2, is never read.
#[test]
fn the_example_in_old_codes() {
    let old = INPUT.replace(" 10001 10002", "  1001  1002");
    assert_ne!(old, INPUT);
    assert_eq!(refused(&old), Refusal::new(13, 1, 2));
    assert_eq!(
        print(&input(2, 8, &one_gate(20, 1, &[1001, -1000])).into_bytes()),
        "     2     8     1\n     1    20     2  1000  1001                    4\n"
    );
}

/// Every other byte in place of any byte of the example's list, and every cut and every added byte, is found.
#[test]
fn the_example_changed() {
    for at in 0..PRINTED.len() {
        for byte in (b'0'..=b'9').chain(*b" -\n") {
            let mut other = PRINTED.as_bytes().to_vec();
            other[at] = byte;
            assert_eq!(check_list(INPUT.as_bytes(), &other).is_ok(), other == PRINTED.as_bytes(), "byte {at} as {byte}");
        }
        assert!(check_list(INPUT.as_bytes(), &PRINTED.as_bytes()[..at]).is_err());
    }
    assert!(check_list(INPUT.as_bytes(), format!("{PRINTED}\n").as_bytes()).is_err());
    assert!(check_list(INPUT.as_bytes(), format!("{PRINTED} ").as_bytes()).is_err());
}

/// How many tables one sheet takes.
fn tables(k: i64, sheet: &str) -> usize {
    let input = input(k, 800, sheet);
    let accepted = read(input.as_bytes()).expect("accepted");
    assert_eq!(check_list(input.as_bytes(), print(input.as_bytes()).as_bytes()), Ok(()));
    accepted.least[0]
}

fn truth(k: i64, sheet: &str) -> Vec<u64> {
    let part = map(input(k, 800, sheet).as_bytes()).expect("accepted");
    part.tables.iter().map(|table| table.truth).collect()
}

#[test]
fn one_table() {
    assert_eq!(truth(2, &one_gate(9, 1, &[1, -2])), [2]);
    assert_eq!(truth(2, &one_gate(-9, 1, &[1, -2])), [13]);
}

#[test]
fn one_wide_and() {
    let ten: Vec<i64> = (1..=10).collect();
    assert_eq!(tables(2, &one_gate(99, 1, &ten[..5])), 4);
    assert_eq!(tables(5, &one_gate(99, 1, &ten)), 3);
    assert_eq!(tables(6, &one_gate(99, 1, &ten)), 2);
}

#[test]
fn and_of_two_ors() {
    let sheet = line(&[99, 3]) + &gate(2, &[1, 2]) + &gate(2, &[3, 4]) + &gate(1, &[10001, 10002]);
    assert_eq!(tables(4, &sheet), 1);
    assert_eq!(truth(4, &sheet), [61152]);
    assert_eq!(tables(3, &sheet), 2);
}

#[test]
fn or_of_an_and_of_five_and_two_leaves() {
    let sheet = line(&[99, 2]) + &gate(1, &[1, 2, 3, 4, 5]) + &gate(2, &[10001, 6, 7]);
    assert_eq!(tables(4, &sheet), 2);
}

#[test]
fn or_of_five_ands() {
    let ands = [gate(1, &[1, 2, 3]), gate(1, &[4, 5]), gate(1, &[6, 7]), gate(1, &[8, 9]), gate(1, &[10, 11])].concat();
    let sheet = line(&[99, 6]) + &ands + &gate(2, &[10001, 10002, 10003, 10004, 10005]);
    assert_eq!(tables(5, &sheet), 3);
    assert_eq!(tables(4, &sheet), 4);
}

/// From request 104 on the three ANDs are joined: two tables. The three ORs stay at three.
#[test]
fn and_of_three_gates() {
    for (kind, least) in [(1, 2), (2, 3)] {
        let three = [gate(kind, &[1, 2, 3]), gate(kind, &[4, 5, 6]), gate(kind, &[7, 8, 9])].concat();
        let sheet = line(&[99, 4]) + &three + &gate(1, &[10001, 10002, 10003]);
        assert_eq!(tables(5, &sheet), least);
    }
}

#[test]
fn the_longest_chain() {
    let sheet = chain(9999, 255);
    assert_eq!(tables(6, &sheet), 51);
    assert_eq!(tables(2, &sheet), 255);
}

#[test]
fn a_full_part() {
    let input = outside::samples::full_part();
    let list = print(input.as_bytes());
    assert!(list.starts_with("     6   800   800\n"));
    assert_eq!(check_list(input.as_bytes(), list.as_bytes()), Ok(()));
}

#[test]
fn the_opening() {
    for k in [1, 7] {
        assert_eq!(refused(&text(&[&[k, 8]])), Refusal::new(2, 0, 0));
    }
    for capacity in [0, 801] {
        assert_eq!(refused(&text(&[&[4, capacity]])), Refusal::new(3, 0, 0));
    }
}

#[test]
fn an_empty_sheet() {
    let fault = outside::sheet::read_only(b"").expect_err("a refusal");
    assert_eq!((fault.number, fault.line), (1, 1));
}

#[test]
fn eleven_fanins() {
    let eleven = one_gate(99, 1, &[1, 2, 3, 4, 5, 6, 7, 8, 9, 10]).replace("     1    10     1", "     1    11     1");
    assert_eq!(refused(&input(4, 8, &eleven)), Refusal::new(7, 1, 2));
}

#[test]
fn what_is_left() {
    let sheet = one_gate(99, 1, &[1, 2, 3]);
    assert_eq!(tables(2, &sheet), 2);
    assert_eq!(map(input(2, 2, &sheet).as_bytes()).expect("accepted").tables.len(), 2);
    assert_eq!(refused(&input(2, 1, &sheet)), Refusal::new(23, 1, 0));
    let three_left = input(2, 3, &(one_gate(98, 1, &[5, 6]) + &sheet));
    assert!(read(three_left.as_bytes()).is_ok());
    let two_left = input(2, 2, &(one_gate(98, 1, &[5, 6]) + &sheet));
    assert_eq!(refused(&two_left), Refusal::new(23, 2, 0));
}
