//! The five points of a sound part, each broken by hand: the list of a sound part is read back, and that of no other.

use outside::list;
use outside::part::{Part, Table};

fn table(net: u16, inputs: &[u16], truth: u64) -> Table {
    Table { net, inputs: inputs.to_vec(), truth }
}

fn sound(k: usize, capacity: usize, tables: &[Table]) -> bool {
    let part = Part { k, capacity, tables: tables.to_vec() };
    match list::read(part.list().as_bytes()) {
        Ok(read) => {
            assert_eq!(read, part);
            true
        }
        Err(_) => false,
    }
}

#[test]
fn ranges() {
    assert!(sound(2, 1, &[]) && sound(6, 800, &[]));
    assert!(!sound(1, 1, &[]) && !sound(7, 1, &[]) && !sound(2, 0, &[]) && !sound(2, 801, &[]));
    let two = [table(9, &[1, 2], 8), table(8, &[1, 2], 8)];
    assert!(sound(2, 2, &two) && !sound(2, 1, &two));
}

#[test]
fn one_record() {
    assert!(sound(4, 8, &[table(0, &[1, 2], 15)]));
    assert!(!sound(4, 8, &[table(0, &[1, 2], 16)]));
    assert!(sound(4, 8, &[table(9999, &[1, 2, 3, 4], 65535)]));
    assert!(!sound(4, 8, &[table(9999, &[1, 2, 3, 4], 65536)]));
    assert!(sound(6, 8, &[table(0, &[1, 2, 3, 4, 5, 6], u64::MAX)]));
    assert!(!sound(5, 8, &[table(0, &[1, 2, 3, 4, 5, 6], 1)]));
    assert!(!sound(4, 8, &[table(10000, &[1, 2], 8)]));
    assert!(!sound(4, 8, &[table(0, &[1], 1)]));
    assert!(!sound(4, 8, &[table(0, &[], 0)]));
    assert!(!sound(4, 8, &[table(0, &[2, 1], 8)]));
    assert!(!sound(4, 8, &[table(0, &[1, 1], 8)]));
    assert!(!sound(4, 8, &[table(0, &[0, 1], 8)]));
    assert!(!sound(4, 8, &[table(0, &[1, 10000], 8)]));
}

#[test]
fn table_inputs() {
    assert!(sound(4, 8, &[table(0, &[1, 2], 8), table(0, &[1, 10001], 8)]));
    assert!(!sound(4, 8, &[table(9, &[1, 2], 8), table(0, &[1, 10001], 8)]));
    assert!(!sound(4, 8, &[table(0, &[1, 10001], 8)]));
    assert!(!sound(4, 8, &[table(0, &[1, 10002], 8), table(0, &[1, 2], 8)]));
    let mut full = vec![table(0, &[1, 2], 8); 799];
    for (input, good) in [(9999, true), (10000, false), (10001, true), (10799, true), (10800, false), (10801, false), (65535, false)] {
        full.push(table(0, &[1, input], 8));
        assert_eq!(sound(4, 800, &full), good, "{input}");
        full.pop();
    }
}

#[test]
fn nets() {
    assert!(sound(4, 8, &[table(9, &[1, 2], 8), table(8, &[1, 9], 8)]));
    assert!(!sound(4, 8, &[table(9, &[1, 2], 8), table(9, &[3, 4], 8)]));
    assert!(!sound(4, 8, &[table(9, &[1, 9], 8)]));
    assert!(!sound(4, 8, &[table(8, &[1, 9], 8), table(9, &[1, 2], 8)]));
    assert!(sound(4, 8, &[table(0, &[1, 2], 8), table(0, &[1, 2], 8)]));
}
