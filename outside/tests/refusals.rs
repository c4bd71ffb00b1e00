//! Each refusal with its place, and each pair of faults whose order 01 settles.

mod common;

use common::{chain, gate, input, line, one_gate, refused, text};
use outside::program::{print, read};
use outside::refusal::Refusal;
use outside::sheet::{read_only, Fault};

/// Reads `sheet` as the first of a part of K 4 and capacity 8.
fn refuses(sheet: &str, number: u32, place: usize) {
    assert_eq!(refused(&input(4, 8, sheet)), Refusal::new(number, 1, place), "{sheet}");
}

/// The same, for a text lent as one sheet.
fn refuses_lent(sheet: &str, number: u32, line: usize) {
    assert_eq!(read_only(sheet.as_bytes()), Err(Fault { number, line }), "{sheet}");
}

#[test]
fn the_printed_line() {
    assert_eq!(print(b""), "    -1     0     0\n");
    assert_eq!(print(input(2, 1, &one_gate(99, 1, &[1, 2, 3])).as_bytes()), "   -23     1     0\n");
    assert_eq!(print(input(2, 1, &one_gate(99, 3, &[1, 2, 3])).as_bytes()), "    -6     1     2\n");
}

#[test]
fn the_opening_line() {
    let bad = Refusal::new(1, 0, 0);
    for opening in
        ["", "\n", "     4     8", "     4\n", "     4     8     1\n", "     4    08\n", "     4   8 \n", "     4    +8\n", "    4     8\n"]
    {
        assert_eq!(refused(opening), bad, "{opening:?}");
    }
    for (k, capacity, number) in [(1, 0, 2), (7, 801, 2), (2, 0, 3), (6, 801, 3), (-4, 8, 2), (4, -8, 3), (0, 8, 2)] {
        assert_eq!(refused(&line(&[k, capacity])), Refusal::new(number, 0, 0));
    }
    for (k, capacity) in [(2, 1), (6, 800), (4, 8)] {
        assert_eq!(print(line(&[k, capacity]).as_bytes()), format!("{k:>6}{capacity:>6}     0\n"));
    }
    assert_eq!(refused("     1     8     1\n"), bad, "the layout comes before K");
    assert_eq!(refused("     1     x\n"), bad, "the layout comes before K");
    assert_eq!(refused(&input(1, 8, "bad\n")), Refusal::new(2, 0, 0), "the opening line comes before the sheets");
}

#[test]
fn fields() {
    let with = |field: &str| input(4, 8, &format!("    99     1\n     1     2{field}     7\n"));
    for good in ["     1", "    -1", "  1001", " -1255", "  9999", " -9999"] {
        assert!(read(with(good).as_bytes()).is_ok(), "{good:?}");
    }
    for bad in [
        "      ", "     -", "    01", "   -01", "    -0", "    00", "1     ", "   1  ", "    +1", "   - 1", "\t    1", "    1\r",
        "    1\0", "   1.0", "  0x01", "    1-",
    ] {
        assert_eq!(refused(&with(bad)), Refusal::new(1, 1, 2), "{bad:?}");
    }
    for out in ["     0", " 10000", "-10000", " 10001", "-10001", " 10255", "-10255", " 10256", "-10256", "999999", "-99999"] {
        assert_eq!(refused(&with(out)), Refusal::new(8, 1, 2), "{out:?}");
    }
}

#[test]
fn lines() {
    refuses("\n", 1, 1);
    refuses("    99\n", 1, 1);
    refuses("    99     1     1\n", 1, 1);
    refuses("    99     1", 1, 1);
    refuses("    99     1\n", 1, 2);
    refuses("    99     1\n\n", 1, 2);
    refuses("    99     1\n     1\n", 1, 2);
    refuses("    99     1\n     3\n", 1, 2);
    refuses("    99     1\n     1     2     1     2", 1, 2);
    refuses("    99     1\n     1     2     1    2\n", 1, 2);
    refuses("    99     2\n     1     2     1     2\n", 1, 3);
    refuses("    99     1\n     1     2     1\n", 1, 2);
    refuses("    99     1\n     1     2     1     2     3\n", 1, 2);
    refuses(&format!("    99     1\n{}\n", "     1".repeat(13)), 1, 2);
    refuses(&format!("    99     1\n     1     2     1     2{}\n", " ".repeat(60)), 1, 2);
}

#[test]
fn line_one() {
    for net in [0, 10000, -10000, 10001, -10001, 999999] {
        refuses(&line(&[net, 1]), 4, 1);
    }
    for gates in [0, 256, -1, 999999] {
        refuses(&line(&[99, gates]), 5, 1);
    }
    refuses(&line(&[0, 0]), 4, 1);
    refuses("     0    -0\n", 1, 1);
}

#[test]
fn kind_and_fanin_count() {
    for kind in [0, 3, -1, -2, 12] {
        refuses(&one_gate(99, kind, &[1, 2]), 6, 2);
    }
    for count in [0, 1, 11, -2] {
        refuses(&text(&[&[99, 1], &[1, count, 1, 2]]), 7, 2);
    }
    refuses(&text(&[&[99, 1], &[3, 1, 1, 2]]), 6, 2);
    refuses(&text(&[&[99, 1], &[1, 11, 0, 0]]), 7, 2);
    refuses(&text(&[&[99, 1], &[1, 3, 0, 0]]), 1, 2);
    refuses("    99     1\n     3    11     0    -0\n", 1, 2);
}

#[test]
fn fanins() {
    let two = line(&[99, 3]) + &gate(1, &[1, 2]);
    refuses(&(two.clone() + &gate(1, &[10002, 3])), 8, 3);
    refuses(&(two.clone() + &gate(1, &[10003, 3])), 8, 3);
    refuses(&(two.clone() + &gate(1, &[10001, -10001])), 9, 3);
    refuses(&(two.clone() + &gate(1, &[3, 4]) + &gate(1, &[10001, 10002, 10001])), 9, 4);
    refuses(&(two.clone() + &gate(1, &[10001, -2])), 10, 3);
    refuses(&(two.clone() + &gate(1, &[3, 3])), 10, 3);
    refuses(&(two.clone() + &gate(1, &[10001, -99])), 11, 3);
    refuses(&one_gate(-99, 1, &[1, 99]), 11, 2);
    refuses(&(two.clone() + &gate(1, &[0, 1])), 8, 3);
    refuses(&(two.clone() + &gate(1, &[1, 0])), 10, 3);
    refuses(&(two.clone() + &gate(1, &[99, 1])), 11, 3);
    refuses(&(two + &gate(1, &[99, 10001, 10001])), 11, 3);
    refuses(&one_gate(99, 1, &[99, 99]), 11, 2);
}

/// A chain with 255 leaves at gates 1 to 254, and a last gate.
fn last_gate(fanins: &[i64]) -> String {
    let full = chain(9999, 254).replace("  9999   254\n", "  9999   255\n");
    full + &gate(1, fanins)
}

#[test]
fn the_257th_leaf() {
    assert!(read(input(6, 800, &last_gate(&[10254, 500])).as_bytes()).is_ok());
    refuses(&last_gate(&[10254, 500, 501]), 12, 256);
    refuses(&last_gate(&[500, 501, 0]), 12, 256);
    refuses(&last_gate(&[500, 0, 501]), 8, 256);
    refuses(&last_gate(&[500, 500]), 10, 256);
    refuses(&last_gate(&[500, -1]), 10, 256);
    refuses(&last_gate(&[500, 9999]), 11, 256);
    refuses(&last_gate(&[500, -9999]), 11, 256);
}

#[test]
fn a_gate_never_read() {
    let sheet = text(&[&[99, 3], &[1, 2, 1, 2], &[1, 2, 3, 4], &[1, 2, 5, 6]]);
    refuses(&sheet, 13, 2);
    let second = text(&[&[99, 3], &[1, 2, 1, 2], &[1, 2, 3, 4], &[1, 2, 10001, 6]]);
    refuses(&second, 13, 3);
    refuses_lent(&second, 13, 3);
    refuses_lent(&(second.clone() + " "), 1, 5);
    refuses_lent(&(second.clone() + "\n"), 1, 5);
    refuses(&(second.clone() + " "), 13, 3);
    refuses(&second[..second.len() - 1], 1, 4);
    refuses(&text(&[&[99, 3], &[1, 2, 1, 2], &[1, 2, 3, 4], &[1, 2, 5, 5]]), 10, 4);
}

#[test]
fn bytes_after_a_sheet() {
    let sheet = one_gate(99, 1, &[1, 2]);
    refuses_lent(&(sheet.clone() + "x"), 1, 3);
    refuses_lent(&(sheet.clone() + &one_gate(98, 1, &[1, 2])), 1, 3);
    assert_eq!(refused(&input(4, 8, &(sheet.clone() + "\n"))), Refusal::new(1, 2, 1));
    assert!(read(input(4, 8, &(sheet + &one_gate(98, 1, &[1, 2]))).as_bytes()).is_ok());
}

/// The second of two sheets, after `99 = AND(1, 2)`.
fn refuses_second(capacity: i64, sheet: &str, number: u32, place: usize) {
    let text = input(2, capacity, &(one_gate(99, 1, &[1, 2]) + sheet));
    assert_eq!(refused(&text), Refusal::new(number, 2, place), "{sheet}");
}

#[test]
fn the_part() {
    refuses_second(8, &one_gate(99, 1, &[3, 4]), 21, 0);
    refuses_second(8, &one_gate(-99, 1, &[3, 4]), 21, 0);
    refuses_second(8, &one_gate(1, 1, &[3, 4]), 22, 0);
    refuses_second(8, &one_gate(-2, 1, &[99, 4]), 22, 0);
    refuses_second(1, &one_gate(3, 1, &[4, 5]), 23, 0);
    refuses_second(2, &one_gate(3, 1, &[4, 5, 6]), 23, 0);
    refuses_second(1, &one_gate(99, 1, &[3, 4]), 21, 0);
    refuses_second(1, &one_gate(1, 1, &[3, 4]), 22, 0);
    refuses_second(1, &one_gate(99, 1, &[99, 4]), 11, 2);
    refuses_second(1, &text(&[&[99, 2], &[1, 2, 3, 4], &[1, 2, 5, 6]]), 13, 2);
    refuses_second(1, &text(&[&[99, 2], &[1, 2, 3, 4]]), 1, 3);
}

/// Net 99 is driven by the first sheet and read by the second: 21 comes before 22.
#[test]
fn driven_and_read() {
    let sheets = one_gate(99, 1, &[1, 2]) + &one_gate(98, 1, &[99, 3]) + &one_gate(99, 1, &[4, 5]);
    assert_eq!(refused(&input(4, 8, &sheets)), Refusal::new(21, 3, 0));
}

#[test]
fn the_first_refusal_ends_the_reading() {
    let sheets = one_gate(99, 1, &[1, 2, 3]) + "bad";
    assert_eq!(refused(&input(2, 1, &sheets)), Refusal::new(23, 1, 0));
    assert_eq!(refused(&input(2, 2, &sheets)), Refusal::new(1, 2, 1));
    refuses(&(line(&[99, 2]) + &gate(3, &[1, 2]) + "bad"), 6, 2);
    refuses(&(line(&[99, 2]) + &gate(1, &[1, 1]) + "bad"), 10, 2);
    refuses(&(line(&[99, 2]) + &gate(1, &[1, 2]) + "bad"), 1, 3);
}
