//! Texts in fields of six, for the tests.
#![allow(dead_code)]

pub mod fast_ways;
pub mod nested;
pub mod reservations;
pub mod sets;
pub mod ways;

use outside::refusal::Refusal;
use outside::sheet::{read_only, Sheet};

/// 01's list, which has one table for each sheet, so that nothing is left free.
pub const LIST: &str = "     4     8     2
     1    20     4     1     2     3     4                61152
     2    21     2     5    20                   11
";

/// One line of fields.
pub fn line(fields: &[i64]) -> String {
    fields.iter().map(|field| format!("{field:>6}")).collect::<String>() + "\n"
}

/// A table line of a list.
pub fn table(t: i64, net: i64, inputs: &[i64], truth: &str) -> String {
    let fields = line(&[&[t, net, inputs.len() as i64], inputs].concat());
    format!("{}{truth:>21}\n", fields.trim_end_matches('\n'))
}

/// A text of lines of fields.
pub fn text(lines: &[&[i64]]) -> String {
    lines.iter().map(|fields| line(fields)).collect()
}

/// The input of one sheet.
pub fn input(k: i64, capacity: i64, sheet: &str) -> String {
    line(&[k, capacity]) + sheet
}

/// A sheet that is one gate over the given fanins.
pub fn one_gate(net: i64, kind: i64, fanins: &[i64]) -> String {
    line(&[net, 1]) + &gate(kind, fanins)
}

pub fn gate(kind: i64, fanins: &[i64]) -> String {
    line(&[&[kind, fanins.len() as i64], fanins].concat())
}

/// The kinds of gates, as they are written.
pub const AND: i64 = 1;
pub const OR: i64 = 2;

/// The text of the sheet of these gates, net 9999 its output: gate g is the fanin 10000 + g.
pub fn sheet_text(gates: &[(i64, &[i64])]) -> String {
    let lines: String = gates.iter().map(|(kind, fanins)| gate(*kind, fanins)).collect();
    line(&[9999, gates.len() as i64]) + &lines
}

/// That sheet, read.
pub fn sheet(gates: &[(i64, &[i64])]) -> Sheet {
    read_only(sheet_text(gates).as_bytes()).expect("a sheet")
}

/// These nets, or gates.
pub fn nets(first: i64, last: i64) -> Vec<i64> {
    (first..=last).collect()
}

/// A chain of gates of two fanins over nets 1 up, as text.
pub fn chain(net: u16, gates: usize) -> String {
    outside::samples::chain(net, 1, gates, 2).text()
}

pub fn refused(input: &str) -> Refusal {
    outside::program::read(input.as_bytes()).expect_err("a refusal")
}
