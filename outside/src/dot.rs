//! Drawings in Graphviz's language: of a list's tables, or of an input's gates.

use std::fmt::Write;

use crate::list;
use crate::part::Part;
use crate::program;
use crate::sheet::{Edge, Kind, Sheet, Source};
use crate::CODES;

/// The drawing of a list, or of an input that is accepted.
pub fn draw(text: &[u8]) -> Result<String, String> {
    let body = match (list::read(text), program::read(text)) {
        (Ok(part), _) => tables(&part),
        (_, Ok(accepted)) => accepted.sheets.iter().enumerate().map(|(index, sheet)| gates(index + 1, sheet)).collect(),
        (Err(fault), Err(refusal)) => return Err(format!("no list ({fault}), and no accepted input (refusal {})", refusal.number)),
    };
    Ok(format!("digraph {{\n  rankdir=LR;\n  node [fontname=\"sans-serif\"];\n{body}}}\n"))
}

/// A box for each table, with its number and truth table; an ellipse for each net.
fn tables(part: &Part) -> String {
    let mut body = String::new();
    for (index, table) in part.tables.iter().enumerate() {
        let number = index + 1;
        let digits = (1usize << table.inputs.len()).div_ceil(4);
        writeln!(body, "  t{number} [shape=box, label=\"table {number}\\n{:0digits$x}\"];", table.truth).unwrap();
        for &input in &table.inputs {
            match usize::from(input).checked_sub(CODES as usize) {
                Some(other) => writeln!(body, "  t{other} -> t{number};").unwrap(),
                None => writeln!(body, "  {input} -> t{number};").unwrap(),
            }
        }
        if table.net != 0 {
            writeln!(body, "  t{number} -> {};", table.net).unwrap();
        }
    }
    body
}

/// A box for each gate, with its kind; an ellipse for each net; a ring at the end of an inverted edge.
fn gates(number: usize, sheet: &Sheet) -> String {
    let mut body = String::new();
    let name = |gate: usize| format!("s{number}g{}", gate + 1);
    let end = |inverted: bool| if inverted { " [arrowhead=odot]" } else { "" };
    for (index, gate) in sheet.gates.iter().enumerate() {
        let kind = if gate.kind == Kind::And { "AND" } else { "OR" };
        writeln!(body, "  {} [shape=box, label=\"{kind}\"];", name(index)).unwrap();
        for Edge { inverted, source } in &gate.fanins {
            let source = match source {
                Source::Net(net) => net.to_string(),
                Source::Gate(gate) => name(*gate),
            };
            writeln!(body, "  {source} -> {}{};", name(index), end(*inverted)).unwrap();
        }
    }
    writeln!(body, "  {} -> {}{};", name(sheet.gates.len() - 1), sheet.net, end(sheet.inverted)).unwrap();
    body
}
