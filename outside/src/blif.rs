//! An input and its list as two networks in BLIF, which berkeley-abc's `cec` compares.

use std::fmt::Write;

use crate::list;
use crate::part::Table;
use crate::program;
use crate::sheet::{Kind, Sheet, Source};
use crate::{CODES, NETS};

/// The network as drawn and the network as mapped, with the same inputs (the free nets) and outputs (the nets driven).
pub fn networks(input: &[u8], list: &[u8]) -> Result<(String, String), String> {
    let accepted = program::read(input).map_err(|refusal| format!("the input is refused: {}", refusal.number))?;
    let part = list::read(list).map_err(|fault| fault.to_string())?;
    let mut read = vec![false; NETS as usize + 1];
    for net in accepted.sheets.iter().flat_map(Sheet::leaves) {
        read[usize::from(net)] = true;
    }
    for sheet in &accepted.sheets {
        read[usize::from(sheet.net)] = false;
    }
    let free: String = (1..read.len()).filter(|&net| read[net]).map(|net| format!(" n{net}")).collect();
    let driven: String = accepted.sheets.iter().map(|sheet| format!(" n{}", sheet.net)).collect();
    let network = |body: String| format!(".model network\n.inputs{free}\n.outputs{driven}\n{body}.end\n");
    let gates = accepted.sheets.iter().enumerate().map(|(index, sheet)| gates(index + 1, sheet)).collect();
    let tables = part.tables.iter().enumerate().map(|(index, table)| table_names(index + 1, table)).collect();
    Ok((network(gates), network(tables)))
}

/// Each gate as a node of its own, and the output net from the root.
fn gates(number: usize, sheet: &Sheet) -> String {
    let mut body = String::new();
    for (index, gate) in sheet.gates.iter().enumerate() {
        let names = gate.fanins.iter().map(|edge| match edge.source {
            Source::Net(net) => format!(" n{net}"),
            Source::Gate(gate) => format!(" s{number}g{}", gate + 1),
        });
        writeln!(body, ".names{} s{number}g{}", names.collect::<String>(), index + 1).unwrap();
        let wanted: Vec<char> = gate.fanins.iter().map(|edge| if edge.inverted { '0' } else { '1' }).collect();
        match gate.kind {
            Kind::And => writeln!(body, "{} 1", wanted.iter().collect::<String>()).unwrap(),
            Kind::Or => {
                for place in 0..wanted.len() {
                    let row = (0..wanted.len()).map(|other| if other == place { wanted[place] } else { '-' });
                    writeln!(body, "{} 1", row.collect::<String>()).unwrap();
                }
            }
        }
    }
    let root = if sheet.inverted { '0' } else { '1' };
    writeln!(body, ".names s{number}g{} n{}\n{root} 1", sheet.gates.len(), sheet.net).unwrap();
    body
}

/// A table as a node: a row for each input setting at which it is 1.
fn table_names(number: usize, table: &Table) -> String {
    let name = |code: u16| match usize::from(code).checked_sub(CODES as usize) {
        Some(other) => format!("t{other}"),
        None => format!("n{code}"),
    };
    let inputs: String = table.inputs.iter().map(|&input| format!(" {}", name(input))).collect();
    let output = if table.net == 0 { format!("t{number}") } else { name(table.net) };
    let mut body = format!(".names{inputs} {output}\n");
    for index in (0..1usize << table.inputs.len()).filter(|index| table.truth >> index & 1 == 1) {
        let row = (0..table.inputs.len()).map(|place| if index >> place & 1 == 1 { '1' } else { '0' });
        writeln!(body, "{} 1", row.collect::<String>()).unwrap();
    }
    body
}
