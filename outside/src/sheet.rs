//! Sheets and their strict reader (01, "Sheet" and "Turned down because of the input").

use crate::text;
use crate::{CODES, FANINS, GATES, LEAVES, NETS};

#[derive(Clone, Copy, Debug, PartialEq, Eq)]
pub enum Kind {
    And,
    Or,
}

/// What a fanin reads: a net, or a gate by its index from 0.
#[derive(Clone, Copy, Debug, PartialEq, Eq)]
pub enum Source {
    Net(u16),
    Gate(usize),
}

#[derive(Clone, Copy, Debug, PartialEq, Eq)]
pub struct Edge {
    pub inverted: bool,
    pub source: Source,
}

#[derive(Clone, Debug, PartialEq, Eq)]
pub struct Gate {
    pub kind: Kind,
    pub fanins: Vec<Edge>,
}

#[derive(Clone, Debug, PartialEq, Eq)]
pub struct Sheet {
    pub net: u16,
    pub inverted: bool,
    pub gates: Vec<Gate>,
}

/// A refusal of a sheet: 01's number and the sheet's line, from 1.
#[derive(Clone, Copy, Debug, PartialEq, Eq)]
pub struct Fault {
    pub number: u32,
    pub line: usize,
}

impl Sheet {
    /// The nets at the leaves, in the order of the sheet's text.
    pub fn leaves(&self) -> Vec<u16> {
        let edges = self.gates.iter().flat_map(|gate| &gate.fanins);
        edges
            .filter_map(|edge| match edge.source {
                Source::Net(net) => Some(net),
                Source::Gate(_) => None,
            })
            .collect()
    }

    /// The sheet as text.
    pub fn text(&self) -> String {
        let sign = |inverted: bool, size: usize| if inverted { -(size as i64) } else { size as i64 };
        let mut text = format!("{:>6}{:>6}\n", sign(self.inverted, self.net.into()), self.gates.len());
        for gate in &self.gates {
            let kind = if gate.kind == Kind::And { 1 } else { 2 };
            text += &format!("{:>6}{:>6}", kind, gate.fanins.len());
            for edge in &gate.fanins {
                let size = match edge.source {
                    Source::Net(net) => net.into(),
                    Source::Gate(gate) => CODES as usize + gate + 1,
                };
                text += &format!("{:>6}", sign(edge.inverted, size));
            }
            text.push('\n');
        }
        text
    }

    /// The value of the output net, 64 settings at a time: `values` gives each net's.
    pub fn value(&self, values: impl Fn(u16) -> u64) -> u64 {
        let mut gates: Vec<u64> = Vec::with_capacity(self.gates.len());
        for gate in &self.gates {
            let fanins = gate.fanins.iter().map(|edge| {
                let value = match edge.source {
                    Source::Net(net) => values(net),
                    Source::Gate(gate) => gates[gate],
                };
                if edge.inverted {
                    !value
                } else {
                    value
                }
            });
            let value = match gate.kind {
                Kind::And => fanins.fold(!0, |all, value| all & value),
                Kind::Or => fanins.fold(0, |any, value| any | value),
            };
            gates.push(value);
        }
        let root = gates[gates.len() - 1];
        if self.inverted {
            !root
        } else {
            root
        }
    }
}

/// Reads a text that is one sheet: bytes after its last line are refused.
pub fn read_only(text: &[u8]) -> Result<Sheet, Fault> {
    let (sheet, rest) = read_lines(text)?;
    if !rest.is_empty() {
        return Err(Fault { number: 1, line: sheet.gates.len() + 2 });
    }
    all_read(&sheet)?;
    Ok(sheet)
}

/// Reads the sheet at the front of `text`, and gives the bytes after it.
pub fn read_next(text: &[u8]) -> Result<(Sheet, &[u8]), Fault> {
    let (sheet, rest) = read_lines(text)?;
    all_read(&sheet)?;
    Ok((sheet, rest))
}

/// Refusal 13.
fn all_read(sheet: &Sheet) -> Result<(), Fault> {
    let mut read = vec![false; sheet.gates.len()];
    for edge in sheet.gates.iter().flat_map(|gate| &gate.fanins) {
        if let Source::Gate(gate) = edge.source {
            read[gate] = true;
        }
    }
    read.pop();
    match read.iter().position(|&read| !read) {
        Some(gate) => Err(Fault { number: 13, line: gate + 2 }),
        None => Ok(()),
    }
}

/// What the lines read so far leave for the next.
struct Reader {
    net: u16,
    /// Whether each net stands at a leaf.
    nets: [bool; NETS as usize + 1],
    leaves: usize,
    /// Whether each gate so far is read.
    gates: Vec<bool>,
}

fn read_lines(text: &[u8]) -> Result<(Sheet, &[u8]), Fault> {
    let (head, mut rest) = laid_out(text, 1)?;
    let &[net, count] = &head[..] else { return Err(Fault { number: 1, line: 1 }) };
    if !(1..=NETS).contains(&net.abs()) {
        return Err(Fault { number: 4, line: 1 });
    }
    if !(1..=GATES as i64).contains(&count) {
        return Err(Fault { number: 5, line: 1 });
    }
    let mut sheet = Sheet { net: net.unsigned_abs() as u16, inverted: net < 0, gates: Vec::new() };
    let mut reader = Reader { net: sheet.net, nets: [false; NETS as usize + 1], leaves: 0, gates: Vec::new() };
    for line in 2..2 + count as usize {
        let (fields, after) = laid_out(rest, line)?;
        rest = after;
        let gate = reader.gate(&fields).map_err(|number| Fault { number, line })?;
        sheet.gates.push(gate);
    }
    Ok((sheet, rest))
}

/// The fields of the line at the front of `text`, and the bytes after it; where that fails, refusal 1 at `line`.
fn laid_out(text: &[u8], line: usize) -> Result<(Vec<i64>, &[u8]), Fault> {
    let found = text::split_line(text).and_then(|(line, rest)| Some((text::fields(line)?, rest)));
    found.ok_or(Fault { number: 1, line })
}

impl Reader {
    /// One gate line, or the number of its refusal.
    fn gate(&mut self, fields: &[i64]) -> Result<Gate, u32> {
        let &[kind, count, ref fanins @ ..] = fields else { return Err(1) };
        let kind = match kind {
            1 => Kind::And,
            2 => Kind::Or,
            _ => return Err(6),
        };
        if !(2..=FANINS as i64).contains(&count) {
            return Err(7);
        }
        if fanins.len() as i64 != count {
            return Err(1);
        }
        let fanins = fanins.iter().map(|&field| self.fanin(field)).collect::<Result<Vec<Edge>, u32>>()?;
        self.gates.push(false);
        Ok(Gate { kind, fanins })
    }

    fn fanin(&mut self, field: i64) -> Result<Edge, u32> {
        let size = field.abs();
        let earlier = CODES + self.gates.len() as i64;
        let source = if (1..=NETS).contains(&size) {
            self.leaf(size as u16)?
        } else if (CODES + 1..=earlier).contains(&size) {
            self.earlier_gate((size - CODES - 1) as usize)?
        } else {
            return Err(8);
        };
        Ok(Edge { inverted: field < 0, source })
    }

    fn earlier_gate(&mut self, gate: usize) -> Result<Source, u32> {
        if self.gates[gate] {
            return Err(9);
        }
        self.gates[gate] = true;
        Ok(Source::Gate(gate))
    }

    fn leaf(&mut self, net: u16) -> Result<Source, u32> {
        let seen = &mut self.nets[usize::from(net)];
        if *seen {
            return Err(10);
        }
        if net == self.net {
            return Err(11);
        }
        if self.leaves == LEAVES {
            return Err(12);
        }
        *seen = true;
        self.leaves += 1;
        Ok(Source::Net(net))
    }
}
