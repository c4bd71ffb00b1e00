//! Gates joined before covers are counted (02, request 104).
//!
//! The joins are made in a table of the sheet's gates, in rising number: the fanins of a lower gate move into the place of the edge that
//! reads it, and a gate without fanins is gone. So a fanin count is at every moment that of the gate as it is.

use std::mem::take;

use crate::sheet::{Edge, Gate, Sheet, Source};
use crate::FANINS;

/// A sheet with its gates joined, and its chained edges in the order in which they were looked at.
#[derive(Clone, Debug)]
pub struct Joined {
    pub sheet: Sheet,
    pub chained: Vec<Chained>,
}

/// An edge that is upright between gates of one kind, or inverted between an AND and an OR.
#[derive(Clone, Copy, Debug, PartialEq, Eq)]
pub struct Chained {
    /// The gate that reads and the gate that is read, by their indices as drawn.
    pub upper: usize,
    pub lower: usize,
    pub inverted: bool,
    /// How many fanins the two have as one gate.
    pub fanins: usize,
}

impl Chained {
    pub fn is_joined(&self) -> bool {
        self.fanins <= FANINS
    }
}

/// Joins the gates of a sheet.
pub fn join(sheet: &Sheet) -> Joined {
    let mut gates = sheet.gates.clone();
    let mut chained = Vec::new();
    for upper in 0..gates.len() {
        let mut place = 0;
        while place < gates[upper].fanins.len() {
            let edge = chained_edge(&gates, upper, place);
            place += match edge {
                Some(edge) if edge.is_joined() => replace(&mut gates, place, &edge),
                _ => 1,
            };
            chained.extend(edge);
        }
    }
    renumber(&mut gates);
    Joined { sheet: Sheet { gates, ..*sheet }, chained }
}

/// The edge at this place of a gate, if it is chained.
fn chained_edge(gates: &[Gate], upper: usize, place: usize) -> Option<Chained> {
    let Edge { inverted, source: Source::Gate(lower) } = gates[upper].fanins[place] else { return None };
    let fanins = gates[upper].fanins.len() - 1 + gates[lower].fanins.len();
    let one_kind = gates[upper].kind == gates[lower].kind;
    (inverted != one_kind).then_some(Chained { upper, lower, inverted, fanins })
}

/// Puts the lower gate's fanins in the place of the edge, turned over if it is inverted; how many they are.
fn replace(gates: &mut [Gate], place: usize, edge: &Chained) -> usize {
    let mut moved = take(&mut gates[edge.lower].fanins);
    for fanin in &mut moved {
        fanin.inverted ^= edge.inverted;
    }
    let count = moved.len();
    gates[edge.upper].fanins.splice(place..=place, moved);
    count
}

/// Drops the gates without fanins, and numbers the others anew.
fn renumber(gates: &mut Vec<Gate>) {
    let mut numbers = Vec::with_capacity(gates.len());
    let mut left = 0;
    for gate in &mut *gates {
        for fanin in &mut gate.fanins {
            if let Source::Gate(below) = &mut fanin.source {
                *below = numbers[*below];
            }
        }
        numbers.push(left);
        left += usize::from(!gate.fanins.is_empty());
    }
    gates.retain(|gate| !gate.fanins.is_empty());
}
