//! Sheets at the limits, for tests and measurements.

use crate::sheet::{Edge, Gate, Kind, Sheet, Source};

/// A chain of gates, AND and OR by turns, all of one fanin count: gate 1 reads nets from `first` up, and each other gate reads the
/// gate before and the next nets.
pub fn chain(net: u16, first: u16, gates: usize, fanins: usize) -> Sheet {
    let mut nets = first..;
    let mut chain = Vec::new();
    for index in 0..gates {
        let below = index.checked_sub(1).map(Source::Gate);
        let sources = below.into_iter().chain(nets.by_ref().map(Source::Net)).take(fanins);
        let fanins = sources.map(|source| Edge { inverted: false, source }).collect();
        chain.push(Gate { kind: if index % 2 == 0 { Kind::And } else { Kind::Or }, fanins });
    }
    Sheet { net, inverted: false, gates: chain }
}

/// The first of the nets that `levelled` drives.
pub const LEVELLED: u16 = 1000;

/// Sheets of one gate after which the nets from `LEVELLED` up, so many, have the levels 0 to 50 again and again: one of level 0 is free, and
/// each other is driven from the one before it and a free net.
pub fn levelled(nets: u16) -> Vec<Sheet> {
    let driven = (0..nets).filter(|index| index % 51 != 0).map(|index| LEVELLED + index);
    driven.map(|net| Sheet { net, inverted: false, gates: vec![and(&[net - 1, net + 4000])] }).collect()
}

/// An AND of nets.
fn and(nets: &[u16]) -> Gate {
    let fanins = nets.iter().map(|&net| Edge { inverted: false, source: Source::Net(net) }).collect();
    Gate { kind: Kind::And, fanins }
}

/// The input of some sheets.
pub fn input(k: usize, capacity: usize, sheets: &[Sheet]) -> String {
    format!("{k:>6}{capacity:>6}\n") + &sheets.iter().map(Sheet::text).collect::<String>()
}

/// Sheets that fill a part of K 6 and 800 tables: 100 chains of 40 gates, eight tables each, no two over the same nets.
pub fn full_sheets() -> Vec<Sheet> {
    (0..100).map(|index| chain(9999 - index, 1 + 8 * index, 40, 2)).collect()
}

/// Their input.
pub fn full_part() -> String {
    input(6, 800, &full_sheets())
}
