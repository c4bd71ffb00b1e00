//! Levels (request 103): a table's is 1 plus the greatest among the tables and driven nets that it reads, a free net's is 0.
//!
//! The tables are the nodes of a graph, with an edge from each to those that read it or the net that it drives. The level is the number of
//! nodes on the longest path to a table: Kahn's topological order, layer by layer, which asks nothing of the order of the tables.

use std::collections::HashMap;

use crate::part::Table;
use crate::CODES;

/// By a table's index: the tables that read it, once for each input, and how many of its own inputs are tables or driven nets.
struct Graph {
    readers: Vec<Vec<usize>>,
    waits: Vec<usize>,
}

impl Graph {
    fn of(tables: &[Table]) -> Graph {
        let sources = sources(tables);
        let mut graph = Graph { readers: vec![Vec::new(); tables.len()], waits: vec![0; tables.len()] };
        for (reader, table) in tables.iter().enumerate() {
            for source in table.inputs.iter().filter_map(|input| sources.get(input)) {
                graph.readers[*source].push(reader);
                graph.waits[reader] += 1;
            }
        }
        graph
    }

    /// The tables that wait for no other once those of `layer` are known.
    fn next_layer(&mut self, layer: &[usize]) -> Vec<usize> {
        let mut next = Vec::new();
        for &reader in layer.iter().flat_map(|&table| &self.readers[table]) {
            self.waits[reader] -= 1;
            if self.waits[reader] == 0 {
                next.push(reader);
            }
        }
        next
    }
}

/// The table that gives an input its value, by the input's number; a free net has none. No input is 0, which stands for no net.
fn sources(tables: &[Table]) -> HashMap<u16, usize> {
    let named = (CODES as u16 + 1..).zip(0..tables.len());
    let driven = tables.iter().map(|table| table.net).zip(0..);
    named.chain(driven).collect()
}

/// The level of each table, where none waits for itself by way of others, as in a sound part.
pub fn levels(tables: &[Table]) -> Vec<usize> {
    let mut graph = Graph::of(tables);
    let mut levels = vec![0; tables.len()];
    let mut layer: Vec<usize> = (0..tables.len()).filter(|&table| graph.waits[table] == 0).collect();
    let mut level = 0;
    while !layer.is_empty() {
        level += 1;
        for &table in &layer {
            levels[table] = level;
        }
        layer = graph.next_layer(&layer);
    }
    levels
}
