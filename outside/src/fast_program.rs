//! The second mapping program (request 107): a whole input with a wanted level to what is printed, the list and a line of slack per sheet.

use std::collections::HashMap;

use crate::adding::{Accepted, Adding};
use crate::fast;
use crate::part::{Part, Table};
use crate::program::opened;
use crate::refusal::Refusal;
use crate::sheet::{read_next, Sheet};
use crate::text;

/// The greatest wanted level.
pub const WANTED: i64 = 1024;

/// The part and the wanted level that the opening line gives, and the bytes after it.
fn open(input: &[u8]) -> Result<(Part, i64, &[u8]), u32> {
    let (line, rest) = text::split_line(input).ok_or(1u32)?;
    let fields = text::fields(line).ok_or(1u32)?;
    let &[k, capacity, wanted] = &fields[..] else { return Err(1) };
    let part = opened(k, capacity)?;
    if !(0..=WANTED).contains(&wanted) {
        return Err(34);
    }
    Ok((part, wanted, rest))
}

/// The tables of some sheets' fastest covers, and the root level of each sheet.
#[derive(Clone, Debug, Default)]
pub struct Built {
    pub tables: Vec<Table>,
    pub levels: Vec<usize>,
    /// The levels of the nets that the tables drive.
    driven: HashMap<u16, usize>,
}

impl Built {
    /// Adds a joined sheet's tables, and gives how many they are.
    pub fn add(&mut self, sheet: &Sheet, k: usize) -> usize {
        let mut search = fast::Search::of(sheet, k, &|net| self.level(net));
        let fast::Fastest { level, tables } = search.fastest();
        search.add(level, &mut self.tables);
        self.driven.insert(sheet.net, level);
        self.levels.push(level);
        tables
    }

    /// The level of a net on the part as it stands.
    pub fn level(&self, net: u16) -> usize {
        self.driven.get(&net).copied().unwrap_or(0)
    }
}

/// An input that is accepted. The numbers in `accepted.least` are those of the fastest covers.
#[derive(Clone, Debug)]
pub struct Mapped {
    pub wanted: i64,
    pub accepted: Accepted,
    pub built: Built,
}

impl Mapped {
    /// The slack of each sheet.
    pub fn slacks(&self) -> impl Iterator<Item = i64> + '_ {
        self.built.levels.iter().map(|&level| self.wanted - level as i64)
    }

    /// The lines after the list.
    pub fn slack_lines(&self) -> String {
        let nets = self.accepted.sheets.iter().map(|sheet| sheet.net);
        nets.zip(self.slacks()).map(|(net, slack)| format!("{net:>6}{slack:>6}\n")).collect()
    }

    /// The part with a fastest cover of each sheet.
    pub fn part(&self) -> Part {
        Part { k: self.accepted.k, capacity: self.accepted.capacity, tables: self.built.tables.clone() }
    }
}

/// Maps an input to its end, or to the first refusal.
pub fn map(input: &[u8]) -> Result<Mapped, Refusal> {
    let (part, wanted, mut rest) = open(input).map_err(|number| Refusal::new(number, 0, 0))?;
    let mut built = Built::default();
    let left = part.left();
    let mut adding = Adding::to(part, left, |sheet, k| built.add(sheet, k));
    while !rest.is_empty() {
        let sheet = adding.accepted.sheets.len() + 1;
        let (read, after) = read_next(rest).map_err(|fault| Refusal::new(fault.number, sheet, fault.line))?;
        rest = after;
        adding.add(read).map_err(|number| Refusal::new(number, sheet, 0))?;
    }
    let accepted = adding.accepted;
    Ok(Mapped { wanted, accepted, built })
}

/// What the program prints.
pub fn print(input: &[u8]) -> String {
    match map(input) {
        Ok(mapped) => mapped.part().list() + &mapped.slack_lines(),
        Err(refusal) => refusal.line(),
    }
}
