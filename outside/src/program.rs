//! The mapping program: a whole input to what is printed (01, "List").

use crate::adding::{Accepted, Adding};
use crate::cover;
use crate::least::least;
use crate::part::Part;
use crate::refusal::Refusal;
use crate::sheet::{read_next, Sheet};
use crate::text;
use crate::{INPUTS, TABLES};

/// The part that the opening line gives, and the bytes after it.
fn open(input: &[u8]) -> Result<(Part, &[u8]), u32> {
    let (line, rest) = text::split_line(input).ok_or(1u32)?;
    let fields = text::fields(line).ok_or(1u32)?;
    let &[k, capacity] = &fields[..] else { return Err(1) };
    Ok((opened(k, capacity)?, rest))
}

/// The part of no tables that an opening gives.
pub fn opened(k: i64, capacity: i64) -> Result<Part, u32> {
    if !(2..=INPUTS as i64).contains(&k) {
        return Err(2);
    }
    if !(1..=TABLES as i64).contains(&capacity) {
        return Err(3);
    }
    Ok(Part { k: k as usize, capacity: capacity as usize, tables: Vec::new() })
}

/// Reads an input to its end, or to the first refusal.
pub fn read(input: &[u8]) -> Result<Accepted, Refusal> {
    walk(input, least)
}

/// The part with a least cover of each sheet.
pub fn map(input: &[u8]) -> Result<Part, Refusal> {
    let mut tables = Vec::new();
    let accepted = walk(input, |sheet, k| cover::add(sheet, k, &mut tables))?;
    Ok(Part { k: accepted.k, capacity: accepted.capacity, tables })
}

/// Reads an input sheet by sheet; `tables` gives how many tables a joined sheet takes at K.
fn walk(input: &[u8], tables: impl FnMut(&Sheet, usize) -> usize) -> Result<Accepted, Refusal> {
    let (part, mut rest) = open(input).map_err(|number| Refusal::new(number, 0, 0))?;
    let left = part.left();
    let mut adding = Adding::to(part, left, tables);
    while !rest.is_empty() {
        let sheet = adding.accepted.sheets.len() + 1;
        let (read, after) = read_next(rest).map_err(|fault| Refusal::new(fault.number, sheet, fault.line))?;
        rest = after;
        adding.add(read).map_err(|number| Refusal::new(number, sheet, 0))?;
    }
    Ok(adding.accepted)
}

/// What the program prints.
pub fn print(input: &[u8]) -> String {
    match map(input) {
        Ok(part) => part.list(),
        Err(refusal) => refusal.line(),
    }
}
