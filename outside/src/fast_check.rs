//! The checker of what the second mapping program prints (request 107).
//!
//! Which of the fastest covers is taken is free, and the order of its tables, as in a list of the first program. Root levels are settled,
//! and the number of tables of each sheet: so the list is checked as that of sheets of those numbers, the levels follow from the list, and
//! the lines after it are compared byte for byte.

use crate::check::check_accepted;
use crate::fast_program::{map, Mapped};
use crate::level::levels;
use crate::list;
use crate::refusal::Refusal;

/// Tests what a mapper printed for `input`.
pub fn check_output(input: &[u8], printed: &[u8]) -> Result<(), String> {
    check_answer(&map(input), printed)
}

/// The same, where the input has been mapped.
pub fn check_answer(answer: &Result<Mapped, Refusal>, printed: &[u8]) -> Result<(), String> {
    match answer {
        Ok(mapped) => check_mapped(mapped, printed),
        Err(refusal) => same("a refusal", printed, &refusal.line()),
    }
}

fn same(what: &str, printed: &[u8], right: &str) -> Result<(), String> {
    if printed == right.as_bytes() {
        return Ok(());
    }
    let start = String::from_utf8_lossy(&printed[..printed.len().min(80)]).into_owned();
    Err(format!("{what}: printed {start:?} where {:?} is right", &right[..right.len().min(80)]))
}

fn check_mapped(mapped: &Mapped, printed: &[u8]) -> Result<(), String> {
    let wanted: usize = mapped.accepted.least.iter().sum();
    let (list, after) = cut(printed, 1 + wanted);
    check_accepted(&mapped.accepted, list)?;
    check_levels(mapped, list)?;
    same("slack", after, &mapped.slack_lines())
}

/// The first lines of a text, and what follows them.
fn cut(text: &[u8], lines: usize) -> (&[u8], &[u8]) {
    let mut ends = text.iter().enumerate().filter(|(_, &byte)| byte == b'\n').map(|(at, _)| at + 1);
    text.split_at(ends.nth(lines - 1).unwrap_or(text.len()))
}

/// Tests that each root of the list has its least level.
fn check_levels(mapped: &Mapped, list: &[u8]) -> Result<(), String> {
    let part = list::read(list).map_err(|fault| fault.to_string())?;
    let roots = part.tables.iter().zip(levels(&part.tables)).filter(|(table, _)| table.net != 0);
    for ((table, level), &least) in roots.zip(&mapped.built.levels) {
        if level != least {
            return Err(format!("net {} has level {level} where the least is {least}", table.net));
        }
    }
    Ok(())
}
