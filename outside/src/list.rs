//! Reading a list back (request 101): the part, or what is wrong with the first bad line.
//!
//! The text is cut at its line feeds. A line is laid out where writing the numbers made of its digits gives the line again, so that blanks,
//! signs, leading zeros and numbers of 2^64 and more need no tests of their own.

use std::fmt;

use crate::part::{Part, Rule, Rules, Table};
use crate::text;
use crate::{INPUTS, TABLES};

/// The columns of a truth table.
const TRUTH: usize = 21;

/// What can be wrong with a line.
#[derive(Clone, Copy, Debug, PartialEq, Eq, PartialOrd, Ord)]
pub enum Kind {
    Missing,
    Unended,
    Layout,
    LeftOver,
    K,
    Capacity,
    Used,
    Rule(Rule),
}

impl Kind {
    pub fn all() -> impl Iterator<Item = Kind> {
        let other = [Kind::Missing, Kind::Unended, Kind::Layout, Kind::LeftOver, Kind::K, Kind::Capacity, Kind::Used];
        other.into_iter().chain(Rule::ALL.map(Kind::Rule))
    }

    /// The refusal's number.
    pub fn number(self) -> u32 {
        match self {
            Kind::K => 2,
            Kind::Capacity => 3,
            Kind::Missing | Kind::Unended | Kind::Layout | Kind::LeftOver => 31,
            Kind::Used | Kind::Rule(_) => 32,
        }
    }

    pub fn words(self) -> &'static str {
        match self {
            Kind::Missing => "it is missing",
            Kind::Unended => "it has no line feed",
            Kind::Layout => "it is not laid out as the list has it",
            Kind::LeftOver => "it follows the last line",
            Kind::K => "K is not from 2 to 6",
            Kind::Capacity => "the capacity is not from 1 to 800",
            Kind::Used => "the used count is above the capacity",
            Kind::Rule(rule) => rule.broken(),
        }
    }
}

/// The first bad line, from 0, and what is wrong with it.
#[derive(Clone, Copy, Debug, PartialEq, Eq)]
pub struct Fault {
    pub kind: Kind,
    pub line: usize,
}

/// What a reader gives: a result, or the number of the refusal and the line.
pub type Answer<T> = Result<T, (u32, usize)>;

impl Fault {
    /// The number of the refusal and the line.
    pub fn refusal(self) -> (u32, usize) {
        (self.kind.number(), self.line)
    }
}

impl fmt::Display for Fault {
    fn fmt(&self, formatter: &mut fmt::Formatter) -> fmt::Result {
        write!(formatter, "line {} of the list: {} (refusal {})", self.line, self.kind.words(), self.kind.number())
    }
}

/// The part whose list the text is.
pub fn read(text: &[u8]) -> Result<Part, Fault> {
    let lines: Vec<&[u8]> = text.split_inclusive(|&byte| byte == b'\n').collect();
    let (mut part, used) = read_head(&lines).map_err(|kind| Fault { kind, line: 0 })?;
    let mut rules = Rules::new(part.k);
    for line in 1..=used {
        part.tables.push(read_table(&lines, line, &mut rules).map_err(|kind| Fault { kind, line })?);
    }
    if lines.len() > used + 1 {
        return Err(Fault { kind: Kind::LeftOver, line: used + 1 });
    }
    Ok(part)
}

/// Line 0: K, capacity, used. The part without its tables, and their number.
fn read_head(lines: &[&[u8]]) -> Result<(Part, usize), Kind> {
    let numbers = laid_out(ended(lines, 0)?, &[6; 3])?;
    let [k, capacity, used] = [0, 1, 2].map(|field| numbers[field] as usize);
    if !(2..=INPUTS).contains(&k) {
        return Err(Kind::K);
    }
    if !(1..=TABLES).contains(&capacity) {
        return Err(Kind::Capacity);
    }
    if used > capacity {
        return Err(Kind::Used);
    }
    Ok((Part { k, capacity, tables: Vec::new() }, used))
}

/// Line t: t, net driven, u, the u inputs, then the truth table. Its layout comes before every rule.
fn read_table(lines: &[&[u8]], number: usize, rules: &mut Rules) -> Result<Table, Kind> {
    let line = ended(lines, number)?;
    let u = line.get(12..18).map(digits).filter(|u| (2..=INPUTS as u64).contains(u)).ok_or(Kind::Layout)?;
    let numbers = laid_out(line, &[&[6; 3], &vec![6; u as usize][..], &[TRUTH]].concat())?;
    let &[t, net, _, ref inputs @ .., truth] = &numbers[..] else { unreachable!("four columns or more") };
    if t != number as u64 {
        return Err(Kind::Layout);
    }
    let code = |rule| move |number: u64| u16::try_from(number).map_err(|_| Kind::Rule(rule));
    let inputs = inputs.iter().copied().map(code(Rule::Input)).collect::<Result<_, Kind>>()?;
    let table = Table { net: code(Rule::Net)(net)?, inputs, truth };
    rules.add(&table).map_err(Kind::Rule)?;
    Ok(table)
}

/// The line of this number, which is there and ended.
fn ended<'a>(lines: &[&'a [u8]], number: usize) -> Result<&'a [u8], Kind> {
    let line = lines.get(number).ok_or(Kind::Missing)?;
    if line.ends_with(b"\n") {
        Ok(line)
    } else {
        Err(Kind::Unended)
    }
}

/// The numbers of a line that has columns of these widths and a line feed.
fn laid_out(line: &[u8], widths: &[usize]) -> Result<Vec<u64>, Kind> {
    let mut rest = line;
    let mut numbers = Vec::new();
    let mut written = String::new();
    for &width in widths {
        let (columns, after) = rest.split_at_checked(width).ok_or(Kind::Layout)?;
        rest = after;
        numbers.push(digits(columns));
        text::push(&mut written, digits(columns), width);
    }
    written.push('\n');
    if written.as_bytes() == line {
        Ok(numbers)
    } else {
        Err(Kind::Layout)
    }
}

/// The number that the digits make, modulo 2^64, whatever stands between them.
fn digits(columns: &[u8]) -> u64 {
    let digits = columns.iter().filter(|byte| byte.is_ascii_digit());
    digits.fold(0, |number: u64, &digit| number.wrapping_mul(10).wrapping_add(u64::from(digit - b'0')))
}
