//! The second mapping program (request 107) once more, with other rules for programs that go wrong in a small thing.

use std::collections::HashMap;
use std::sync::OnceLock;

use outside::fast::{Fastest, Search};
use outside::fast_cases::case;
use outside::fast_check::check_answer;
use outside::fast_program::{map, Mapped};
use outside::join::join;
use outside::part::{Part, Table};
use outside::refusal::Refusal;
use outside::sheet::{read_next, Sheet};
use outside::text;

/// A cover: its root level as the program takes it to be, and its tables, which it adds to those of the part.
pub type Cover = fn(&Sheet, usize, &dyn Fn(u16) -> usize, &mut Vec<Table>) -> usize;

/// How the program goes about each thing.
#[derive(Clone, Copy)]
pub struct Way {
    /// The refusal of an opening line's fields: the part's K and capacity, and the wanted level, are those that are given on.
    pub opening: fn(&[i64]) -> Result<[i64; 3], u32>,
    /// The tree that is covered, of a sheet as drawn.
    pub tree: fn(&Sheet) -> Sheet,
    /// The level that a leaf is taken to have, of a driven net with its level, or of a free one.
    pub leaf: fn(Option<usize>) -> usize,
    pub cover: Cover,
    /// Whether there is room, by the capacity, the tables used before, those of the cover and the least number.
    pub fits: fn(usize, usize, usize, usize) -> bool,
    /// The slack, of the wanted and the root level.
    pub slack: fn(i64, i64) -> i64,
    /// The lines after the list, of each sheet's output net, signed, and slack.
    pub lines: fn(&[(i64, i64)]) -> String,
}

/// 02's way.
pub const RIGHT: Way = Way {
    opening: |fields| {
        let &[k, capacity, wanted] = fields else { return Err(1) };
        let tests = [(2, (2..=6).contains(&k)), (3, (1..=800).contains(&capacity)), (34, (0..=1024).contains(&wanted))];
        tests.iter().find(|(_, good)| !good).map_or(Ok([k, capacity, wanted]), |(number, _)| Err(*number))
    },
    tree: |sheet| join(sheet).sheet,
    leaf: |driven| driven.unwrap_or(0),
    cover: |sheet, k, level, tables| deeper(sheet, k, level, tables, 0),
    fits: |capacity, used, tables, _| tables <= capacity - used,
    slack: |wanted, level| wanted - level,
    lines: |slacks| slacks.iter().map(|(net, slack)| format!("{:>6}{slack:>6}\n", net.abs())).collect(),
};

/// A cover of the fewest tables that is so many levels deeper than need be, at most.
pub fn deeper(sheet: &Sheet, k: usize, level: &dyn Fn(u16) -> usize, tables: &mut Vec<Table>, levels: usize) -> usize {
    let mut search = Search::of(sheet, k, level);
    let bound = search.fastest().level + levels;
    search.add(bound, tables);
    bound
}

/// The level of the last of some tables, over leaves of these levels, and after `used` tables of other sheets.
pub fn root_level(tables: &[Table], used: usize, level: &dyn Fn(u16) -> usize) -> usize {
    let mut found: Vec<usize> = Vec::new();
    for table in &tables[used..] {
        let of_input = |&input: &u16| match usize::from(input).checked_sub(10_001 + used) {
            Some(index) => found[index],
            None => level(input),
        };
        found.push(1 + table.inputs.iter().map(of_input).max().unwrap_or(0));
    }
    *found.last().expect("a table")
}

/// What the fastest cover is like.
pub fn fastest(sheet: &Sheet, k: usize, level: &dyn Fn(u16) -> usize) -> Fastest {
    Search::of(sheet, k, level).fastest()
}

impl Way {
    /// What the program prints.
    pub fn print(&self, input: &[u8]) -> String {
        self.printed(input).unwrap_or_else(|[number, sheet, place]| format!("{:>6}{sheet:>6}{place:>6}\n", -number))
    }

    fn printed(&self, input: &[u8]) -> Result<String, [i64; 3]> {
        let (line, mut rest) = text::split_line(input).ok_or([1, 0, 0])?;
        let fields = text::fields(line).ok_or([1, 0, 0])?;
        let [k, capacity, wanted] = (self.opening)(&fields).map_err(|number| [number.into(), 0, 0])?;
        let mut part = Part { k: k as usize, capacity: capacity as usize, tables: Vec::new() };
        let mut driven: HashMap<u16, usize> = HashMap::new();
        let mut slacks = Vec::new();
        for number in 1.. {
            if rest.is_empty() {
                break;
            }
            let (sheet, after) = read_next(rest).map_err(|fault| [fault.number.into(), number, fault.line as i64])?;
            rest = after;
            let refused = |refusal: i64| Err([refusal, number, 0]);
            if part.driven().contains(&sheet.net) {
                return refused(21);
            }
            if part.read().contains(&sheet.net) {
                return refused(22);
            }
            let used = part.tables.len();
            let tree = (self.tree)(&sheet);
            let level = (self.cover)(&tree, part.k, &|net| (self.leaf)(driven.get(&net).copied()), &mut part.tables);
            let least = outside::least::least(&tree, part.k);
            if !(self.fits)(part.capacity, used, part.tables.len() - used, least) {
                return refused(23);
            }
            driven.insert(sheet.net, level);
            let net = if sheet.inverted { -i64::from(sheet.net) } else { sheet.net.into() };
            slacks.push((net, (self.slack)(wanted, level as i64)));
        }
        Ok(part.list() + &(self.lines)(&slacks))
    }
}

/// Some generated inputs with their answers; the largest are left out.
fn inputs() -> &'static [(Vec<u8>, Result<Mapped, Refusal>)] {
    static INPUTS: OnceLock<Vec<(Vec<u8>, Result<Mapped, Refusal>)>> = OnceLock::new();
    INPUTS.get_or_init(|| {
        let small = (0..1000).map(|index| case(6, index).input).filter(|input| input.len() < 1500);
        small.map(|input| (input.clone(), map(&input))).collect()
    })
}

/// How what the program prints is wrong, on those inputs on which it is.
pub fn turned_down(way: &Way) -> Vec<String> {
    inputs().iter().filter_map(|(input, answer)| check_answer(answer, way.print(input).as_bytes()).err()).collect()
}
