//! A generator of inputs for the second mapping program (request 107).
//!
//! The right refusals are known from how the inputs are made, but for those whose bytes are damaged. Levels are not: those are the checker's.

use crate::adding::Adding;
use crate::fast::{fastest, Fastest};
use crate::fast_program::{Built, Mapped, WANTED};
use crate::generate;
use crate::join::{join, Chained};
use crate::least::least;
use crate::part::Part;
use crate::refusal::Refusal;
use crate::rng::Rng;
use crate::sheet::{Edge, Gate, Kind, Sheet, Source};
use crate::TABLES;

/// One input, what it was made as, and its refusal, where the making tells it.
pub struct Case {
    pub kind: &'static str,
    pub input: Vec<u8>,
    pub wanted: Option<Result<(), Refusal>>,
}

type Answered = (Vec<u8>, Option<Result<(), Refusal>>);

/// What makes inputs of a kind; now and then it has none to give.
type Make = fn(&mut Rng) -> Option<Answered>;

/// The kinds of inputs, and how often each is made beside the others.
const KINDS: [(&str, usize, Make); 17] = [
    ("sheets over free nets", 12, |rng| accepted(rng, generate_few)),
    ("sheets over driven nets", 24, |rng| accepted(rng, tower)),
    ("sheets in a chain of sheets", 6, |rng| accepted(rng, chained_sheets)),
    ("a sheet at the limit", 1, |rng| accepted(rng, generate::at_limit)),
    ("just enough tables", 8, just_enough),
    ("a table too few", 8, a_table_too_few),
    ("tables for the least number and not for the fewest levels", 24, between_the_two),
    ("a full part", 1, full_part),
    ("each sheet above the one before", 1, |rng| accepted(rng, high)),
    ("an output net driven or read before", 4, clashing),
    ("slack 0", 8, |rng| Some(near(rng, 0))),
    ("slack 1 or -1", 8, |rng| Some(near(rng, 1))),
    ("a wanted level out of range", 4, out_of_range),
    ("K or capacity out of range", 3, before_the_wanted_level),
    ("another number of fields", 3, other_fields),
    ("a third field that is no number", 2, no_number),
    ("an input of the first program with a wanted level", 40, first_program),
];

/// The kinds of inputs.
pub fn kinds() -> impl Iterator<Item = &'static str> {
    KINDS.into_iter().map(|(kind, ..)| kind)
}

/// Case `index` of the run with this seed.
pub fn case(seed: u64, index: u64) -> Case {
    let mut rng = Rng::of_case(seed, index);
    loop {
        let mut at = rng.below(KINDS.iter().map(|(_, share, _)| share).sum());
        let chosen = KINDS.iter().find(|(_, share, _)| {
            let here = at < *share;
            at = at.saturating_sub(*share);
            here
        });
        let (kind, _, make) = chosen.expect("a kind");
        if let Some((input, wanted)) = make(&mut rng) {
            return Case { kind, input, wanted };
        }
    }
}

/// The text of an input; the opening line has these fields.
fn text(opening: &[i64], sheets: &[Sheet]) -> Vec<u8> {
    let opening: String = opening.iter().map(|field| format!("{field:>6}")).collect();
    (opening + "\n" + &sheets.iter().map(Sheet::text).collect::<String>()).into_bytes()
}

fn input(k: usize, capacity: usize, wanted: i64, sheets: &[Sheet]) -> Vec<u8> {
    text(&[k as i64, capacity as i64, wanted], sheets)
}

fn refused(number: u32, sheet: usize) -> Option<Result<(), Refusal>> {
    Some(Err(Refusal::new(number, sheet, 0)))
}

/// A wanted level at a bound, any, or one that sheets have.
fn any_wanted(rng: &mut Rng) -> i64 {
    let any = rng.between(0, WANTED as usize) as i64;
    let small = rng.between(0, 12) as i64;
    *rng.pick(&[0, 1, WANTED, WANTED - 1, any, small, small, small])
}

fn any_k(rng: &mut Rng) -> usize {
    rng.between(2, 6)
}

/// The root levels and the numbers of tables of sheets that are added one after another at K.
fn built(sheets: &[Sheet], k: usize) -> Vec<Fastest> {
    let mut built = Built::default();
    let tables: Vec<usize> = sheets.iter().map(|sheet| built.add(&join(sheet).sheet, k)).collect();
    built.levels.iter().zip(tables).map(|(&level, tables)| Fastest { level, tables }).collect()
}

fn sum(built: &[Fastest]) -> usize {
    built.iter().map(|fastest| fastest.tables).sum()
}

fn generate_few(rng: &mut Rng) -> Vec<Sheet> {
    let count = if rng.once_in(10) { rng.between(0, 8) } else { rng.between(1, 3) };
    generate::sheets(rng, count)
}

/// Sheets that read each other's nets: few of these, or many, in a few layers or in many.
fn tower(rng: &mut Rng) -> Vec<Sheet> {
    let count = rng.between(2, 12);
    let free = rng.between(3, 14);
    generate::tower(rng, count, free, 12)
}

/// Small sheets over very few nets, so that levels grow from sheet to sheet.
fn chained_sheets(rng: &mut Rng) -> Vec<Sheet> {
    let count = rng.between(4, 30);
    generate::tower(rng, count, 4, 4)
}

/// Up to 800 sheets of a gate each, of one table at K 4 and above, each reading the net of the one before.
fn high(rng: &mut Rng) -> Vec<Sheet> {
    let sheet = |rng: &mut Rng, index: u16| {
        let below = if index == 0 { 1 } else { 999 + index };
        let mut nets = vec![below, 2, 3, 4];
        nets.truncate(rng.between(2, 4));
        rng.shuffle(&mut nets);
        let fanins = nets.into_iter().map(|net| Edge { inverted: rng.once_in(2), source: Source::Net(net) }).collect();
        let kind = if rng.once_in(2) { Kind::And } else { Kind::Or };
        Sheet { net: 1000 + index, inverted: rng.once_in(2), gates: vec![Gate { kind, fanins }] }
    };
    let count = rng.between(1, TABLES) as u16;
    (0..count).map(|index| sheet(rng, index)).collect()
}

/// 21 or 22 at a sheet whose output net is changed to one that a sheet before drives or reads.
fn clashing(rng: &mut Rng) -> Option<Answered> {
    let (k, mut sheets) = (any_k(rng), tower(rng));
    let at = rng.below(sheets.len());
    let driven: Vec<u16> = sheets[..at].iter().map(|sheet| sheet.net).collect();
    let read: Vec<u16> = sheets[..at].iter().flat_map(Sheet::leaves).filter(|net| !driven.contains(net)).collect();
    let (number, mut nets) = if rng.once_in(2) { (21, driven) } else { (22, read) };
    nets.retain(|net| !sheets[at].leaves().contains(net));
    sheets[at].net = *nets.get(rng.below(nets.len().max(1)))?;
    let enough = sum(&built(&sheets[..at], k)).max(1);
    let capacity = if rng.once_in(2) { enough } else { TABLES };
    Some((input(k, capacity, any_wanted(rng), &sheets), refused(number, at + 1)))
}

/// Sheets with room for all of them.
fn accepted(rng: &mut Rng, sheets: fn(&mut Rng) -> Vec<Sheet>) -> Option<Answered> {
    let (k, sheets) = (any_k(rng), sheets(rng));
    let needed = sum(&built(&sheets, k));
    let capacity = needed + rng.below(TABLES + 1 - needed.min(TABLES));
    (needed <= TABLES).then(|| (input(k, capacity.max(1), any_wanted(rng), &sheets), Some(Ok(()))))
}

fn some_sheets(rng: &mut Rng) -> Vec<Sheet> {
    if rng.once_in(3) {
        generate_few(rng)
    } else {
        tower(rng)
    }
}

fn just_enough(rng: &mut Rng) -> Option<Answered> {
    let (k, sheets) = (any_k(rng), some_sheets(rng));
    let needed = sum(&built(&sheets, k));
    (1..=TABLES).contains(&needed).then(|| (input(k, needed, any_wanted(rng), &sheets), Some(Ok(()))))
}

fn a_table_too_few(rng: &mut Rng) -> Option<Answered> {
    let (k, sheets) = (any_k(rng), some_sheets(rng));
    let capacity = sum(&built(&sheets, k)).checked_sub(1)?;
    (1..=TABLES).contains(&capacity).then(|| (input(k, capacity, any_wanted(rng), &sheets), refused(23, sheets.len())))
}

/// 23 at a sheet whose least number would fit.
fn between_the_two(rng: &mut Rng) -> Option<Answered> {
    let (k, sheets) = (rng.between(3, 6), tower(rng));
    let built = built(&sheets, k);
    let least = |at: usize| least(&join(&sheets[at]).sheet, k);
    let dearer: Vec<usize> = (0..sheets.len()).filter(|&at| least(at) < built[at].tables).collect();
    let at = *dearer.get(rng.below(dearer.len().max(1)))?;
    let capacity = sum(&built[..at]) + rng.between(least(at), built[at].tables - 1);
    (capacity <= TABLES).then(|| (input(k, capacity, any_wanted(rng), &sheets), refused(23, at + 1)))
}

/// Sheets until no more fit, with the one that does not, or without it.
fn full_part(rng: &mut Rng) -> Option<Answered> {
    let (k, leaves) = (any_k(rng), *rng.pick(&[3, 3, 6, 12, 40]));
    let free = rng.between(leaves, 100);
    let capacity = if rng.once_in(3) { rng.between(1, TABLES) } else { TABLES };
    let mut built = Built::default();
    let mut adding = Adding::to(Part { k, capacity, tables: Vec::new() }, capacity, |sheet, k| built.add(sheet, k));
    let mut sheets = generate::tower(rng, TABLES + 1, free, leaves);
    let count = sheets.iter().position(|sheet| adding.add(sheet.clone()).is_err())?;
    let one_more = rng.once_in(3);
    sheets.truncate(count + usize::from(one_more));
    let answer = if one_more { refused(23, count + 1) } else { Some(Ok(())) };
    Some((input(k, capacity, any_wanted(rng), &sheets), answer))
}

/// A wanted level that is that of a sheet, or so many beside it.
fn near(rng: &mut Rng, distance: i64) -> Answered {
    let (k, mut sheets) = (any_k(rng), some_sheets(rng));
    while sheets.is_empty() {
        sheets = some_sheets(rng);
    }
    let level = rng.pick(&built(&sheets, k)).level as i64;
    let wanted = if rng.once_in(2) { level + distance } else { level - distance };
    (input(k, TABLES, wanted, &sheets), Some(Ok(())))
}

fn out_of_range(rng: &mut Rng) -> Option<Answered> {
    let wanted = some_out_of_range(rng);
    let (k, capacity) = (any_k(rng), rng.between(1, TABLES));
    Some((input(k, capacity, wanted, &generate_few(rng)), refused(34, 0)))
}

fn some_out_of_range(rng: &mut Rng) -> i64 {
    let (above, below) = (rng.between(1025, 999_999) as i64, -(rng.between(1, 99_999) as i64));
    *rng.pick(&[-1, -1, WANTED + 1, WANTED + 1, -WANTED, -99_999, 999_999, 65_536, above, below])
}

/// 2 before 3 before 34.
fn before_the_wanted_level(rng: &mut Rng) -> Option<Answered> {
    let k = *rng.pick(&[0, 1, 7, -4, 999_999]);
    let capacity = *rng.pick(&[0, 801, -8, 999_999]);
    let wanted = if rng.once_in(3) { any_wanted(rng) } else { some_out_of_range(rng) };
    let sheets = generate_few(rng);
    Some(match rng.below(3) {
        0 => (text(&[k, capacity, wanted], &sheets), refused(2, 0)),
        1 => (text(&[k, 8, wanted], &sheets), refused(2, 0)),
        _ => (text(&[any_k(rng) as i64, capacity, wanted], &sheets), refused(3, 0)),
    })
}

fn other_fields(rng: &mut Rng) -> Option<Answered> {
    let count = *rng.pick(&[1, 2, 2, 4, 4, 12, 13]);
    let mut opening = vec![any_k(rng) as i64, rng.between(1, TABLES) as i64, any_wanted(rng)];
    if rng.once_in(3) {
        let at = rng.below(3);
        opening[at] = -1;
    }
    opening.resize(count, 5);
    Some((text(&opening, &generate_few(rng)), refused(1, 0)))
}

fn no_number(rng: &mut Rng) -> Option<Answered> {
    let field = *rng
        .pick(&["      ", "    00", "    -0", "    +5", "   05 ", "     -", "    5 ", "  1 24", "     x", "    5", "      5", "   \t 5"]);
    let opening = format!("{:>6}{:>6}{field}\n", rng.between(1, 7), rng.between(0, TABLES + 1));
    Some(([opening.into_bytes(), text(&[], &generate_few(rng))[1..].to_vec()].concat(), refused(1, 0)))
}

/// What the generator of the first program's inputs makes, damaged or not, with one field more on its first line.
fn first_program(rng: &mut Rng) -> Option<Answered> {
    let mut made = generate::case(rng.word(), 0);
    while made.name != "damaged" && rng.once_in(2) {
        made = generate::case(rng.word(), 0);
    }
    let mut input = made.input;
    let end = input.iter().position(|&byte| byte == b'\n')?;
    let wanted = if rng.once_in(50) { some_out_of_range(rng) } else { any_wanted(rng) };
    input.splice(end..end, format!("{wanted:>6}").into_bytes());
    if rng.once_in(8) {
        generate::change_bytes(rng, &mut input);
    }
    Some((input, None))
}

/// Whether an accepted input shows what is counted.
type Shows = fn(&Mapped) -> bool;

/// What is to occur among the accepted inputs of a run.
pub const SHOWN: [(&str, Shows); 10] = [
    ("slack below zero", |mapped| mapped.slacks().any(|slack| slack < 0)),
    ("slack 0", |mapped| mapped.slacks().any(|slack| slack == 0)),
    ("slack above zero", |mapped| mapped.slacks().any(|slack| slack > 0)),
    ("a root level above 100", |mapped| mapped.built.levels.iter().any(|&level| level > 100)),
    ("a sheet of more tables than its least number", |mapped| {
        any_sheet(mapped, |mapped, at, found| least(&mapped.accepted.joined[at].sheet, mapped.accepted.k) < found.tables)
    }),
    ("a sheet whose leaves have three levels", |mapped| any_sheet(mapped, |mapped, at, _| leaf_levels(mapped, at) >= 3)),
    ("a sheet of more tables than over free nets", |mapped| {
        any_sheet(mapped, |mapped, at, found| fastest(&mapped.accepted.joined[at].sheet, mapped.accepted.k, &|_| 0).tables < found.tables)
    }),
    ("a sheet of a level fewer by its joins", |mapped| {
        any_sheet(mapped, |mapped, at, found| drawn(mapped, at).is_some_and(|drawn| drawn.level > found.level))
    }),
    ("a sheet of as many levels and fewer tables by its joins", |mapped| {
        any_sheet(mapped, |mapped, at, found| {
            drawn(mapped, at).is_some_and(|drawn| drawn.level == found.level && drawn.tables > found.tables)
        })
    }),
    ("a chained edge without room", |mapped| mapped.accepted.joined.iter().any(|joined| !joined.chained.iter().all(Chained::is_joined))),
];

/// Whether one of the sheets shows something, given its index and its fastest cover's level and number.
fn any_sheet(mapped: &Mapped, shows: fn(&Mapped, usize, Fastest) -> bool) -> bool {
    let found = mapped.built.levels.iter().zip(&mapped.accepted.least).map(|(&level, &tables)| Fastest { level, tables });
    found.enumerate().any(|(at, found)| shows(mapped, at, found))
}

/// How many levels the nets at a sheet's leaves have. A net that is read is not driven later, so the levels at the end are those that the
/// sheet found.
fn leaf_levels(mapped: &Mapped, at: usize) -> usize {
    let levels: std::collections::BTreeSet<usize> =
        mapped.accepted.sheets[at].leaves().into_iter().map(|net| mapped.built.level(net)).collect();
    levels.len()
}

/// The level and the number of a sheet's tree as drawn, where some of its gates are joined and it is not large.
fn drawn(mapped: &Mapped, at: usize) -> Option<Fastest> {
    const LARGE: usize = 24;
    let sheet = &mapped.accepted.sheets[at];
    let joined = mapped.accepted.joined[at].chained.iter().any(Chained::is_joined);
    (joined && sheet.gates.len() < LARGE).then(|| fastest(sheet, mapped.accepted.k, &|net| mapped.built.level(net)))
}
