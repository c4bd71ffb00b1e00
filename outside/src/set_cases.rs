//! A generator of sets of sheets for lists: sets that are accepted, and what a change or two makes of them.
//!
//! Most cases have the right answer, known from how they are made: no sheet is read for it.

use crate::generate;
use crate::list_cases;
use crate::part::Part;
use crate::program;
use crate::refusal::Refusal;
use crate::rng::Rng;
use crate::samples;
use crate::sheet::{Edge, Gate, Kind, Sheet, Source};
use crate::{GATES, NETS, TABLES};

/// The most sheets of a set.
const SHEETS: usize = 16;

/// A list, a set for its part, what they were made as, and the right answer, where the making tells it.
pub struct Case {
    pub kind: &'static str,
    pub list: Vec<u8>,
    pub text: Vec<u8>,
    pub lengths: Vec<u32>,
    pub wanted: Option<Result<(), Refusal>>,
}

/// What makes cases of a kind; now and then it has none to give.
type Make = fn(&mut Rng) -> Option<Case>;

/// The kinds of cases.
pub const KINDS: [(&str, Make); 34] = [
    ("one sheet", |rng| good(rng, 1)),
    ("two sheets", |rng| good(rng, 2)),
    ("three to fifteen sheets", |rng| some(rng, 3, 15)?.case()),
    ("sixteen sheets", |rng| good(rng, SHEETS)),
    ("sheets that take all tables left", all_tables),
    ("a sheet that reads what one before it drives", reads_before),
    ("a sheet that reads what the list drives", reads_old),
    ("no sheets", no_sheets),
    ("seventeen sheets", |rng| Draft::of(rng, SHEETS + 1)?.refused(33, 0, 0)),
    ("empty sheets after the sixteenth", too_many),
    ("lengths too short", |rng| wrong_lengths(rng, short)),
    ("lengths too long", |rng| wrong_lengths(rng, long)),
    ("lengths whose sum is too large by a multiple of 2^32", |rng| wrong_lengths(rng, wrapped)),
    ("wrong lengths and a bad sheet", wrong_lengths_and_fault),
    ("a length of 0", length_0),
    ("two sheets in one length", two_in_one),
    ("a byte of the next sheet in a length", byte_more),
    ("a byte left to the next sheet", byte_less),
    ("a fault in the first sheet", |rng| faulty(rng, |_, _| 0)),
    ("a fault in a middle sheet", |rng| faulty(rng, |rng, count| rng.between(1, count - 2))),
    ("a fault in the last sheet", |rng| faulty(rng, |_, count| count - 1)),
    ("a fault, and another in a later sheet", two_faults),
    ("a net that a sheet before drives", |rng| net_before(rng, |sheet| vec![sheet.net])),
    ("a net that a sheet before reads", |rng| net_before(rng, Sheet::leaves)),
    ("a net that a sheet before drives and another reads", driven_and_read),
    ("a net that the list drives", net_driven_by_list),
    ("a net that the list reads", net_read_by_list),
    ("too few tables left", too_few),
    ("too few tables left, and a fault in a later sheet", too_few_and_fault),
    ("K or capacity of the list out of range", out_of_range),
    ("a damaged list", |rng| damaged_list(some(rng, 1, 4)?.case()?, rng)),
    ("a damaged list, and wrong lengths", |rng| damaged_list(wrong_lengths(rng, short)?, rng)),
    ("damaged sheets", damaged_sheets),
    ("changed bytes or lengths", changed),
];

/// Case `index` of the run with this seed.
pub fn case(seed: u64, index: u64) -> Case {
    let mut rng = Rng::of_case(seed, index);
    let &(kind, make) = rng.pick(&KINDS);
    let case = (0..).find_map(|_| make(&mut rng)).expect("a case");
    Case { kind, ..case }
}

impl Case {
    /// All of it as bytes: the list, a line of the lengths, and the text.
    pub fn shown(&self) -> Vec<u8> {
        [&self.list[..], format!("{:?}\n", self.lengths).as_bytes(), &self.text].concat()
    }

    fn with_wanted(self, number: u32, sheet: usize, place: usize) -> Option<Case> {
        Some(Case { wanted: Some(Err(Refusal::new(number, sheet, place))), ..self })
    }
}

/// A part, and sheets that it accepts one after another.
struct Draft {
    part: Part,
    sheets: Vec<Sheet>,
}

impl Draft {
    /// So many sheets, and a part of no tables, of earlier sheets' tables or of any.
    fn of(rng: &mut Rng, count: usize) -> Option<Draft> {
        let earlier = rng.below(4);
        let mut earlier = generate::sheets(rng, earlier + count);
        let sheets = earlier.split_off(earlier.len().checked_sub(count)?);
        let part = match rng.below(3) {
            0 => Part { k: rng.between(2, 6), capacity: TABLES, tables: Vec::new() },
            1 => program::map(samples::input(rng.between(2, 6), TABLES, &earlier).as_bytes()).ok()?,
            _ => list_cases::part(rng),
        };
        let mut draft = Draft { part, sheets };
        let wanted = draft.tables(count);
        draft.part.capacity = match rng.below(3) {
            0 => wanted,
            1 => wanted + rng.below(20),
            _ => TABLES,
        };
        (draft.part.capacity <= TABLES && wanted <= TABLES && draft.nets_fit()).then_some(draft)
    }

    /// The tables of the part with so many of the sheets added.
    fn tables(&self, count: usize) -> usize {
        self.part.tables.len() + self.sheets[..count].iter().map(|sheet| generate::tables(sheet, self.part.k)).sum::<usize>()
    }

    /// Whether no sheet drives a net that the part, or a sheet before it, drives or reads.
    fn nets_fit(&self) -> bool {
        let (mut driven, mut read) = (self.part.driven(), self.part.read());
        self.sheets.iter().all(|sheet| {
            let free = !driven.contains(&sheet.net) && !read.contains(&sheet.net);
            driven.push(sheet.net);
            read.extend(sheet.leaves());
            free
        })
    }

    fn texts(&self) -> Vec<Vec<u8>> {
        self.sheets.iter().map(|sheet| sheet.text().into_bytes()).collect()
    }

    /// The set, which is accepted.
    fn case(self) -> Option<Case> {
        let case = Case { kind: "", list: self.part.list().into_bytes(), text: Vec::new(), lengths: Vec::new(), wanted: Some(Ok(())) };
        Some(with_texts(case, &self.texts()))
    }

    fn refused(self, number: u32, sheet: usize, place: usize) -> Option<Case> {
        self.case()?.with_wanted(number, sheet, place)
    }

    /// The set with another text in a sheet's place.
    fn with_bad(self, at: usize, bad: Bad) -> Option<Case> {
        let mut texts = self.texts();
        texts[at] = bad.text;
        with_texts(self.case()?, &texts).with_wanted(bad.number, at + 1, bad.line)
    }

    /// Sheet `at` drives this net, if none of its leaves is that.
    fn drives(mut self, at: usize, net: u16) -> Option<Draft> {
        self.sheets[at] = driving(self.sheets[at].clone(), net)?;
        Some(self)
    }

    /// Sheet `at` reads this net at one of its leaves, if at none before.
    fn reads(mut self, at: usize, net: u16) -> Option<Draft> {
        self.sheets[at] = reading(self.sheets[at].clone(), net)?;
        Some(self)
    }
}

/// The sheet with this output net, if none of its leaves is that.
pub(crate) fn driving(sheet: Sheet, net: u16) -> Option<Sheet> {
    (!sheet.leaves().contains(&net)).then_some(Sheet { net, ..sheet })
}

/// The sheet with this net at one of its leaves, if at none before.
pub(crate) fn reading(mut sheet: Sheet, net: u16) -> Option<Sheet> {
    if sheet.leaves().contains(&net) {
        return None;
    }
    let leaf = sheet.gates.iter_mut().flat_map(|gate| &mut gate.fanins).find(|edge| matches!(edge.source, Source::Net(_)))?;
    leaf.source = Source::Net(net);
    Some(sheet)
}

fn with_texts(case: Case, texts: &[Vec<u8>]) -> Case {
    let (text, lengths) = one_text(texts);
    Case { text, lengths, ..case }
}

/// The text of a set of these sheets, and their lengths.
pub(crate) fn one_text(texts: &[Vec<u8>]) -> (Vec<u8>, Vec<u32>) {
    (texts.concat(), texts.iter().map(|text| text.len() as u32).collect())
}

/// A draft of `least` to `most` sheets; one in eight has the most.
fn some(rng: &mut Rng, least: usize, most: usize) -> Option<Draft> {
    let count = if rng.once_in(8) { most } else { rng.between(least, most.min(least + 4)) };
    Draft::of(rng, count)
}

/// A draft of two sheets or more, and two of them, in order.
fn two_of(rng: &mut Rng) -> Option<(Draft, usize, usize)> {
    let draft = some(rng, 2, SHEETS)?;
    let second = rng.between(1, draft.sheets.len() - 1);
    Some((draft, rng.below(second), second))
}

/// One of these nets, if there is one.
fn one_of(rng: &mut Rng, nets: &[u16]) -> Option<u16> {
    nets.get(rng.below(nets.len().max(1))).copied()
}

fn good(rng: &mut Rng, count: usize) -> Option<Case> {
    Draft::of(rng, count)?.case()
}

fn all_tables(rng: &mut Rng) -> Option<Case> {
    let mut draft = some(rng, 1, SHEETS)?;
    draft.part.capacity = draft.tables(draft.sheets.len());
    draft.case()
}

fn reads_before(rng: &mut Rng) -> Option<Case> {
    let (draft, first, second) = two_of(rng)?;
    let net = draft.sheets[first].net;
    draft.reads(second, net)?.case()
}

fn reads_old(rng: &mut Rng) -> Option<Case> {
    let draft = some(rng, 1, SHEETS)?;
    let at = rng.below(draft.sheets.len());
    let net = one_of(rng, &draft.part.driven())?;
    draft.reads(at, net)?.case()
}

fn no_sheets(rng: &mut Rng) -> Option<Case> {
    let mut case = some(rng, 1, 4)?.refused(33, 0, 0)?;
    case.lengths.clear();
    if rng.once_in(2) {
        case.text.clear();
    }
    Some(case)
}

/// So many lengths of 0 after the others that the count is right modulo 2^8 or 2^16, or just too large.
fn too_many(rng: &mut Rng) -> Option<Case> {
    let mut case = some(rng, 1, SHEETS)?.refused(33, 0, 0)?;
    let count = *rng.pick(&[SHEETS + 1, case.lengths.len() + (1 << 8), case.lengths.len() + (1 << 16)]);
    case.lengths.resize(count, 0);
    Some(case)
}

/// What makes lengths that do not add up; it may leave them as they are.
type Change = fn(&mut Rng, &mut Vec<u32>);

fn wrong_lengths(rng: &mut Rng, change: Change) -> Option<Case> {
    changed_lengths(some(rng, 1, SHEETS)?.case()?, rng, change)
}

fn changed_lengths(case: Case, rng: &mut Rng, change: Change) -> Option<Case> {
    let mut lengths = case.lengths.clone();
    change(rng, &mut lengths);
    (lengths != case.lengths).then_some(Case { lengths, ..case })?.with_wanted(33, 0, 0)
}

fn short(rng: &mut Rng, lengths: &mut Vec<u32>) {
    let at = rng.below(lengths.len());
    match rng.below(3) {
        0 if lengths.len() > 1 => drop(lengths.remove(at)),
        1 => lengths[at] = 0,
        _ => lengths[at] -= 1,
    }
}

fn long(rng: &mut Rng, lengths: &mut Vec<u32>) {
    let at = rng.below(lengths.len());
    match rng.below(4) {
        0 if lengths.len() < SHEETS => lengths.insert(at, 1),
        1 => lengths[at] += 1 << 16,
        2 => lengths[at] = u32::MAX,
        _ => lengths[at] += 1,
    }
}

/// The sum is right modulo 2^32.
fn wrapped(rng: &mut Rng, lengths: &mut Vec<u32>) {
    let first = rng.below(lengths.len());
    let next = (first + 1) % lengths.len();
    match rng.below(4) {
        0 if lengths.len() + 2 <= SHEETS => lengths.extend([1 << 31, 1 << 31]),
        1 if lengths.len() + 2 <= SHEETS => lengths.extend([u32::MAX, 1]),
        2 if next != first => {
            let sum: u32 = lengths.iter().sum();
            lengths.fill(u32::MAX);
            lengths[first] = sum + lengths.len() as u32 - 1;
        }
        _ if next != first => {
            lengths[first] += 1 << 31;
            lengths[next] += 1 << 31;
        }
        _ => (),
    }
}

fn wrong_lengths_and_fault(rng: &mut Rng) -> Option<Case> {
    let case = faulty(rng, |rng, count| rng.below(count))?;
    let change = *rng.pick(&[short as Change, long, wrapped]);
    changed_lengths(case, rng, change)
}

fn length_0(rng: &mut Rng) -> Option<Case> {
    let mut case = some(rng, 1, SHEETS - 1)?.case()?;
    let at = rng.between(0, case.lengths.len());
    case.lengths.insert(at, 0);
    case.with_wanted(1, at + 1, 1)
}

/// A set, a sheet of it that is not the last, and the number of that sheet's last line.
fn before_another(rng: &mut Rng) -> Option<(Case, usize, usize)> {
    let draft = some(rng, 2, SHEETS)?;
    let at = rng.below(draft.sheets.len() - 1);
    let last = draft.sheets[at].gates.len() + 1;
    Some((draft.case()?, at, last))
}

fn two_in_one(rng: &mut Rng) -> Option<Case> {
    let (mut case, at, last) = before_another(rng)?;
    case.lengths[at] += case.lengths.remove(at + 1);
    case.with_wanted(1, at + 1, last + 1)
}

fn byte_more(rng: &mut Rng) -> Option<Case> {
    let (mut case, at, last) = before_another(rng)?;
    case.lengths[at] += 1;
    case.lengths[at + 1] -= 1;
    case.with_wanted(1, at + 1, last + 1)
}

fn byte_less(rng: &mut Rng) -> Option<Case> {
    let (mut case, at, last) = before_another(rng)?;
    case.lengths[at] -= 1;
    case.lengths[at + 1] += 1;
    case.with_wanted(1, at + 1, last)
}

/// A sheet's text that is refused, with the number and the line.
pub(crate) struct Bad {
    pub text: Vec<u8>,
    pub number: u32,
    pub line: usize,
}

/// A good sheet with one fault put in.
pub(crate) fn fault(rng: &mut Rng, sheet: &Sheet) -> Bad {
    if rng.once_in(3) {
        fault_in_text(rng, sheet)
    } else {
        fault_in_sheet(rng, sheet.clone())
    }
}

/// For 1 and 6.
fn fault_in_text(rng: &mut Rng, sheet: &Sheet) -> Bad {
    let mut text = sheet.text().into_bytes();
    let gates = sheet.gates.len();
    let gate = rng.below(gates);
    let ends: Vec<usize> = (0..text.len()).filter(|&at| text[at] == b'\n').collect(); // `ends[gate]` is before the gate's line
    let (number, line) = match rng.below(4) {
        0 => {
            text.push(*rng.pick(b"\n x"));
            (1, gates + 2)
        }
        1 => {
            text.pop();
            (1, gates + 1)
        }
        2 => {
            text.truncate(ends[gate] + 1);
            (1, gate + 2)
        }
        _ => {
            text[ends[gate] + 6] = b'3';
            (6, gate + 2)
        }
    };
    Bad { text, number, line }
}

/// For 4, 5 and 7 to 13.
fn fault_in_sheet(rng: &mut Rng, mut sheet: Sheet) -> Bad {
    let gate = rng.below(sheet.gates.len());
    let fanins = &mut sheet.gates[gate].fanins;
    let (number, line) = match rng.below(9) {
        0 => {
            sheet.net = *rng.pick(&[0, NETS as u16 + 1]);
            (4, 1)
        }
        1 => {
            sheet.gates.clear();
            (5, 1)
        }
        2 => {
            fanins.truncate(1);
            (7, gate + 2)
        }
        3 => {
            fanins[0].source = *rng.pick(&[Source::Net(0), Source::Gate(gate), Source::Gate(GATES)]);
            (8, gate + 2)
        }
        4 | 5 => {
            fanins[1].source = fanins[0].source;
            (if matches!(fanins[0].source, Source::Net(_)) { 10 } else { 9 }, gate + 2)
        }
        6 => {
            fanins[0].source = Source::Net(sheet.net);
            (11, gate + 2)
        }
        7 => {
            sheet = samples::chain(sheet.net, apart(sheet.net), GATES, 2);
            sheet.gates[GATES - 1].fanins.push(upright(apart(sheet.net) + 500));
            (12, GATES + 1)
        }
        _ => {
            sheet.gates = (0..2).map(|gate| two_leaves(apart(sheet.net) + 2 * gate)).collect();
            (13, 2)
        }
    };
    Bad { text: sheet.text().into_bytes(), number, line }
}

/// The first of a thousand nets without this one.
pub(crate) fn apart(net: u16) -> u16 {
    if net > 5000 {
        1
    } else {
        6000
    }
}

fn upright(net: u16) -> Edge {
    Edge { inverted: false, source: Source::Net(net) }
}

fn two_leaves(first: u16) -> Gate {
    Gate { kind: Kind::And, fanins: vec![upright(first), upright(first + 1)] }
}

/// A fault in the sheet that `at` chooses among three or more.
fn faulty(rng: &mut Rng, at: fn(&mut Rng, usize) -> usize) -> Option<Case> {
    let draft = some(rng, 3, SHEETS)?;
    let at = at(rng, draft.sheets.len());
    let bad = fault(rng, &draft.sheets[at]);
    draft.with_bad(at, bad)
}

/// The earlier fault is the one that counts.
fn two_faults(rng: &mut Rng) -> Option<Case> {
    let (mut draft, first, second) = two_of(rng)?;
    draft.sheets[second].net = 0;
    let bad = fault(rng, &draft.sheets[first]);
    draft.with_bad(first, bad)
}

/// A sheet drives one of the nets that `nets` gives of a sheet before it.
fn net_before(rng: &mut Rng, nets: fn(&Sheet) -> Vec<u16>) -> Option<Case> {
    let (draft, first, second) = two_of(rng)?;
    let net = *rng.pick(&nets(&draft.sheets[first]));
    let driven = draft.part.driven().contains(&net) || draft.sheets[..second].iter().any(|sheet| sheet.net == net);
    draft.drives(second, net)?.refused(if driven { 21 } else { 22 }, second + 1, 0)
}

fn driven_and_read(rng: &mut Rng) -> Option<Case> {
    let draft = some(rng, 3, SHEETS)?;
    let last = rng.between(2, draft.sheets.len() - 1);
    let reader = rng.between(1, last - 1);
    let net = draft.sheets[rng.below(reader)].net;
    draft.reads(reader, net)?.drives(last, net)?.refused(21, last + 1, 0)
}

fn net_driven_by_list(rng: &mut Rng) -> Option<Case> {
    let draft = some(rng, 1, SHEETS)?;
    let nets = draft.part.driven();
    drives_one_of(rng, draft, &nets, 21)
}

fn net_read_by_list(rng: &mut Rng) -> Option<Case> {
    let draft = some(rng, 1, SHEETS)?;
    let driven = draft.part.driven();
    let nets: Vec<u16> = draft.part.read().into_iter().filter(|net| !driven.contains(net)).collect();
    drives_one_of(rng, draft, &nets, 22)
}

/// A sheet drives one of these nets, if there is one.
fn drives_one_of(rng: &mut Rng, draft: Draft, nets: &[u16], number: u32) -> Option<Case> {
    let at = rng.below(draft.sheets.len());
    draft.drives(at, one_of(rng, nets)?)?.refused(number, at + 1, 0)
}

/// A draft, and a sheet of it for which the part has a table too few, or more.
fn too_few_for(rng: &mut Rng) -> Option<(Draft, usize)> {
    let mut draft = some(rng, 1, SHEETS)?;
    let at = rng.below(draft.sheets.len());
    let (before, after) = (draft.tables(at), draft.tables(at + 1));
    draft.part.capacity = if rng.once_in(2) { after - 1 } else { before };
    (draft.part.capacity > 0).then_some((draft, at))
}

fn too_few(rng: &mut Rng) -> Option<Case> {
    let (draft, at) = too_few_for(rng)?;
    draft.refused(23, at + 1, 0)
}

fn too_few_and_fault(rng: &mut Rng) -> Option<Case> {
    let (draft, at) = too_few_for(rng)?;
    let last = draft.sheets.len() - 1;
    let bad = fault(rng, &draft.sheets[last]);
    (at < last).then_some(draft)?.with_bad(last, bad)?.with_wanted(23, at + 1, 0)
}

fn out_of_range(rng: &mut Rng) -> Option<Case> {
    let mut draft = some(rng, 1, 4)?;
    if rng.once_in(2) {
        draft.part.k = *rng.pick(&[0, 1, 7]);
        return draft.refused(2, 0, 0);
    }
    draft.part.capacity = *rng.pick(&[0, TABLES + 1]);
    draft.refused(3, 0, 0)
}

fn damaged_list(case: Case, rng: &mut Rng) -> Option<Case> {
    let damaged = list_cases::damaged(rng);
    let (number, line) = damaged.wanted.err()?;
    Case { list: damaged.text, ..case }.with_wanted(number, 0, line)
}

/// The sheets of an input with faults, for any part.
fn damaged_sheets(rng: &mut Rng) -> Option<Case> {
    let texts = generate::damaged_sheets(rng);
    Some(Case { wanted: None, ..with_texts(good(rng, 1)?, &texts) })
}

/// Some bytes changed, left out or put in, or the text cut otherwise; then, where the text is longer or shorter, the last length mostly too.
fn changed(rng: &mut Rng) -> Option<Case> {
    let mut case = some(rng, 1, SHEETS)?.case()?;
    if rng.once_in(2) {
        generate::change_bytes(rng, &mut case.text);
    } else {
        let at = rng.below(case.lengths.len());
        let by = rng.below(60) as u32;
        case.lengths[at] = if rng.once_in(2) { case.lengths[at] + by } else { case.lengths[at].saturating_sub(by) };
    }
    let others: usize = case.lengths.iter().rev().skip(1).map(|&length| length as usize).sum();
    if let (Some(last), Some(rest), false) = (case.lengths.last_mut(), case.text.len().checked_sub(others), rng.once_in(8)) {
        *last = rest as u32;
    }
    Some(Case { wanted: None, ..case })
}
