//! A generator of sequences of calls: sets, reservations, commits and withdrawals, each on the part that the call before it handed back.
//!
//! The right answers are known from how the calls are made, but for the last one of some sequences: no sheet is read for them.

use std::collections::BTreeSet;

use crate::generate;
use crate::list_cases;
use crate::part::Part;
use crate::program;
use crate::refusal::Refusal;
use crate::reservation::{Call, Reservation};
use crate::rng::Rng;
use crate::samples;
use crate::set_cases::{apart, driving, fault, one_text, reading};
use crate::sheet::Sheet;
use crate::{GATES, NETS, TABLES};
use When::{Always, Closed, Open};

/// One call of a sequence, what it was made as, and what is right for it.
pub struct Step {
    pub kind: &'static str,
    /// A damaged list that is handed over in place of the part's, for this call.
    pub list: Option<Vec<u8>>,
    /// The numbers that stand in place of the reservation's from here on.
    pub numbers: Option<Reservation>,
    pub call: Call,
    /// The reservation after the call, or its refusal, where the making tells it.
    pub wanted: Option<Result<Reservation, Refusal>>,
}

/// The list of a part, the numbers of its reservation, sound or not, and calls one after another.
pub struct Sequence {
    pub list: Vec<u8>,
    pub reservation: Reservation,
    pub steps: Vec<Step>,
}

impl Sequence {
    /// All of it as bytes: the list and the reservation, then each call with what it was made as.
    pub fn shown(&self) -> Vec<u8> {
        let mut shown = [&self.list[..], format!("{:?}\n", self.reservation).as_bytes()].concat();
        for Step { kind, list, numbers, call, wanted } in &self.steps {
            shown.extend(format!("\n{kind}: {wanted:?}\n").as_bytes());
            shown.extend(list.iter().flatten());
            shown.extend(numbers.map_or(String::new(), |numbers| format!("{numbers:?}\n")).as_bytes());
            match call {
                Call::AddSet { text, lengths } => shown.extend([format!("add {lengths:?}\n").as_bytes(), text].concat()),
                Call::Reserve { text } => shown.extend([b"reserve\n", &text[..]].concat()),
                Call::Commit { text } => shown.extend([b"commit\n", &text[..]].concat()),
                Call::Withdraw => shown.extend(b"withdraw\n"),
            }
        }
        shown
    }
}

/// A call on what is known, and what is known after it, or its refusal.
type Made = (Call, Result<Known, Refusal>);

/// What makes calls of a kind; now and then it has none to give.
type Make = fn(&mut Rng, &Known) -> Option<Made>;

/// Whether calls of a kind are made where a reservation is open, where none is, or in both cases.
enum When {
    Open,
    Closed,
    Always,
}

/// The kinds of calls on sound parts whose answer is known.
const KINDS: [(&str, When, Make); 45] = [
    ("a reservation", Closed, |rng, known| Some(known.reserving(some_sheet(rng, known, known.left())?))),
    ("a set that fits", Always, set_that_fits),
    ("a set that takes all tables left", Closed, |rng, known| set_of(rng, known, known.left())),
    ("a set of a table too many", Closed, |rng, known| set_of(rng, known, known.left() + 1)),
    ("a set that takes all tables left beside a reservation", Open, |rng, known| set_of(rng, known, known.beside())),
    ("a set that needs one table set aside", Open, |rng, known| set_of(rng, known, known.beside() + 1)),
    ("a set that needs all tables set aside", Open, |rng, known| set_of(rng, known, known.left())),
    ("a set of more tables than are not used", Open, |rng, known| set_of(rng, known, known.left() + 1)),
    ("a set that drives the reserved net", Open, drives_reserved),
    ("a set that drives the reserved net and needs tables set aside", Open, drives_reserved_refused),
    ("a set that reads the reserved net", Open, reads_reserved),
    ("a set of a driven net", Always, |rng, known| clashing_set(rng, known, &known.driven, 21)),
    ("a set of a read net", Always, |rng, known| clashing_set(rng, known, &known.only_read(), 22)),
    ("a set with a fault", Always, faulty_set),
    ("lengths that do not add up", Always, wrong_lengths),
    ("a reservation of all tables left", Closed, |rng, known| Some(known.reserving(sheet_of(rng, known, known.left())?))),
    ("a reservation of a table too many", Closed, |rng, known| Some(reserve_refused(&sheet_of(rng, known, known.left() + 1)?.sheet, 23))),
    ("a reservation of a driven net", Closed, |rng, known| Some(reserve_refused(&one_clashing(rng, known, &known.driven)?, 21))),
    ("a reservation of a read net", Closed, |rng, known| Some(reserve_refused(&one_clashing(rng, known, &known.only_read())?, 22))),
    ("a reservation of a sheet with a fault", Closed, |rng, known| faulty(rng, known, None, |text| Call::Reserve { text })),
    ("a second reservation", Open, |rng, known| Some(reserve_refused(&any_sheet(rng, known)?, 35))),
    ("a second reservation of the same sheet", Open, |_, known| Some(reserve_refused(&known.reserved.as_ref()?.sheet, 35))),
    ("a second reservation, of a driven net", Open, |rng, known| Some(reserve_refused(&one_clashing(rng, known, &known.driven)?, 35))),
    ("a second reservation, of a sheet with a fault", Open, |rng, known| faulty(rng, known, Some(35), |text| Call::Reserve { text })),
    ("a commit with none open", Closed, |rng, known| Some(commit_refused(&any_sheet(rng, known)?, 36))),
    ("a commit with none open, of a sheet with a fault", Closed, |rng, known| faulty(rng, known, Some(36), |text| Call::Commit { text })),
    ("a commit of the reserved sheet", Open, |_, known| known.committing(known.reserved.clone()?)),
    ("a commit of the reserved sheet inverted", Open, |_, known| known.committing(inverted(known.reserved.clone()?))),
    ("a commit of the reserved sheet, its net driven since", Open, |_, known| {
        commit_taken(known, known.reserved.clone()?, &known.driven, 21)
    }),
    ("a commit of the reserved sheet, its net read since", Open, |_, known| {
        commit_taken(known, known.reserved.clone()?, &known.only_read(), 22)
    }),
    ("a commit of another sheet of the net", Open, commit_any),
    ("a commit of fewer tables than are set aside", Open, |rng, known| commit_between(rng, known, 1, known.set_aside() - 1)),
    ("a commit of more tables than are set aside", Open, |rng, known| commit_between(rng, known, known.set_aside() + 1, known.left())),
    ("a commit of all tables that are not used", Open, |rng, known| commit_between(rng, known, known.left(), known.left())),
    ("a commit of a table too many", Open, commit_too_many),
    ("a commit of a driven net", Open, |rng, known| commit_taken(known, sheet_of_reserved(rng, known)?, &known.driven, 21)),
    ("a commit of a read net", Open, |rng, known| commit_taken(known, sheet_of_reserved(rng, known)?, &known.only_read(), 22)),
    ("a commit of another net", Open, |rng, known| commit_other(known, any_sheet(rng, known)?)),
    ("a commit of another net, a driven one", Open, |rng, known| commit_other(known, one_clashing(rng, known, &known.driven)?)),
    ("a commit of another net, a read one", Open, |rng, known| commit_other(known, one_clashing(rng, known, &known.only_read())?)),
    ("a commit of another net, of a table too many", Open, |rng, known| commit_other(known, sheet_of(rng, known, known.left() + 1)?.sheet)),
    ("a commit of a sheet with a fault", Open, faulty_commit),
    ("a commit of another net, of a sheet with a fault", Open, |rng, known| faulty(rng, known, None, |text| Call::Commit { text })),
    ("a withdrawal", Open, |_, known| Some((Call::Withdraw, Ok(known.without_reservation())))),
    ("a withdrawal with none open", Closed, |_, _| Some((Call::Withdraw, Err(placeless(36))))),
];

/// The kinds of calls that are made as one of those, and then handed over with other numbers, with another list, or with both.
const UNSOUND: &str = "numbers that are no reservation";
const DAMAGED: &str = "a damaged list";
const BOTH: &str = "a damaged list, and numbers that are no reservation";

/// What makes the last call of some sequences, whose answer is not known.
type MakeLast = fn(&mut Rng, &Known) -> Option<Call>;

const LAST_KINDS: [(&str, MakeLast); 2] = [("damaged sheets", damaged_sheets), ("changed bytes", changed_bytes)];

/// The kinds of calls.
pub fn kinds() -> impl Iterator<Item = &'static str> {
    let on_sound_parts = KINDS.map(|(kind, ..)| kind).into_iter().chain(LAST_KINDS.map(|(kind, _)| kind));
    on_sound_parts.chain([UNSOUND, DAMAGED, BOTH])
}

/// Sequence `index` of the run with this seed: two to twelve calls, and in one of four another whose answer is not known.
pub fn sequence(seed: u64, index: u64) -> Sequence {
    let mut rng = Rng::of_case(seed, index);
    let part = start(&mut rng);
    let mut known = Known::of(&part);
    if rng.once_in(8) {
        known.reservation = sound_numbers(&mut rng, &known);
    }
    let mut unsound = rng.once_in(24);
    let reservation = if unsound { unsound_numbers(&mut rng, &known) } else { known.reservation };
    let mut steps: Vec<Step> = (0..rng.between(2, 12)).map(|_| next(&mut rng, &mut known, &mut unsound)).collect();
    if !unsound && rng.once_in(4) {
        let &(kind, make) = rng.pick(&LAST_KINDS);
        let call = (0..).find_map(|_| make(&mut rng, &known)).expect("a call");
        steps.push(Step { kind, list: None, numbers: None, call, wanted: None });
    }
    Sequence { list: part.list().into_bytes(), reservation, steps }
}

/// A part of no tables, of some sheets' tables or of any, with room for a few more, for many or for none.
fn start(rng: &mut Rng) -> Part {
    let mut part = match rng.below(24) {
        0 => list_cases::part(rng),
        1..=8 => mapped(rng),
        _ => Part { k: rng.between(2, 6), capacity: TABLES, tables: Vec::new() },
    };
    let left = match rng.below(10) {
        0 => TABLES,
        1 => 0,
        _ => rng.between(1, 12),
    };
    part.capacity = (part.tables.len() + left).clamp(1, TABLES);
    part
}

/// What the mapper makes of one to three sheets.
fn mapped(rng: &mut Rng) -> Part {
    let count = rng.between(1, 3);
    let sheets = generate::sheets(rng, count);
    program::map(samples::input(rng.between(2, 6), TABLES, &sheets).as_bytes()).expect("no more than 765 tables")
}

/// The next call. `unsound` says whether the numbers are no reservation; they are put right again after a call or two.
fn next(rng: &mut Rng, known: &mut Known, unsound: &mut bool) -> Step {
    let numbers = changed_numbers(rng, known, unsound);
    let (kind, (call, after)) = made(rng, known);
    if rng.once_in(if *unsound { 12 } else { 100 }) {
        let (list, refusal) = damaged_list(rng);
        return Step { kind: if *unsound { BOTH } else { DAMAGED }, list: Some(list), numbers, call, wanted: Some(Err(refusal)) };
    }
    if *unsound {
        return Step { kind: UNSOUND, list: None, numbers, call, wanted: Some(Err(placeless(20))) };
    }
    let wanted = after.as_ref().map(|after| after.reservation).map_err(|&refusal| refusal);
    *known = after.unwrap_or(known.clone());
    Step { kind, list: None, numbers, call, wanted: Some(wanted) }
}

/// A call of a kind that fits the reservation. Where none is open, one of the first kind, which opens one, is tried more often than others.
fn made(rng: &mut Rng, known: &Known) -> (&'static str, Made) {
    loop {
        let (kind, when, make) = if rng.once_in(8) { &KINDS[0] } else { rng.pick(&KINDS) };
        let fits = match when {
            Open => known.set_aside() > 0,
            Closed => known.set_aside() == 0,
            Always => true,
        };
        if let Some(made) = fits.then(|| make(rng, known)).flatten() {
            return (kind, made);
        }
    }
}

/// Now and then other numbers in place of the reservation's, sound or not.
fn changed_numbers(rng: &mut Rng, known: &mut Known, unsound: &mut bool) -> Option<Reservation> {
    if *unsound {
        *unsound = rng.once_in(2);
        return (!*unsound).then_some(known.reservation);
    }
    match rng.below(50) {
        0 | 1 => {
            *unsound = true;
            Some(unsound_numbers(rng, known))
        }
        2 => {
            known.reservation = sound_numbers(rng, known);
            known.reserved = None;
            Some(known.reservation)
        }
        _ => None,
    }
}

/// A reservation that the part may have, none among them.
fn sound_numbers(rng: &mut Rng, known: &Known) -> Reservation {
    let any = rng.between(0, known.left());
    let tables = known.left().min(*rng.pick(&[0, 1, TABLES, any]));
    if tables == 0 {
        return Reservation::NONE;
    }
    let taken = [any_of(rng, &known.driven), any_of(rng, &known.read), None, None];
    let net = rng.pick(&taken).unwrap_or_else(|| any_net(rng));
    Reservation { tables: tables as u16, net }
}

/// Numbers that are no reservation of the part: more tables than are not used, just one zero, or what is no net.
fn unsound_numbers(rng: &mut Rng, known: &Known) -> Reservation {
    let (left, used) = (known.left() as u16, rng.between(0, known.used) as u16);
    let tables = rng.between(known.left().min(1), known.left()) as u16;
    let net = any_net(rng);
    let more_tables = [(left + 1, net), (u16::MAX - used, net), (1 << 15, net)];
    let one_zero = [(0, net), (tables.max(1), 0)];
    let no_net = [(tables, NETS as u16 + 1), (tables, u16::MAX)];
    let (tables, net) = *rng.pick(&[&more_tables[..], &one_zero, &no_net].concat());
    Reservation { tables, net }
}

/// A damaged list and its refusal.
fn damaged_list(rng: &mut Rng) -> (Vec<u8>, Refusal) {
    let list_cases::Case { text, wanted, .. } = list_cases::damaged(rng);
    let (number, line) = wanted.expect_err("a damaged list");
    (text, Refusal::new(number, 0, line))
}

/// A sheet, and the least number of its tables at the part's K.
#[derive(Clone)]
struct Counted {
    sheet: Sheet,
    tables: usize,
}

/// What is known of a part and its reservation from how the calls before were made.
#[derive(Clone)]
struct Known {
    k: usize,
    capacity: usize,
    used: usize,
    driven: BTreeSet<u16>,
    read: BTreeSet<u16>,
    reservation: Reservation,
    /// The sheet that the reservation was made for, where a call of the sequence made it.
    reserved: Option<Counted>,
}

impl Known {
    fn of(part: &Part) -> Known {
        Known {
            k: part.k,
            capacity: part.capacity,
            used: part.tables.len(),
            driven: part.driven().into_iter().collect(),
            read: part.read().into_iter().collect(),
            reservation: Reservation::NONE,
            reserved: None,
        }
    }

    /// The tables that are not used.
    fn left(&self) -> usize {
        self.capacity - self.used
    }

    fn set_aside(&self) -> usize {
        self.reservation.tables.into()
    }

    /// The tables that are neither used nor set aside.
    fn beside(&self) -> usize {
        self.left() - self.set_aside()
    }

    /// Whether a sheet may drive the net.
    fn is_free(&self, net: u16) -> bool {
        !self.driven.contains(&net) && !self.read.contains(&net)
    }

    /// The nets that are read and not driven.
    fn only_read(&self) -> BTreeSet<u16> {
        self.read.difference(&self.driven).copied().collect()
    }

    /// What is known after the sheet is added.
    fn with(mut self, Counted { sheet, tables }: &Counted) -> Known {
        self.used += tables;
        self.driven.insert(sheet.net);
        self.read.extend(sheet.leaves());
        self
    }

    fn without_reservation(&self) -> Known {
        Known { reservation: Reservation::NONE, reserved: None, ..self.clone() }
    }

    /// The accepted reservation of a sheet.
    fn reserving(&self, counted: Counted) -> Made {
        let reservation = Reservation { tables: counted.tables as u16, net: counted.sheet.net };
        let call = Call::Reserve { text: text(&counted.sheet) };
        (call, Ok(Known { reservation, reserved: Some(counted), ..self.clone() }))
    }

    /// The accepted commit of a sheet, where the reserved net is free.
    fn committing(&self, counted: Counted) -> Option<Made> {
        self.is_free(self.reservation.net)
            .then(|| (Call::Commit { text: text(&counted.sheet) }, Ok(self.without_reservation().with(&counted))))
    }
}

fn text(sheet: &Sheet) -> Vec<u8> {
    sheet.text().into_bytes()
}

fn inverted(mut counted: Counted) -> Counted {
    counted.sheet.inverted = !counted.sheet.inverted;
    counted
}

/// A refusal without a place, and of no sheet of a set.
fn placeless(number: u32) -> Refusal {
    Refusal::new(number, 0, 0)
}

fn reserve_refused(sheet: &Sheet, number: u32) -> Made {
    (Call::Reserve { text: text(sheet) }, Err(placeless(number)))
}

fn commit_refused(sheet: &Sheet, number: u32) -> Made {
    (Call::Commit { text: text(sheet) }, Err(placeless(number)))
}

/// Any net; one in eight is the least or the greatest.
fn any_net(rng: &mut Rng) -> u16 {
    let most = NETS as u16;
    match rng.below(16) {
        0 => 1,
        1 => most,
        _ => rng.between(1, NETS as usize) as u16,
    }
}

/// One of these nets, if there is one.
fn any_of(rng: &mut Rng, nets: &BTreeSet<u16>) -> Option<u16> {
    nets.iter().nth(rng.below(nets.len().max(1))).copied()
}

/// A sheet of this net that takes so many tables: a chain of gates of two fanins, of which a table of K inputs holds K - 1.
fn sheet_for(rng: &mut Rng, k: usize, net: u16, tables: usize) -> Option<Counted> {
    let most = tables * (k - 1);
    let gates = rng.between((most + 2).checked_sub(k)?, most);
    if !(1..=GATES).contains(&gates) {
        return None;
    }
    let first = apart(net) + rng.below(3000) as u16;
    let sheet = Sheet { inverted: rng.once_in(2), ..samples::chain(net, first, gates, 2) };
    Some(Counted { sheet, tables })
}

/// A sheet of a free net that takes so many tables.
fn sheet_of(rng: &mut Rng, known: &Known, tables: usize) -> Option<Counted> {
    let net = any_net(rng);
    known.is_free(net).then_some(())?;
    sheet_for(rng, known.k, net, tables)
}

/// Any sheet of a free net.
fn any_sheet(rng: &mut Rng, known: &Known) -> Option<Sheet> {
    if rng.once_in(2) {
        let tables = rng.between(1, 8);
        return sheet_of(rng, known, tables).map(|counted| counted.sheet);
    }
    generated(rng, known)
}

/// Any sheet of a free net that takes at most so many tables.
fn some_sheet(rng: &mut Rng, known: &Known, most: usize) -> Option<Counted> {
    if rng.once_in(2) {
        let tables = rng.between(1, most.clamp(1, 8));
        return sheet_of(rng, known, tables).filter(|_| tables <= most);
    }
    let sheet = generated(rng, known)?;
    let tables = generate::tables(&sheet, known.k);
    (tables <= most).then_some(Counted { sheet, tables })
}

/// A generated sheet, if its net is free.
fn generated(rng: &mut Rng, known: &Known) -> Option<Sheet> {
    generate::sheets(rng, 1).pop().filter(|sheet| known.is_free(sheet.net))
}

/// A sheet of one of these nets.
fn one_clashing(rng: &mut Rng, known: &Known, nets: &BTreeSet<u16>) -> Option<Sheet> {
    let net = any_of(rng, nets)?;
    driving(any_sheet(rng, known)?, net)
}

/// A set of these texts.
fn set(texts: &[Vec<u8>]) -> Call {
    let (text, lengths) = one_text(texts);
    Call::AddSet { text, lengths }
}

/// The text of each of these sheets.
fn texts(sheets: &[Counted]) -> Vec<Vec<u8>> {
    sheets.iter().map(|counted| text(&counted.sheet)).collect()
}

/// A set of one to three sheets that find tables enough.
fn set_that_fits(rng: &mut Rng, known: &Known) -> Option<Made> {
    let (mut sheets, mut after) = (Vec::new(), known.clone());
    for _ in 0..rng.between(1, 3) {
        let counted = some_sheet(rng, &after, after.beside())?;
        after = after.with(&counted);
        sheets.push(counted);
    }
    Some((set(&texts(&sheets)), Ok(after)))
}

/// A set of up to four sheets that take so many tables together: it is refused at the first sheet that finds too few.
fn set_of(rng: &mut Rng, known: &Known, tables: usize) -> Option<Made> {
    let (mut sheets, mut after, mut left, mut short) = (Vec::new(), known.clone(), tables, None);
    while left > 0 {
        let next = if sheets.len() == 3 { left } else { rng.between(1, left) };
        let counted = sheet_of(rng, &after, next)?;
        left -= next;
        sheets.push(counted);
        if tables - left > known.beside() {
            short = short.or(Some(sheets.len()));
        }
        after = after.with(&sheets[sheets.len() - 1]);
    }
    let wanted = short.map_or(Ok(after), |position| Err(Refusal::new(23, position, 0)));
    (!sheets.is_empty()).then(|| (set(&texts(&sheets)), wanted))
}

/// No sheet, or one that finds tables enough, to stand before another.
fn before(rng: &mut Rng, known: &Known) -> Option<Vec<Counted>> {
    Some(if rng.once_in(2) { Vec::new() } else { vec![some_sheet(rng, known, known.beside())?] })
}

/// An accepted set of this sheet, or of another and this.
fn set_with(rng: &mut Rng, known: &Known, last: Counted) -> Option<Made> {
    let mut sheets = before(rng, known)?;
    let after = sheets.iter().fold(known.clone(), Known::with);
    (last.tables <= after.beside() && after.is_free(last.sheet.net)).then_some(())?;
    sheets.push(last);
    Some((set(&texts(&sheets)), Ok(after.with(&sheets[sheets.len() - 1]))))
}

fn drives_reserved(rng: &mut Rng, known: &Known) -> Option<Made> {
    let tables = rng.between(1, known.beside().max(1));
    let last = sheet_for(rng, known.k, known.reservation.net, tables)?;
    set_with(rng, known, last)
}

fn drives_reserved_refused(rng: &mut Rng, known: &Known) -> Option<Made> {
    let net = known.reservation.net;
    let tables = rng.between(known.beside() + 1, known.left());
    let only = sheet_for(rng, known.k, net, tables).filter(|_| known.is_free(net))?;
    Some((set(&texts(&[only])), Err(Refusal::new(23, 1, 0))))
}

fn reads_reserved(rng: &mut Rng, known: &Known) -> Option<Made> {
    let net = known.reservation.net;
    let Counted { sheet, tables } = some_sheet(rng, known, known.beside())?;
    let sheet = reading(sheet, net).filter(|sheet| sheet.net != net)?;
    set_with(rng, known, Counted { sheet, tables })
}

/// A set whose last sheet drives one of these nets.
fn clashing_set(rng: &mut Rng, known: &Known, nets: &BTreeSet<u16>, number: u32) -> Option<Made> {
    let mut texts = texts(&before(rng, known)?);
    texts.push(text(&one_clashing(rng, known, nets)?));
    Some((set(&texts), Err(Refusal::new(number, texts.len(), 0))))
}

/// A set whose last sheet has a fault.
fn faulty_set(rng: &mut Rng, known: &Known) -> Option<Made> {
    let mut texts = texts(&before(rng, known)?);
    let sheet = any_sheet(rng, known)?;
    let bad = fault(rng, &sheet);
    texts.push(bad.text);
    Some((set(&texts), Err(Refusal::new(bad.number, texts.len(), bad.line))))
}

/// A set, fitting or not, of which one length is a byte too long or too short, or that has none.
fn wrong_lengths(rng: &mut Rng, known: &Known) -> Option<Made> {
    let tables = rng.between(1, known.left() + 1);
    let Call::AddSet { text, mut lengths } = set_of(rng, known, tables)?.0 else { return None };
    let at = rng.below(lengths.len());
    match rng.below(3) {
        0 => lengths[at] += 1,
        1 => lengths[at] -= 1,
        _ => lengths.clear(),
    }
    Some((Call::AddSet { text, lengths }, Err(placeless(33))))
}

/// A call of a sheet with a fault, which is refused for that, or before it with `number`.
fn faulty(rng: &mut Rng, known: &Known, number: Option<u32>, call: fn(Vec<u8>) -> Call) -> Option<Made> {
    let sheet = any_sheet(rng, known)?;
    let bad = fault(rng, &sheet);
    Some((call(bad.text), Err(number.map_or(Refusal::new(bad.number, 0, bad.line), placeless))))
}

/// A commit of a sheet of the reserved net with a fault.
fn faulty_commit(rng: &mut Rng, known: &Known) -> Option<Made> {
    let sheet = driving(any_sheet(rng, known)?, known.reservation.net)?;
    let bad = fault(rng, &sheet);
    Some((Call::Commit { text: bad.text }, Err(Refusal::new(bad.number, 0, bad.line))))
}

/// A commit of any sheet of the reserved net that finds tables enough.
fn commit_any(rng: &mut Rng, known: &Known) -> Option<Made> {
    let Counted { sheet, tables } = some_sheet(rng, known, known.left())?;
    known.committing(Counted { sheet: driving(sheet, known.reservation.net)?, tables })
}

/// A commit of a sheet of the reserved net that takes so many tables.
fn commit_between(rng: &mut Rng, known: &Known, least: usize, most: usize) -> Option<Made> {
    let tables = (least <= most).then(|| rng.between(least, most))?;
    known.committing(sheet_for(rng, known.k, known.reservation.net, tables)?)
}

fn commit_too_many(rng: &mut Rng, known: &Known) -> Option<Made> {
    known.is_free(known.reservation.net).then_some(())?;
    Some(commit_refused(&sheet_for(rng, known.k, known.reservation.net, known.left() + 1)?.sheet, 23))
}

/// A sheet of the reserved net, which may need too many tables.
fn sheet_of_reserved(rng: &mut Rng, known: &Known) -> Option<Counted> {
    let tables = rng.between(1, known.left() + 1);
    sheet_for(rng, known.k, known.reservation.net, tables)
}

/// A commit of a sheet of the reserved net, if that is one of these.
fn commit_taken(known: &Known, counted: Counted, nets: &BTreeSet<u16>, number: u32) -> Option<Made> {
    nets.contains(&known.reservation.net).then(|| commit_refused(&counted.sheet, number))
}

/// A commit of a sheet, if its net is not the reserved one.
fn commit_other(known: &Known, sheet: Sheet) -> Option<Made> {
    (sheet.net != known.reservation.net).then(|| commit_refused(&sheet, 36))
}

/// A set, a reservation or a commit of the sheets of an input with faults.
fn damaged_sheets(rng: &mut Rng, known: &Known) -> Option<Call> {
    let texts = generate::damaged_sheets(rng);
    if rng.once_in(2) {
        return Some(set(&texts));
    }
    let text = texts.into_iter().next()?;
    Some(if known.set_aside() > 0 { Call::Commit { text } } else { Call::Reserve { text } })
}

/// A call of which some bytes are changed, left out or put in; the last sheet of a set has them.
fn changed_bytes(rng: &mut Rng, known: &Known) -> Option<Call> {
    let mut call = made(rng, known).1 .0;
    match &mut call {
        Call::Withdraw => return None,
        Call::Reserve { text } | Call::Commit { text } => generate::change_bytes(rng, text),
        Call::AddSet { text, lengths } => {
            let length = text.len();
            generate::change_bytes(rng, text);
            let last = lengths.last_mut()?;
            *last = (*last as usize + text.len()).checked_sub(length)? as u32;
        }
    }
    Some(call)
}
