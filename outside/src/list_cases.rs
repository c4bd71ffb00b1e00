//! A generator of list texts: lists of sound parts, and what one or two changes make of them, each with the answer that is right.
//!
//! The answer comes from the numbers that a text is written from, and from where a byte of it was changed: no text is read for it, but for
//! the one field that a changed byte stands in.

use crate::generate;
use crate::list::Answer;
use crate::part::{Part, Table};
use crate::program;
use crate::rng::Rng;
use crate::{CODES, INPUTS, NETS, TABLES};

/// One text, what it was made as, and the right answer.
pub struct Case {
    pub name: &'static str,
    pub text: Vec<u8>,
    pub wanted: Answer<()>,
}

/// A list of more bytes than these has only some of its changes tried.
const SHORT: usize = 250;

/// The texts that list `index` of the run with this seed gives.
pub fn cases(seed: u64, index: u64) -> Vec<Case> {
    let mut rng = Rng::of_case(seed, index);
    if index == 0 {
        return odd_texts();
    }
    let draft = Draft::of(&part(&mut rng));
    let text = draft.text();
    let thorough = text.len() <= SHORT && rng.once_in(4);
    let mut cases = vec![draft.case("list"), draft.one_more(), cut(&text, text.len() - 1), inserted(&text, text.len(), b'\n')];
    if thorough {
        cases.extend((0..text.len()).map(|at| cut(&text, at)));
        cases.extend((0..text.len()).flat_map(|at| BYTES.map(|byte| replaced(&draft, &text, at, byte))));
        cases.extend((0..text.len()).map(|at| removed(&text, at)));
        cases.extend((0..=text.len()).flat_map(|at| [b' ', b'0', b'\n'].map(|byte| inserted(&text, at, byte))));
        cases.extend(draft.each_number(&mut rng).into_iter().map(|changed| changed.case("number")));
    }
    for _ in 0..20 {
        let at = rng.below(text.len());
        cases.push(cut(&text, at));
        cases.push(replaced(&draft, &text, at, *rng.pick(&BYTES)));
        cases.push(removed(&text, at));
        cases.push(inserted(&text, at + 1, *rng.pick(&BYTES)));
    }
    cases.extend((0..60).map(|_| changed(&mut rng, draft.clone())));
    cases
}

/// Texts that are far from any list. The first line of each is not laid out.
fn odd_texts() -> Vec<Case> {
    let texts: [Vec<u8>; 9] = [
        b"".into(),
        b"\n".into(),
        b"   -31     0     2\n".into(),
        b"     4     8\n    20     1\n     1     2     1     2\n".into(),
        vec![0; 1000],
        vec![255; 1000],
        vec![b' '; 300_000],
        vec![b'1'; 300_000],
        vec![b'\n'; 300_000],
    ];
    texts.into_iter().map(|text| Case { name: "odd text", text, wanted: Err((31, 0)) }).collect()
}

/// A text that is no list: a list with one change or two.
pub fn damaged(rng: &mut Rng) -> Case {
    loop {
        let draft = Draft::of(&part(rng));
        let text = draft.text();
        let at = rng.below(text.len());
        let case = match rng.below(6) {
            0 => cut(&text, at),
            1 => removed(&text, at),
            2 => inserted(&text, at + 1, *rng.pick(&BYTES)),
            3 => replaced(&draft, &text, at, *rng.pick(&BYTES)),
            _ => changed(rng, draft),
        };
        if case.wanted.is_err() {
            return case;
        }
    }
}

/// A sound part: 01's, one that the mapper makes, or one of any tables.
pub fn part(rng: &mut Rng) -> Part {
    match rng.below(40) {
        0 => example(),
        1..=14 => mapped(rng),
        15 => any_part(rng, TABLES, TABLES),
        16 => any_part(rng, 100, TABLES),
        17..=20 => any_part(rng, 6, 40),
        _ => any_part(rng, 0, 5),
    }
}

/// The part of 01's list.
fn example() -> Part {
    let first = Table { net: 20, inputs: vec![1, 2, 3, 4], truth: 61152 };
    let second = Table { net: 21, inputs: vec![5, 20], truth: 11 };
    Part { k: 4, capacity: 8, tables: vec![first, second] }
}

/// What the mapper makes of the next generated input that is accepted.
fn mapped(rng: &mut Rng) -> Part {
    let seed = rng.word();
    (0..).find_map(|index| program::map(&generate::case(seed, index).input).ok()).expect("an accepted input")
}

/// A sound part of `least` to `most` tables: each table has any inputs that it may have, and drives any net that it may. In one of three
/// each table reads the one before it, so that its level is its number, and in another every second one or so.
fn any_part(rng: &mut Rng, least: usize, most: usize) -> Part {
    let used = rng.between(least, most);
    let capacity = *rng.pick(&[used, used + 1, TABLES]);
    let mut part = Part { k: rng.between(2, INPUTS), capacity: capacity.clamp(1, TABLES), tables: Vec::new() };
    let nets: Vec<u16> = match rng.below(3) {
        0 => (1..=12).collect(),
        1 => (NETS as u16 - 11..=NETS as u16).collect(),
        _ => rng.draw((1..=NETS as u16).collect(), 2 * used + 12),
    };
    let once_in = *rng.pick(&[1, 2, 50]);
    while part.tables.len() < used {
        let last = part.tables.last().filter(|_| rng.once_in(once_in)).map(|last| source(last, part.tables.len()));
        let table = any_table(rng, &part, &nets, last);
        part.tables.push(table);
    }
    part
}

/// The input that reads table `number`: the net that it drives, or the table itself.
fn source(table: &Table, number: usize) -> u16 {
    match table.net {
        0 => CODES as u16 + number as u16,
        net => net,
    }
}

/// A table that may stand next in a part; it reads `last`, if that is given.
fn any_table(rng: &mut Rng, part: &Part, nets: &[u16], last: Option<u16>) -> Table {
    let without_net = (1..).zip(&part.tables).filter(|(_, table)| table.net == 0).map(|(number, table)| source(table, number));
    let codes: Vec<u16> = nets.iter().copied().chain(without_net).collect();
    let u = rng.between(2, part.k);
    let mut inputs = rng.draw(codes, u);
    if let Some(last) = last.filter(|last| !inputs.contains(last)) {
        inputs[0] = last;
    }
    inputs.sort();
    let taken = |net: u16| part.tables.iter().any(|table| table.net == net || table.inputs.contains(&net));
    let net = *rng.pick(nets);
    let net = if rng.once_in(2) || inputs.contains(&net) || taken(net) { 0 } else { net };
    let most = (!0u64).wrapping_shr(64 - (1 << u));
    let truth = match rng.below(4) {
        0 => 0,
        1 => most,
        _ => rng.word() & most,
    };
    Table { net, inputs, truth }
}

/// A list by its numbers, whether a text of them is a list or not: K, capacity and used; then t, net, u, inputs and truth table of each line.
#[derive(Clone)]
struct Draft(Vec<Vec<u128>>);

impl Draft {
    fn of(part: &Part) -> Draft {
        let head = [part.k, part.capacity, part.tables.len()].map(|number| number as u128).to_vec();
        let line = |(index, table): (usize, &Table)| {
            let start = [index as u128 + 1, table.net.into(), table.inputs.len() as u128];
            start.into_iter().chain(table.inputs.iter().map(|&input| input.into())).chain([table.truth.into()]).collect()
        };
        Draft(std::iter::once(head).chain(part.tables.iter().enumerate().map(line)).collect())
    }

    /// The width of a field: a table line's last has 21 columns.
    fn width(&self, line: usize, field: usize) -> usize {
        if line > 0 && field + 1 == self.0[line].len() {
            21
        } else {
            6
        }
    }

    fn text(&self) -> Vec<u8> {
        let mut text = String::new();
        for (line, numbers) in self.0.iter().enumerate() {
            for (field, number) in numbers.iter().enumerate() {
                text += &format!("{number:>0$}", self.width(line, field));
            }
            text.push('\n');
        }
        text.into_bytes()
    }

    fn case(&self, name: &'static str) -> Case {
        Case { name, text: self.text(), wanted: self.wanted() }
    }

    /// The right answer for the text of these numbers. A number is no wider than its field, but where its line is in a wrong place.
    fn wanted(&self) -> Answer<()> {
        let &[k, capacity, used] = &self.0[0][..] else { return Err((31, 0)) };
        if !(2..=6).contains(&k) {
            return Err((2, 0));
        }
        if !(1..=800).contains(&capacity) {
            return Err((3, 0));
        }
        if used > capacity {
            return Err((32, 0));
        }
        let mut rows: Vec<Row> = Vec::new();
        for line in 1..=used as usize {
            let row = self.row(line).ok_or((31, line))?;
            if row.broken(k) || rows.iter().any(|earlier| row.clashes(earlier)) {
                return Err((32, line));
            }
            rows.push(row);
        }
        if self.0.len() > used as usize + 1 {
            return Err((31, used as usize + 1));
        }
        Ok(())
    }

    /// Numbers to be tried in a field: those at the bounds of what it may hold, and some that stand elsewhere in the list.
    fn tried(&self, rng: &mut Rng, line: usize, field: usize) -> Vec<u128> {
        let number = self.0[line][field];
        let near = [number.saturating_sub(1), number + 1, (number + 65_536).min(WIDEST), 0, 1, WIDEST];
        let more = match (line, field) {
            (0, 0) => vec![2, 3, 4, 5, 6, 7],
            (0, _) => vec![800, 801, self.0[0][1], self.0[0][1] + 1, self.0.len() as u128 - 1],
            (_, 0) => vec![],
            (_, 2) => vec![2, 3, 4, 5, 6, 7],
            _ if self.width(line, field) == 6 => self.codes(rng, line as u128),
            _ => truths(),
        };
        near.into_iter().chain(more).filter(|number| number.to_string().len() <= self.width(line, field)).collect()
    }

    /// Nets and tables at their bounds, tables about the line's own, and some that the list has.
    fn codes(&self, rng: &mut Rng, line: u128) -> Vec<u128> {
        let mut codes = vec![9_999, 10_000, 10_001, 10_800, 10_801, 65_535, 65_536, 65_541, 99_999];
        codes.extend([9_999 + line, 10_000 + line, 10_001 + line]);
        for _ in 0..4 {
            let other = rng.below(self.0.len());
            codes.extend([10_000 + other as u128, *rng.pick(&self.0[other]) % 10_801]);
            codes.extend(self.0[other].get(1));
        }
        codes
    }

    /// The draft with each number in turn replaced by each that is tried in its place.
    fn each_number(&self, rng: &mut Rng) -> Vec<Draft> {
        let mut drafts = Vec::new();
        for (line, numbers) in self.0.iter().enumerate() {
            for field in 0..numbers.len() {
                drafts.extend(self.tried(rng, line, field).into_iter().map(|number| self.with(line, field, number)));
            }
        }
        drafts
    }

    /// A table line more than are counted.
    fn one_more(&self) -> Case {
        let mut draft = self.clone();
        draft.0.push(vec![self.0.len() as u128, 0, 2, 1, 2, 8]);
        draft.case("one line more")
    }

    fn with(&self, line: usize, field: usize, number: u128) -> Draft {
        let mut draft = self.clone();
        draft.0[line][field] = number;
        draft
    }

    /// A table line whose numbers make a line of the list.
    fn row(&self, line: usize) -> Option<Row<'_>> {
        let &[t, net, u, ref inputs @ .., truth] = &self.0.get(line)?[..] else { return None };
        let fits = t == line as u128 && (2..=6).contains(&u) && u == inputs.len() as u128 && truth < 1 << 64;
        fits.then_some(Row { number: t, net, inputs, truth })
    }
}

/// The greatest number of six columns.
const WIDEST: u128 = 999_999;

/// Truth tables at the bounds of each input count, of 64 bits and of 21 columns.
fn truths() -> Vec<u128> {
    let below = (2..=6).flat_map(|u| [(1 << (1 << u)) - 1, 1 << (1 << u), (1 << (1 << u)) + 1]);
    below.chain([10u128.pow(20) - 1, 10u128.pow(20), 10u128.pow(21) - 1]).collect()
}

/// A table line's numbers.
struct Row<'a> {
    number: u128,
    net: u128,
    inputs: &'a [u128],
    truth: u128,
}

impl Row<'_> {
    /// Whether the table breaks a rule by itself.
    fn broken(&self, k: u128) -> bool {
        let input = |&code: &u128| (1..=9_999).contains(&code) || (10_001..10_000 + self.number).contains(&code);
        let u = self.inputs.len();
        u as u128 > k
            || self.truth >> (1 << u) != 0
            || self.net > 9_999
            || !self.inputs.iter().all(input)
            || self.inputs.windows(2).any(|pair| pair[0] >= pair[1])
            || self.reads(self.net)
    }

    fn reads(&self, net: u128) -> bool {
        net != 0 && self.inputs.contains(&net)
    }

    /// Whether the table and an earlier one break a rule together.
    fn clashes(&self, earlier: &Row) -> bool {
        let twice = self.net != 0 && self.net == earlier.net;
        let named = earlier.net != 0 && self.inputs.contains(&(10_000 + earlier.number));
        twice || named || earlier.reads(self.net)
    }
}

/// The answer where line `line` is not laid out besides what else is wrong.
fn not_laid_out(line: usize, besides: Answer<()>) -> Answer<()> {
    match besides {
        Err((_, earlier)) if earlier < line => besides,
        _ => Err((31, line)),
    }
}

/// The number of the line that a place is on.
fn line_of(text: &[u8], at: usize) -> usize {
    text[..at].iter().filter(|&&byte| byte == b'\n').count()
}

/// The first bytes of a list, and not all.
fn cut(text: &[u8], at: usize) -> Case {
    Case { name: "cut", text: text[..at].into(), wanted: Err((31, line_of(text, at))) }
}

/// A byte of a list left out: no line has one column less than it should.
fn removed(text: &[u8], at: usize) -> Case {
    let mut changed = text.to_vec();
    changed.remove(at);
    Case { name: "byte removed", text: changed, wanted: Err((31, line_of(text, at))) }
}

/// A byte put into a list. A line feed before a line feed makes a line of its own.
fn inserted(text: &[u8], at: usize, byte: u8) -> Case {
    let mut changed = text.to_vec();
    changed.insert(at, byte);
    let after = byte == b'\n' && text.get(at) == Some(&b'\n');
    Case { name: "byte inserted", text: changed, wanted: Err((31, line_of(text, at) + usize::from(after))) }
}

/// What a byte is replaced by.
const BYTES: [u8; 10] = *b" 019-\n\t\0\xff+";

/// A byte of a list replaced by another: the field that it stands in is then another number, or none.
fn replaced(draft: &Draft, text: &[u8], at: usize, byte: u8) -> Case {
    let mut changed = text.to_vec();
    changed[at] = byte;
    let line = line_of(text, at);
    let start = text[..at].iter().rposition(|&byte| byte == b'\n').map_or(0, |end| end + 1);
    let field = ((at - start) / 6).min(draft.0[line].len() - 1);
    let columns = start + 6 * field..start + 6 * field + draft.width(line, field);
    let wanted = match number(&changed[columns.clone()]).filter(|_| columns.contains(&at)) {
        _ if byte == text[at] => Ok(()),
        None => Err((31, line)),
        Some(number) => draft.with(line, field, number).wanted(),
    };
    Case { name: "byte replaced", text: changed, wanted }
}

/// The number that stands right-justified in some columns.
fn number(columns: &[u8]) -> Option<u128> {
    let text = std::str::from_utf8(columns).ok()?.trim_start_matches(' ');
    text.parse::<u128>().ok().filter(|number| number.to_string() == text)
}

/// A list with one change or two, on one line or on two, and now and then a byte that makes a line badly laid out.
fn changed(rng: &mut Rng, mut draft: Draft) -> Case {
    let last = draft.0.len() - 1;
    let line = if rng.once_in(4) { last } else { rng.below(last + 1) };
    change(rng, &mut draft, line);
    match rng.below(3) {
        0 => (),
        1 => {
            let other = rng.below(draft.0.len());
            change(rng, &mut draft, other);
        }
        _ => {
            let same = line.min(draft.0.len() - 1);
            change(rng, &mut draft, same);
        }
    }
    if rng.once_in(4) {
        spoiled(rng, &draft)
    } else {
        draft.case("changed")
    }
}

fn change(rng: &mut Rng, draft: &mut Draft, line: usize) {
    match rng.below(10) {
        0..=5 => change_number(rng, draft, line),
        6 => change_inputs(rng, &mut draft.0[line]),
        7 => change_code(rng, draft, line),
        _ => change_lines(rng, draft, line),
    }
}

/// One number replaced; half the time the inputs are put in order again, so that other rules are the first that are broken.
fn change_number(rng: &mut Rng, draft: &mut Draft, line: usize) {
    let field = rng.below(draft.0[line].len());
    let tried = draft.tried(rng, line, field);
    draft.0[line][field] = *rng.pick(&tried);
    if let ([_, _, _, inputs @ .., _], true) = (&mut draft.0[line][..], rng.once_in(2)) {
        inputs.sort();
    }
}

/// The net driven is the one that another line drives or reads first, or an input is another line's table; the inputs are in order.
fn change_code(rng: &mut Rng, draft: &mut Draft, line: usize) {
    let other = rng.below(draft.0.len());
    let field = *rng.pick(&[1, 3]);
    let net = draft.0[other].get(field).map_or(0, |number| number % 10_000);
    if let [_, driven, _, inputs @ .., _] = &mut draft.0[line][..] {
        match inputs.last_mut() {
            Some(input) if rng.once_in(2) => *input = 10_000 + other as u128,
            _ => *driven = net,
        }
        inputs.sort();
    }
}

/// Other inputs, from none to eight, mostly with their count before them.
fn change_inputs(rng: &mut Rng, numbers: &mut Vec<u128>) {
    let count = rng.below(9);
    let mut inputs: Vec<u128> = rng.draw((1..=20).collect(), count);
    inputs.sort();
    let last = numbers.len() - 1;
    if last > 2 {
        numbers.splice(3..last, inputs);
        numbers[2] = if rng.once_in(8) { numbers[2] } else { count as u128 };
    }
}

/// A line left out, put twice or moved; then, now and then, all lines numbered again and counted again.
fn change_lines(rng: &mut Rng, draft: &mut Draft, line: usize) {
    let other = rng.below(draft.0.len());
    match rng.below(3) {
        0 if draft.0.len() > 1 => drop(draft.0.remove(line)),
        1 => draft.0.insert(other, draft.0[line].clone()),
        _ => draft.0.swap(line, other),
    }
    if rng.once_in(2) {
        (0u128..).zip(&mut draft.0).skip(1).for_each(|(t, numbers)| numbers[0] = t);
    }
    if rng.once_in(2) {
        draft.0[0][2] = draft.0.len() as u128 - 1;
    }
}

/// One byte replaced by one that stands in no list.
fn spoiled(rng: &mut Rng, draft: &Draft) -> Case {
    let mut text = draft.text();
    let at = rng.below(text.len());
    let wanted = not_laid_out(line_of(&text, at), draft.wanted());
    text[at] = *rng.pick(b"-\t\0\xff+");
    Case { name: "changed, and a line not laid out", text, wanted }
}
