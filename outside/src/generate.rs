//! A generator of inputs: good ones of every shape and size, damaged ones for each refusal, changed bytes and cuts.

use crate::join::join;
use crate::least::least;
use crate::rng::Rng;
use crate::sheet::{Edge, Gate, Kind, Sheet, Source};
use crate::{CODES, FANINS, GATES, LEAVES, NETS, TABLES};

/// One input, and what it was made as.
pub struct Case {
    pub name: &'static str,
    pub input: Vec<u8>,
}

/// Case `index` of the run with this seed.
pub fn case(seed: u64, index: u64) -> Case {
    let mut rng = Rng::of_case(seed, index);
    match rng.below(100) {
        0 => large(&mut rng),
        1..=40 => Case { name: "good", input: text(&good(&mut rng)).into_bytes() },
        41..=75 => damaged(&mut rng),
        76..=90 => changed_bytes(&mut rng),
        _ => cut(&mut rng),
    }
}

/// The lines of an input: the opening line's fields, then each sheet's lines.
type Lines = Vec<Vec<i64>>;

#[derive(Clone)]
struct Input {
    opening: Vec<i64>,
    sheets: Vec<Lines>,
}

fn text(input: &Input) -> String {
    lines_text(std::iter::once(&input.opening).chain(input.sheets.iter().flatten()))
}

fn lines_text<'a>(lines: impl IntoIterator<Item = &'a Vec<i64>>) -> String {
    lines.into_iter().map(|fields| fields.iter().map(|field| format!("{field:>6}")).collect::<String>() + "\n").collect()
}

/// A drawn tree without names.
#[derive(Clone)]
enum Tree {
    Leaf,
    Gate(Vec<Tree>),
}

#[derive(Clone, Copy)]
enum Style {
    /// Gates of any fanin count.
    Random,
    /// Gates of two fanins.
    Binary,
    /// Each gate reads one gate, and one leaf.
    Chain,
    /// Each gate reads one gate, and leaves up to the most fanins.
    WideChain,
    /// Gates of the most fanins, as even as can be.
    Wide,
    /// Gates of two to four fanins, as even as can be.
    Even,
}

const STYLES: [Style; 6] = [Style::Random, Style::Binary, Style::Chain, Style::WideChain, Style::Wide, Style::Even];

/// A tree of that many leaves, two or more at the top.
fn tree(rng: &mut Rng, leaves: usize, style: Style) -> Tree {
    if leaves == 1 {
        return Tree::Leaf;
    }
    let most = leaves.min(FANINS);
    let sizes = match style {
        Style::Random => {
            let count = rng.between(2, most);
            parts(rng, leaves, count)
        }
        Style::Binary => parts(rng, leaves, 2),
        Style::Chain => vec![leaves - 1, 1],
        Style::WideChain => [vec![leaves - (most - 1)], vec![1; most - 1]].concat(),
        Style::Wide => even_parts(leaves, most),
        Style::Even => even_parts(leaves, rng.between(2, most.min(4))),
    };
    Tree::Gate(sizes.into_iter().map(|size| tree(rng, size, style)).collect())
}

/// `count` numbers as even as can be whose sum is `total`.
fn even_parts(total: usize, count: usize) -> Vec<usize> {
    (0..count).map(|part| (total + part) / count).collect()
}

/// `count` numbers from 1 up whose sum is `total`.
fn parts(rng: &mut Rng, total: usize, count: usize) -> Vec<usize> {
    let mut sizes = vec![1; count];
    let few = rng.between(1, count);
    for _ in count..total {
        sizes[rng.below(few)] += 1;
    }
    sizes
}

/// How a sheet's kinds and signs are chosen.
struct Marks {
    kind: usize,
    sign: usize,
    chain: usize,
}

impl Marks {
    fn new(rng: &mut Rng) -> Marks {
        Marks { kind: rng.below(4), sign: rng.below(4), chain: rng.below(6) }
    }

    fn kind(&self, rng: &mut Rng, gate: usize) -> Kind {
        let or = match self.kind {
            0 => false,
            1 => gate & 1 == 0,
            _ => rng.once_in(2),
        };
        if or {
            Kind::Or
        } else {
            Kind::And
        }
    }

    fn inverted(&self, rng: &mut Rng) -> bool {
        match self.sign {
            0 => false,
            1 => rng.once_in(8),
            _ => rng.once_in(2),
        }
    }

    /// Whether an edge between gates is inverted, where that depends on their kinds: all such edges are chained, most are, or none is.
    fn between_gates(&self, rng: &mut Rng, one_kind: bool) -> Option<bool> {
        match self.chain {
            0 => Some(!one_kind),
            1 => Some(one_kind == rng.once_in(4)),
            2 => Some(one_kind),
            _ => None,
        }
    }
}

/// The gates of a tree, children before parents, in an order that `rng` chooses; each is the list of the gates it reads, with
/// `None` for a leaf.
fn ordered(rng: &mut Rng, tree: &Tree) -> Vec<Vec<Option<usize>>> {
    let mut gates = Vec::new();
    post_order(tree, &mut gates);
    if rng.once_in(2) {
        return gates;
    }
    let mut reader = vec![usize::MAX; gates.len()];
    let mut waits = vec![0; gates.len()];
    for (gate, fanins) in gates.iter().enumerate() {
        for &below in fanins.iter().flatten() {
            reader[below] = gate;
            waits[gate] += 1;
        }
    }
    let mut ready: Vec<usize> = (0..gates.len()).filter(|&gate| waits[gate] == 0).collect();
    let mut places = vec![0; gates.len()];
    let mut order = Vec::new();
    while !ready.is_empty() {
        let gate = ready.swap_remove(rng.below(ready.len()));
        places[gate] = order.len();
        order.push(gates[gate].iter().map(|below| below.map(|below| places[below])).collect());
        if let Some(wait) = waits.get_mut(reader[gate]) {
            *wait -= 1;
            if *wait == 0 {
                ready.push(reader[gate]);
            }
        }
    }
    order
}

fn post_order(tree: &Tree, gates: &mut Vec<Vec<Option<usize>>>) -> Option<usize> {
    let Tree::Gate(fanins) = tree else { return None };
    let fanins = fanins.iter().map(|fanin| post_order(fanin, gates)).collect();
    gates.push(fanins);
    Some(gates.len() - 1)
}

/// The nets of an input: outputs are taken from one part of them, leaves from the other and from the nets driven. For one input in four
/// they are the greatest that there are.
struct Nets {
    outputs: Vec<u16>,
    leaves: Vec<u16>,
}

impl Nets {
    fn new(rng: &mut Rng, leaves: usize) -> Nets {
        let count = leaves + TABLES + 1; // a net for each sheet of a full part, and one
        let least = if rng.once_in(4) { NETS as u16 - count as u16 + 1 } else { 1 };
        let mut outputs = rng.draw((least..=NETS as u16).collect(), count);
        let leaves = outputs.split_off(TABLES + 1);
        Nets { outputs, leaves }
    }

    /// The tree as a sheet; where there is no net left for its output, nothing.
    fn sheet(&mut self, rng: &mut Rng, tree: &Tree) -> Option<Sheet> {
        let net = self.outputs.pop()?;
        let gates = ordered(rng, tree);
        let marks = Marks::new(rng);
        let mut left = self.leaves.clone();
        let mut sheet = Sheet { net, inverted: rng.once_in(2), gates: Vec::new() };
        for mut fanins in gates {
            rng.shuffle(&mut fanins);
            let kind = marks.kind(rng, sheet.gates.len());
            let mut edges = Vec::new();
            for fanin in fanins {
                let source = match fanin {
                    Some(gate) => Source::Gate(gate),
                    None if left.is_empty() => return None,
                    None => Source::Net(left.swap_remove(rng.below(left.len()))),
                };
                let between = fanin.and_then(|gate| marks.between_gates(rng, sheet.gates[gate].kind == kind));
                edges.push(Edge { inverted: between.unwrap_or_else(|| marks.inverted(rng)), source });
            }
            sheet.gates.push(Gate { kind, fanins: edges });
        }
        self.leaves.push(net);
        Some(sheet)
    }
}

fn input(k: usize, capacity: usize, sheets: &[Sheet]) -> Input {
    let lines = |sheet: &Sheet| sheet.text().lines().map(fields).collect();
    Input { opening: vec![k as i64, capacity as i64], sheets: sheets.iter().map(lines).collect() }
}

fn fields(line: &str) -> Vec<i64> {
    line.as_bytes().chunks(6).map(|field| str::from_utf8(field).unwrap().trim_start().parse().unwrap()).collect()
}

/// A capacity for sheets that take `wanted` tables: just enough, ample, the most, or now and then too small.
fn capacity(rng: &mut Rng, wanted: usize) -> usize {
    let capacity = match rng.below(12) {
        0..=3 => wanted,
        4..=6 => wanted + rng.below(20),
        7 | 8 => rng.between(1, TABLES),
        9 => wanted.saturating_sub(1),
        _ => TABLES,
    };
    capacity.clamp(1, TABLES)
}

/// The least number of tables of a sheet.
pub fn tables(sheet: &Sheet, k: usize) -> usize {
    least(&join(sheet).sheet, k)
}

/// A good input of up to a dozen sheets.
fn good(rng: &mut Rng) -> Input {
    let k = rng.between(2, 6);
    let count = if rng.once_in(10) { rng.between(0, 12) } else { rng.between(1, 3) };
    let sheets = sheets(rng, count);
    let wanted = sheets.iter().map(|sheet| tables(sheet, k)).sum();
    input(k, capacity(rng, wanted), &sheets)
}

/// So many good sheets, most of them small: many have as many leaves as a joined gate may have fanins, or nearly. A part with room enough
/// accepts one after another.
pub fn sheets(rng: &mut Rng, count: usize) -> Vec<Sheet> {
    let mut nets = Nets::new(rng, LEAVES + 40);
    let mut sheets = Vec::new();
    for _ in 0..count {
        let leaves = match rng.below(40) {
            0 => rng.between(2, LEAVES),
            1..=5 => rng.between(2, 40),
            6..=15 => rng.between(FANINS - 1, FANINS + 2),
            _ => rng.between(2, 12),
        };
        let style = *rng.pick(&STYLES);
        let tree = tree(rng, leaves, style);
        sheets.extend(nets.sheet(rng, &tree));
    }
    sheets
}

/// Up to so many good sheets of 2 to `leaves` leaves over few free nets, so that many leaves read what sheets before them drive.
pub fn tower(rng: &mut Rng, count: usize, free: usize, leaves: usize) -> Vec<Sheet> {
    let mut nets = Nets::new(rng, free);
    let mut sheets = Vec::new();
    for _ in 0..count {
        let size = rng.between(2, leaves.min(nets.leaves.len()));
        let style = *rng.pick(&STYLES);
        let tree = tree(rng, size, style);
        sheets.extend(nets.sheet(rng, &tree));
    }
    sheets
}

/// One sheet of the most leaves, or nearly: a chain, wide gates, gates of two fanins, or any.
pub fn at_limit(rng: &mut Rng) -> Vec<Sheet> {
    let (leaves, style) = *rng.pick(&[
        (LEAVES, Style::Chain),
        (28 * (FANINS - 1) + 1, Style::WideChain),
        (LEAVES, Style::Binary),
        (LEAVES, Style::Random),
        (LEAVES, Style::Wide),
    ]);
    limit(rng, leaves, style)
}

/// Inputs at the limits and beyond.
fn large(rng: &mut Rng) -> Case {
    match rng.below(10) {
        0 => long_line(rng),
        1 => longest(rng),
        _ => at_a_limit(rng),
    }
}

fn at_a_limit(rng: &mut Rng) -> Case {
    let k = rng.between(2, 6);
    let (name, sheets) = match rng.below(6) {
        0 => ("chain", limit(rng, LEAVES, Style::Chain)),
        1 => ("wide gates", limit(rng, 28 * (FANINS - 1) + 1, Style::WideChain)),
        2 => ("binary", limit(rng, LEAVES, Style::Binary)),
        3 => ("random", limit(rng, LEAVES, Style::Random)),
        4 => ("full part", full(rng, k, 3)),
        _ => ("full part of few leaves", full(rng, k, 40)),
    };
    let wanted = sheets.iter().map(|sheet| tables(sheet, k)).sum();
    let capacity = if rng.once_in(2) { TABLES } else { capacity(rng, wanted) };
    Case { name, input: text(&input(k, capacity, &sheets)).into_bytes() }
}

/// The longest input that can be accepted: 800 sheets of five gates, each one table of six inputs. Now and then one sheet more, which is
/// as long as can be and is read to its end before it is refused, or bytes that begin one.
fn longest(rng: &mut Rng) -> Case {
    let mut nets = Nets::new(rng, 150);
    let mut sheets = Vec::new();
    for _ in 0..TABLES {
        let tree = tree(rng, 6, Style::Binary);
        sheets.extend(nets.sheet(rng, &tree));
    }
    let mut input = text(&input(6, TABLES, &sheets));
    match rng.below(4) {
        0 => {
            let tree = tree(rng, LEAVES, Style::Binary);
            input += &nets.sheet(rng, &tree).map_or(String::new(), |sheet| sheet.text());
        }
        1 => input += *rng.pick(&["x", "\n", "     1", "     1     1\n"][..]),
        _ => (),
    }
    Case { name: "longest input", input: input.into_bytes() }
}

/// A good input with one very long line in the place of one of its lines, or at its end.
fn long_line(rng: &mut Rng) -> Case {
    let mut input = text(&good(rng)).into_bytes();
    let field: [u8; 6] = *rng.pick(&[*b"     1", *b"      ", *b"111111", [0; 6]]);
    let fields = *rng.pick(&[13, 100, 11_000, 22_000, 44_000]);
    let starts: Vec<usize> = (0..=input.len()).filter(|&at| at == 0 || input[at - 1] == b'\n').collect();
    let at = *rng.pick(&starts);
    input.splice(at..at, field.repeat(fields));
    Case { name: "long line", input }
}

/// One sheet at the limit of leaves.
fn limit(rng: &mut Rng, leaves: usize, style: Style) -> Vec<Sheet> {
    let tree = tree(rng, leaves, style);
    let mut nets = Nets::new(rng, LEAVES);
    Vec::from_iter(nets.sheet(rng, &tree))
}

/// Sheets of up to `leaves` leaves until the part is full, and now and then one more.
pub fn full(rng: &mut Rng, k: usize, leaves: usize) -> Vec<Sheet> {
    let mut nets = Nets::new(rng, 150);
    let mut sheets = Vec::new();
    let mut left = TABLES;
    loop {
        let size = rng.between(2, leaves);
        let style = *rng.pick(&STYLES);
        let tree = tree(rng, size, style);
        let Some(sheet) = nets.sheet(rng, &tree) else { return sheets };
        let tables = tables(&sheet, k);
        if tables > left {
            if rng.once_in(4) {
                sheets.push(sheet);
            }
            return sheets;
        }
        left -= tables;
        sheets.push(sheet);
        if left == 0 && !rng.once_in(8) {
            return sheets;
        }
    }
}

/// A good input with one fault put in, or two.
fn damaged(rng: &mut Rng) -> Case {
    let mut input = text(&damaged_input(rng)).into_bytes();
    if rng.once_in(4) {
        damage_layout(rng, &mut input);
    }
    Case { name: "damaged", input }
}

fn damaged_input(rng: &mut Rng) -> Input {
    let mut input = good(rng);
    let faults = if rng.once_in(4) { 2 } else { 1 };
    for _ in 0..faults {
        damage(rng, &mut input);
    }
    input
}

/// The text of each sheet of such an input; now and then the layout of one is damaged.
pub fn damaged_sheets(rng: &mut Rng) -> Vec<Vec<u8>> {
    let mut texts: Vec<Vec<u8>> = damaged_input(rng).sheets.iter().map(|lines| lines_text(lines).into_bytes()).collect();
    if !texts.is_empty() && rng.once_in(4) {
        let at = rng.below(texts.len());
        damage_layout(rng, &mut texts[at]);
    }
    texts
}

fn damage(rng: &mut Rng, input: &mut Input) {
    input.opening.resize(2, 8);
    let fault = rng.below(16);
    if fault < 2 {
        return damage_opening(rng, input);
    }
    if input.sheets.is_empty() {
        return;
    }
    let at = rng.below(input.sheets.len());
    match fault {
        2..=4 => damage_nets(rng, input, at),
        5 => input.opening[1] = rng.between(1, 8) as i64,
        6 => too_many_leaves(rng, &mut input.sheets[at]),
        7 | 8 => damage_head(rng, &mut input.sheets[at]),
        9 => damage_count(rng, &mut input.sheets[at]),
        10 => damage_lines(rng, &mut input.sheets[at]),
        _ => damage_fanin(rng, &mut input.sheets[at]),
    }
}

fn sign(rng: &mut Rng, number: i64) -> i64 {
    if rng.once_in(2) {
        -number
    } else {
        number
    }
}

/// For 1, 2 and 3 on the opening line.
fn damage_opening(rng: &mut Rng, input: &mut Input) {
    match rng.below(5) {
        0 => input.opening[0] = *rng.pick(&[0, 1, 7, -4, 999_999]),
        1 | 2 => input.opening[1] = *rng.pick(&[0, 801, -8, 999_999]),
        3 => input.opening.truncate(1),
        _ => input.opening.push(1),
    }
}

/// For 4 and 5.
fn damage_head(rng: &mut Rng, sheet: &mut Lines) {
    match rng.below(4) {
        0 => sheet[0][0] = *rng.pick(&[0, NETS, -NETS, CODES, -CODES, CODES + 1, 999_999, -99_999]),
        1 => sheet[0][1] = *rng.pick(&[0, 256, -1, 999_999]),
        2 => sheet[0][1] += 1,
        _ => sheet[0][1] = (sheet[0][1] - 1).max(1),
    }
}

/// For 21 and 22: another net of the input as the output; now and then the same as before, or any other.
fn damage_nets(rng: &mut Rng, input: &mut Input, at: usize) {
    let other = rng.below(input.sheets.len());
    let net = match rng.below(4) {
        0 => rng.between(1, NETS as usize) as i64,
        1 => input.sheets[other][0][0],
        _ => {
            let nets: Vec<i64> =
                input.sheets[other][1..].iter().flat_map(|line| line.iter().skip(2)).copied().filter(|net| net.abs() <= NETS).collect();
            if nets.is_empty() {
                return;
            }
            *rng.pick(&nets)
        }
    };
    input.sheets[at][0][0] = sign(rng, net);
}

/// The gate lines that have so many fields, or more.
fn gate_lines(sheet: &Lines, fields: usize) -> Vec<usize> {
    (1..sheet.len()).filter(|&line| sheet[line].len() >= fields).collect()
}

/// For 6, 7 and the field count.
fn damage_count(rng: &mut Rng, sheet: &mut Lines) {
    let lines = gate_lines(sheet, 2);
    if lines.is_empty() {
        return;
    }
    let gate = &mut sheet[*rng.pick(&lines)];
    match rng.below(6) {
        0 => gate[0] = *rng.pick(&[0, 3, -1, -2, CODES + 1]),
        1 => gate[0] = 3 - gate[0],
        2 => gate[1] = *rng.pick(&[0, 1, 11, -2, 999_999]),
        3 => gate[1] = rng.between(2, 10) as i64,
        4 => gate.truncate(rng.between(1, gate.len())),
        _ => gate.push(rng.between(1, NETS as usize) as i64),
    }
}

/// For 1 and 13: a line left out, put twice, moved or emptied.
fn damage_lines(rng: &mut Rng, sheet: &mut Lines) {
    let line = rng.below(sheet.len());
    let other = rng.below(sheet.len());
    match rng.below(4) {
        0 => drop(sheet.remove(line)),
        1 => sheet.insert(other, sheet[line].clone()),
        2 => sheet.swap(line, other),
        _ => sheet[line].clear(),
    }
    if sheet.is_empty() {
        sheet.push(vec![1, 1]);
    }
    if sheet[0].len() < 2 {
        sheet[0] = vec![1, 1];
    }
}

/// For 8, 9, 10, 11 and 13: one fanin replaced.
fn damage_fanin(rng: &mut Rng, sheet: &mut Lines) {
    let lines = gate_lines(sheet, 3);
    if lines.is_empty() {
        return;
    }
    let line = *rng.pick(&lines);
    let other = *rng.pick(&lines);
    let fanin = match rng.below(8) {
        0 => *rng.pick(&[0, 1, NETS, CODES, CODES + GATES as i64, CODES + GATES as i64 + 1, 20_000, 99_999]),
        1 => CODES + line as i64,
        2 => CODES + rng.between(line.min(GATES), GATES + 1) as i64,
        3 | 4 => CODES + rng.between(1, line) as i64,
        5 => sheet[0][0],
        6 => *rng.pick(&sheet[other][2..]),
        _ => rng.between(1, NETS as usize) as i64,
    };
    let place = rng.between(2, sheet[line].len() - 1);
    sheet[line][place] = sign(rng, fanin);
}

/// For 12: a sheet of more leaves than are allowed, now and then with another fault at the first leaf too many.
fn too_many_leaves(rng: &mut Rng, sheet: &mut Lines) {
    let mut nets = Nets::new(rng, LEAVES + 40);
    let leaves = rng.between(LEAVES + 1, LEAVES + 20);
    let style = *rng.pick(&[Style::WideChain, Style::Wide]);
    let tree = tree(rng, leaves, style);
    let Some(large) = nets.sheet(rng, &tree) else { return };
    *sheet = large.text().lines().map(fields).collect();
    if rng.once_in(3) {
        let mut seen = 0;
        let replaced = if rng.once_in(2) { sheet[0][0] } else { sheet[1][2] };
        let fanins = sheet[1..].iter_mut().flat_map(|line| &mut line[2..]).filter(|fanin| fanin.abs() <= NETS);
        for fanin in fanins {
            seen += 1;
            if seen == LEAVES + 1 {
                *fanin = replaced;
            }
        }
    }
}

/// For 1: the layout of one line damaged.
fn damage_layout(rng: &mut Rng, input: &mut Vec<u8>) {
    let ends: Vec<usize> = (0..input.len()).filter(|&at| input[at] == b'\n').collect();
    if ends.is_empty() {
        return;
    }
    let end = *rng.pick(&ends);
    match rng.below(6) {
        0 => drop(input.remove(end)),
        1 => input.insert(end, b' '),
        2 => input.insert(end, b'\r'),
        3 => drop(input.splice(end..end, *b"    -0")),
        4 => drop(input.splice(end..end, *b"    01")),
        _ => drop(input.splice(end..end, *b"      ")),
    }
}

/// A good input with some bytes changed, left out or put in.
fn changed_bytes(rng: &mut Rng) -> Case {
    let mut input = text(&good(rng)).into_bytes();
    change_bytes(rng, &mut input);
    Case { name: "changed bytes", input }
}

/// Some bytes of a text, which has one, changed, left out or put in.
pub fn change_bytes(rng: &mut Rng, text: &mut Vec<u8>) {
    const BYTES: &[u8] = b"    --00123456789\n\n\t\r+x\0\xff";
    for _ in 0..rng.between(1, 3) {
        let at = rng.below(text.len());
        match rng.below(6) {
            0 => drop(text.remove(at)),
            1 => text.insert(at, *rng.pick(BYTES)),
            2 | 3 if text[at].is_ascii_digit() => text[at] = b'0' + rng.below(10) as u8,
            _ => text[at] = *rng.pick(BYTES),
        }
        if text.is_empty() {
            break;
        }
    }
}

/// A good input cut off, or with something after its end.
fn cut(rng: &mut Rng) -> Case {
    let mut input = text(&good(rng)).into_bytes();
    let at = rng.below(input.len() + 1);
    match rng.below(5) {
        0 => input.extend(rng.pick(&["\n", " ", "     1", "     1     1", "     1     1\n", "x"]).as_bytes()),
        1 => drop(input.pop()),
        2 => {
            let line = input[..at].iter().rposition(|&byte| byte == b'\n').map_or(0, |end| end + 1);
            input.truncate(line);
        }
        _ => input.truncate(at),
    }
    Case { name: "cut", input }
}
