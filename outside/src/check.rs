//! The checker of lists: whether a list is one that the mapping program may print for an input, or that a set of sheets may give.
//!
//! 01 leaves free which least cover is taken and the order of its tables, inputs before readers. So the list is read as that of a sound
//! part, its new tables are dealt to the sheets by their least numbers, and each sheet's tables are tested to be those
//! of a cover of that sheet's joined tree (`sheet_tables`), which settles them up to what is free. As a second test the values are run
//! against the sheets as drawn.

use crate::adding::Accepted;
use crate::list;
use crate::part::{Part, Table};
use crate::program;
use crate::refusal::Refusal;
use crate::rng::Rng;
use crate::sheet::{Edge, Kind, Sheet, Source};
use crate::{CODES, NETS};

/// Tests what a mapper printed for `input`: a refusal byte for byte, a list by its rules.
pub fn check_output(input: &[u8], printed: &[u8]) -> Result<(), String> {
    check_answer(&program::read(input), printed)
}

/// The same, where the input has been read.
pub fn check_answer(answer: &Result<Accepted, Refusal>, printed: &[u8]) -> Result<(), String> {
    match answer {
        Ok(accepted) => check_accepted(accepted, printed),
        Err(refusal) if printed == refusal.line().as_bytes() => Ok(()),
        Err(refusal) => Err(format!("printed {:?} where {:?} is right", start(printed), refusal.line())),
    }
}

/// Tests the list printed for an input that must be accepted.
pub fn check_list(input: &[u8], list: &[u8]) -> Result<(), String> {
    match program::read(input) {
        Ok(accepted) => check_accepted(&accepted, list),
        Err(refusal) => Err(format!("the input is refused: {:?}", refusal.line())),
    }
}

fn start(printed: &[u8]) -> String {
    String::from_utf8_lossy(&printed[..printed.len().min(80)]).into_owned()
}

/// Tests the list of a part that accepted some sheets: its old tables, then those of each sheet.
pub fn check_accepted(accepted: &Accepted, list: &[u8]) -> Result<(), String> {
    let part = list::read(list).map_err(|fault| format!("{fault} in {:?}", start(list)))?;
    if (part.k, part.capacity) != (accepted.k, accepted.capacity) {
        return Err(format!("K {} and capacity {} in line 0", part.k, part.capacity));
    }
    let mut used = accepted.old.len();
    if !part.tables.starts_with(&accepted.old) {
        return Err("the old tables do not stand in front as they were".into());
    }
    let wanted: usize = accepted.least.iter().sum();
    if part.tables.len() != used + wanted {
        return Err(format!("{} new tables where the least numbers add up to {wanted}", part.tables.len() - used));
    }
    for (index, &least) in accepted.least.iter().enumerate() {
        let tables = &part.tables[used..used + least];
        sheet_tables(&accepted.joined[index].sheet, used, tables).map_err(|fault| format!("sheet {}: {fault}", index + 1))?;
        all_settings(&accepted.sheets[index], used, tables).map_err(|fault| format!("sheet {}: {fault}", index + 1))?;
        used += least;
    }
    random_settings(accepted, &part)
}

/// Some fanins of a gate together, as one value; bit j of `value` is for the setting j of a table's inputs.
#[derive(Clone, Copy, Debug)]
struct Group {
    gate: usize,
    fanins: u32,
    value: u64,
}

/// Where the leaves and the gates of a sheet are read, as gate and fanin.
struct Readers<'a> {
    sheet: &'a Sheet,
    nets: Vec<Option<(usize, usize)>>,
    gates: Vec<Option<(usize, usize)>>,
}

impl<'a> Readers<'a> {
    fn of(sheet: &'a Sheet) -> Readers<'a> {
        let mut readers = Readers { sheet, nets: vec![None; NETS as usize + 1], gates: vec![None; sheet.gates.len()] };
        for (gate, reader) in sheet.gates.iter().enumerate() {
            for (fanin, edge) in reader.fanins.iter().enumerate() {
                match edge.source {
                    Source::Net(net) => readers.nets[usize::from(net)] = Some((gate, fanin)),
                    Source::Gate(below) => readers.gates[below] = Some((gate, fanin)),
                }
            }
        }
        readers
    }

    /// The group of the one fanin that `reader` names, which reads `value`.
    fn single(&self, reader: (usize, usize), value: u64) -> Group {
        let Edge { inverted, .. } = self.sheet.gates[reader.0].fanins[reader.1];
        Group { gate: reader.0, fanins: 1 << reader.1, value: if inverted { !value } else { value } }
    }

    fn whole(&self, group: &Group) -> bool {
        group.fanins == (1 << self.sheet.gates[group.gate].fanins.len()) - 1
    }

    /// A group as an input of a table: a gate with all its fanins is what its reader reads, some of the fanins are a new gate.
    fn read(&self, group: Group) -> Group {
        match self.gates[group.gate] {
            Some(reader) if self.whole(&group) => self.single(reader, group.value),
            _ => group,
        }
    }

    fn joined(&self, a: Group, b: Group) -> Result<Group, String> {
        if a.fanins & b.fanins != 0 {
            return Err(format!("a fanin of gate {} is read twice", a.gate + 1));
        }
        let value = match self.sheet.gates[a.gate].kind {
            Kind::And => a.value & b.value,
            Kind::Or => a.value | b.value,
        };
        Ok(Group { gate: a.gate, fanins: a.fanins | b.fanins, value })
    }

    /// The group that a table over these inputs gives. A fanin's gate is earlier, so the lowest gate has nothing more to come.
    fn gathered(&self, mut inputs: Vec<Group>) -> Result<Group, String> {
        loop {
            let lowest = inputs.iter().map(|group| group.gate).min().ok_or("no inputs")?;
            let (same, others): (Vec<Group>, Vec<Group>) = inputs.into_iter().partition(|group| group.gate == lowest);
            let group = same[1..].iter().try_fold(same[0], |all, &group| self.joined(all, group))?;
            if others.is_empty() {
                return Ok(group);
            }
            if !self.whole(&group) {
                return Err(format!("some fanins of gate {} stand with what is outside of it", lowest + 1));
            }
            inputs = others;
            inputs.push(self.read(group));
        }
    }
}

/// The value of input j, at each setting of six inputs.
pub const PATTERNS: [u64; 6] = [
    0xaaaa_aaaa_aaaa_aaaa,
    0xcccc_cccc_cccc_cccc,
    0xf0f0_f0f0_f0f0_f0f0,
    0xff00_ff00_ff00_ff00,
    0xffff_0000_ffff_0000,
    0xffff_ffff_0000_0000,
];

/// Tests that `tables`, which stand after `used` others in a sound part, are those of a cover of a splitting of the sheet's tree, as it
/// is: each is some or all fanins of one gate, with all that the table holds below them; its inputs are leaves and other such tables;
/// and every leaf and every table but the last is read exactly once.
///
/// Such sets of leaves are nested or apart, so for each gate they make up a splitting, and the tables are the chosen gates in it.
pub fn sheet_tables(sheet: &Sheet, used: usize, tables: &[Table]) -> Result<(), String> {
    let mut readers = Readers::of(sheet);
    let mut groups: Vec<Option<Group>> = Vec::new();
    for (index, table) in tables.iter().enumerate() {
        let number = used + index + 1;
        let fault = |fault| format!("table {number}: {fault}");
        let inputs = taken_inputs(&mut readers, &mut groups, used, table).map_err(fault)?;
        let group = readers.gathered(inputs).map_err(fault)?;
        let last = index + 1 == tables.len();
        let root = group.gate + 1 == sheet.gates.len() && readers.whole(&group);
        if last != root {
            return Err(fault("the last table and no other is the root's".into()));
        }
        if table.net != if last { sheet.net } else { 0 } {
            return Err(fault(format!("drives net {}", table.net)));
        }
        let value = if last && sheet.inverted { !group.value } else { group.value };
        if table.truth != value & mask(table) {
            return Err(fault(format!("truth table {} where the gate's is {}", table.truth, value & mask(table))));
        }
        groups.push(Some(group));
    }
    groups.pop();
    if groups.iter().any(Option::is_some) || readers.nets.iter().any(Option::is_some) {
        return Err("a leaf or a table is not read".into());
    }
    Ok(())
}

/// The bits of a table of its input count.
fn mask(table: &Table) -> u64 {
    if table.inputs.len() == 6 {
        !0
    } else {
        (1 << (1 << table.inputs.len())) - 1
    }
}

/// The groups that a table's inputs are, taken out so that none is read again.
fn taken_inputs(readers: &mut Readers, groups: &mut [Option<Group>], used: usize, table: &Table) -> Result<Vec<Group>, String> {
    let mut inputs = Vec::new();
    for (&input, &value) in table.inputs.iter().zip(&PATTERNS) {
        let code = usize::from(input);
        let group = if code <= NETS as usize {
            readers.nets[code].take().map(|reader| readers.single(reader, value))
        } else {
            let index = code.checked_sub(CODES as usize + used + 1);
            let group = index.and_then(|index| groups.get_mut(index)).and_then(Option::take);
            group.map(|group| readers.read(Group { value, ..group }))
        };
        inputs.push(group.ok_or(format!("input {input} is no unread leaf or table of the sheet"))?);
    }
    Ok(inputs)
}

/// The values after the tables are worked out in list order; `values` has those of the nets and of the tables before.
fn work_out(tables: &[Table], used: usize, values: &mut [u64]) {
    for (index, table) in tables.iter().enumerate() {
        let output = table.output(|input| values[usize::from(input)]);
        values[CODES as usize + used + index + 1] = output;
        if table.net != 0 {
            values[usize::from(table.net)] = output;
        }
    }
}

/// Runs every setting of a sheet with few leaves.
fn all_settings(sheet: &Sheet, used: usize, tables: &[Table]) -> Result<(), String> {
    const FEW: usize = 10;
    let leaves = sheet.leaves();
    if leaves.len() > FEW {
        return Ok(());
    }
    let mut values = vec![0; CODES as usize + used + tables.len() + 1];
    for high in 0..1u64 << leaves.len().saturating_sub(6) {
        for (index, &net) in leaves.iter().enumerate() {
            let value = if index < 6 { PATTERNS[index] } else { (high >> (index - 6) & 1).wrapping_neg() };
            values[usize::from(net)] = value;
        }
        let drawn = sheet.value(|net| values[usize::from(net)]);
        work_out(tables, used, &mut values);
        if values[usize::from(sheet.net)] != drawn {
            return Err(format!("net {} differs from the drawn tree", sheet.net));
        }
    }
    Ok(())
}

/// Runs 256 random settings of the free nets through the whole list, and through the drawn trees.
fn random_settings(accepted: &Accepted, part: &Part) -> Result<(), String> {
    let mut rng = Rng::new(part.tables.len() as u64);
    for _ in 0..4 {
        let mut drawn = vec![0; CODES as usize + part.tables.len() + 1];
        let old = accepted.old.iter().flat_map(|table| &table.inputs).copied().filter(|&input| i64::from(input) <= NETS);
        for net in old.chain(accepted.sheets.iter().flat_map(Sheet::leaves)) {
            drawn[usize::from(net)] = biased(&mut rng);
        }
        let mut listed = drawn.clone();
        work_out(&accepted.old, 0, &mut drawn);
        for sheet in &accepted.sheets {
            drawn[usize::from(sheet.net)] = sheet.value(|net| drawn[usize::from(net)]);
        }
        work_out(&part.tables, 0, &mut listed);
        for sheet in &accepted.sheets {
            let net = usize::from(sheet.net);
            if listed[net] != drawn[net] {
                return Err(format!("net {net} differs from the drawn trees"));
            }
        }
    }
    Ok(())
}

/// 64 random values of a net, mostly 1 or mostly 0 as often as evenly mixed, so that wide gates change too.
fn biased(rng: &mut Rng) -> u64 {
    let value = rng.word();
    match rng.below(4) {
        0 => value & rng.word() & rng.word(),
        1 => value | rng.word() | rng.word(),
        _ => value,
    }
}
