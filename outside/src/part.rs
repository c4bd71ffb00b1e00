//! Parts and their lists (01, "Part" and "List").

use crate::text;
use crate::{CODES, INPUTS, NETS};

/// One table: the net it drives (0 for none), its inputs in rising order, and its truth table.
#[derive(Clone, Debug, PartialEq, Eq)]
pub struct Table {
    pub net: u16,
    pub inputs: Vec<u16>,
    pub truth: u64,
}

#[derive(Clone, Debug, PartialEq, Eq)]
pub struct Part {
    pub k: usize,
    pub capacity: usize,
    pub tables: Vec<Table>,
}

impl Table {
    /// The output, 64 settings at a time: bit i of the truth table is the output where input j has the value of bit j of i.
    pub fn output(&self, values: impl Fn(u16) -> u64) -> u64 {
        let inputs: Vec<u64> = self.inputs.iter().map(|&input| values(input)).collect();
        let mut output = 0;
        for index in (0..1usize << inputs.len()).filter(|index| self.truth >> index & 1 == 1) {
            let agree = |(j, value): (usize, &u64)| if index >> j & 1 == 1 { *value } else { !*value };
            output |= inputs.iter().enumerate().map(agree).fold(!0, |all, value| all & value);
        }
        output
    }

    fn line(&self, number: usize, list: &mut String) {
        for field in [number as u64, self.net.into(), self.inputs.len() as u64] {
            text::push(list, field, 6);
        }
        for &input in &self.inputs {
            text::push(list, input.into(), 6);
        }
        text::push(list, self.truth, 21);
        list.push('\n');
    }
}

impl Part {
    /// The tables that are not used.
    pub fn left(&self) -> usize {
        self.capacity - self.tables.len()
    }

    /// The nets that tables drive.
    pub fn driven(&self) -> Vec<u16> {
        self.tables.iter().map(|table| table.net).filter(|&net| net != 0).collect()
    }

    /// The nets that tables read.
    pub fn read(&self) -> Vec<u16> {
        let inputs = self.tables.iter().flat_map(|table| &table.inputs);
        inputs.copied().filter(|&input| i64::from(input) <= NETS).collect()
    }

    /// The list.
    pub fn list(&self) -> String {
        let mut list = String::new();
        for field in [self.k, self.capacity, self.tables.len()] {
            text::push(&mut list, field as u64, 6);
        }
        list.push('\n');
        for (index, table) in self.tables.iter().enumerate() {
            table.line(index + 1, &mut list);
        }
        list
    }
}

/// A rule of a sound part that a table can break.
#[derive(Clone, Copy, Debug, PartialEq, Eq, PartialOrd, Ord)]
pub enum Rule {
    Net,
    InputCount,
    Rising,
    Truth,
    Input,
    Undriven,
    DrivenOnce,
    DrivenFirst,
}

impl Rule {
    pub const ALL: [Rule; 8] =
        [Rule::Net, Rule::InputCount, Rule::Rising, Rule::Truth, Rule::Input, Rule::Undriven, Rule::DrivenOnce, Rule::DrivenFirst];

    /// How the rule is broken, in words.
    pub fn broken(self) -> &'static str {
        match self {
            Rule::Net => "it drives what is no net",
            Rule::InputCount => "its input count is not from 2 to K",
            Rule::Rising => "its inputs are not rising",
            Rule::Truth => "its truth table has bits from 2^u up",
            Rule::Input => "an input is neither a net nor an earlier table",
            Rule::Undriven => "an input names a table that drives a net",
            Rule::DrivenOnce => "an earlier table drives its net",
            Rule::DrivenFirst => "an earlier table or this one reads the net that it drives",
        }
    }
}

/// The rules of a sound part's tables, tested one table after another: all that is known of the tables before.
pub struct Rules {
    k: usize,
    /// The net that each table drives, or 0.
    nets: Vec<u16>,
    /// By a net's number: whether a table drives it, and whether one reads it.
    driven: Vec<bool>,
    read: Vec<bool>,
}

impl Rules {
    pub fn new(k: usize) -> Rules {
        let none = vec![false; NETS as usize + 1];
        Rules { k, nets: Vec::new(), driven: none.clone(), read: none }
    }

    /// Takes the next table, or gives a rule that it breaks.
    pub fn add(&mut self, table: &Table) -> Result<(), Rule> {
        own_rules(self.k, table)?;
        self.input_rules(table)?;
        self.net_rules(table)
    }

    /// Each input is a net, or an earlier table that drives none.
    fn input_rules(&mut self, table: &Table) -> Result<(), Rule> {
        for &input in &table.inputs {
            if (1..=NETS).contains(&i64::from(input)) {
                self.read[usize::from(input)] = true;
                continue;
            }
            let index = usize::from(input).checked_sub(CODES as usize + 1).ok_or(Rule::Input)?;
            if *self.nets.get(index).ok_or(Rule::Input)? != 0 {
                return Err(Rule::Undriven);
            }
        }
        Ok(())
    }

    /// No net is driven twice, and a driven net is read only by tables after its driver.
    fn net_rules(&mut self, table: &Table) -> Result<(), Rule> {
        let net = usize::from(table.net);
        if net != 0 && self.driven[net] {
            return Err(Rule::DrivenOnce);
        }
        if net != 0 && self.read[net] {
            return Err(Rule::DrivenFirst);
        }
        self.driven[net] = true;
        self.nets.push(table.net);
        Ok(())
    }
}

/// What a table must be by itself.
fn own_rules(k: usize, table: &Table) -> Result<(), Rule> {
    let u = table.inputs.len();
    if i64::from(table.net) > NETS {
        return Err(Rule::Net);
    }
    if !(2..=k).contains(&u) {
        return Err(Rule::InputCount);
    }
    if table.inputs.windows(2).any(|pair| pair[0] >= pair[1]) {
        return Err(Rule::Rising);
    }
    if u < INPUTS && table.truth >> (1 << u) != 0 {
        return Err(Rule::Truth);
    }
    Ok(())
}
