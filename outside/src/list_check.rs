//! Tests of list readers on generated texts: of the independent one, and of another that answers as the archive does.

use std::collections::BTreeSet;

use crate::level::levels;
use crate::list::{self, Answer, Fault};
use crate::list_cases::Case;
use crate::part::Part;
use crate::{INPUTS, TABLES};

/// The numbers of the largest part: K, capacity, used, and ten for each of 800 tables.
pub const NUMBERS: usize = 3 + 10 * TABLES;

/// The refusal of a reading into too little room, at line 0.
const NO_ROOM: (u32, usize) = (14, 0);

/// What stands in the numbers before a call.
const UNTOUCHED: u64 = 0x5a5a_5a5a_5a5a_5a5a;

pub type Check = dyn Fn(&[u8]) -> Answer<()>;
pub type Read = dyn Fn(&[u8], &mut [u64]) -> Answer<usize>;

/// A reader that is tested.
pub struct Reader<'a> {
    /// Whether a text is a list.
    pub check: &'a Check,
    /// The same, and the list's numbers written to the front of the room; it gives their count.
    pub read: &'a Read,
}

/// The numbers of a part: K, capacity, used, then of each table its net, u, six inputs (unused ones 0), truth table and level.
pub fn numbers(part: &Part) -> Vec<u64> {
    let mut numbers = [part.k, part.capacity, part.tables.len()].map(|number| number as u64).to_vec();
    for (table, level) in part.tables.iter().zip(levels(&part.tables)) {
        numbers.extend([table.net.into(), table.inputs.len() as u64]);
        numbers.extend((0..INPUTS).map(|place| table.inputs.get(place).map_or(0, |&input| input.into())));
        numbers.extend([table.truth, level as u64]);
    }
    numbers
}

/// Tests the independent reader: it answers as is wanted, and a part that it reads has the text as its list.
pub fn check_own(case: &Case) -> Result<(), String> {
    let answer = list::read(&case.text);
    let given = answer.as_ref().map(|_| ()).map_err(|fault| fault.refusal());
    if given != case.wanted {
        return Err(format!("{given:?} where {:?} is right", case.wanted));
    }
    match answer {
        Ok(part) if part.list().as_bytes() != case.text => Err("the part's list is another text".into()),
        _ => Ok(()),
    }
}

/// Tests another reader against the independent one: the same answer from both calls, the same part, nothing altered besides, and 14 where
/// the room is too small. `room` has `NUMBERS` or more numbers.
pub fn check_reader(reader: &Reader, text: &[u8], room: &mut [u64]) -> Result<(), String> {
    let wanted = list::read(text).map(|part| numbers(&part)).map_err(Fault::refusal);
    let checked = (reader.check)(text);
    if checked != wanted.as_ref().map(|_| ()).map_err(|&refused| refused) {
        return Err(format!("checked: {checked:?} where {:?} is right", wanted.map(|_| ())));
    }
    room.fill(UNTOUCHED);
    let count = wanted.as_ref().map_or(0, Vec::len);
    for length in BTreeSet::from([0, 3, count.saturating_sub(1), count, room.len()]) {
        let fits = if length < count { Err(NO_ROOM) } else { Ok(()) };
        let written = wanted.as_ref().map_err(|&refused| refused).and_then(|numbers| fits.map(|()| &numbers[..]));
        read_into(reader, text, written, room, length)?;
    }
    Ok(())
}

/// One reading into the first `length` numbers of the room, which is as before the call afterwards.
fn read_into(reader: &Reader, text: &[u8], wanted: Answer<&[u64]>, room: &mut [u64], length: usize) -> Result<(), String> {
    let given = (reader.read)(text, &mut room[..length]);
    if given != wanted.map(<[u64]>::len) {
        return Err(format!("read into {length} numbers: {given:?} where {:?} is right", wanted.map(<[u64]>::len)));
    }
    let (written, rest) = room.split_at_mut(wanted.map_or(0, <[u64]>::len));
    if written != wanted.unwrap_or(&[]) {
        return Err(format!("read into {length} numbers: other numbers"));
    }
    if rest.iter().any(|&number| number != UNTOUCHED) {
        return Err(format!("read into {length} numbers: what it should not alter is altered"));
    }
    written.fill(UNTOUCHED);
    Ok(())
}
