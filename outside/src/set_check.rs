//! Tests on generated sets of what adds a set of sheets to a list, as the archive does; and of all that writes a list into an output.

use std::collections::BTreeSet;
use std::fmt::Debug;

use crate::adding::Accepted;
use crate::check::check_accepted;
use crate::list;
use crate::part::Part;
use crate::refusal::Refusal;
use crate::set::{add_set, read_set};
use crate::set_cases::Case;
use crate::TABLES;

/// The bytes of the longest list: line 0, and 800 lines of six inputs.
pub const LONGEST: usize = 19 + 76 * TABLES;

/// The refusal of a list that is too long for the output.
const NO_ROOM: Refusal = Refusal { number: 14, sheet: 0, place: 0 };

/// What stands in the output before a call.
const UNTOUCHED: u8 = 0x5a;

/// What is tested: given a list, a set's text, its lengths and an output, it writes the list with the set added to the output's front, and
/// gives its count of bytes.
pub type Add = dyn Fn(&[u8], &[u8], &[u32], &mut [u8]) -> Result<usize, Refusal>;

/// The part whose list the text is; a refusal's place is the list's line.
pub fn part_of(text: &[u8]) -> Result<Part, Refusal> {
    list::read(text).map_err(|fault| Refusal::new(fault.kind.number(), 0, fault.line))
}

/// Writes the part's list to the output's front, and gives its count of bytes.
pub fn write_list(part: &Part, output: &mut [u8]) -> Result<usize, Refusal> {
    let list = part.list();
    output.get_mut(..list.len()).ok_or(NO_ROOM)?.copy_from_slice(list.as_bytes());
    Ok(list.len())
}

/// The same as an `Add` by the independent implementation.
pub fn add_to_list(list: &[u8], text: &[u8], lengths: &[u32], output: &mut [u8]) -> Result<usize, Refusal> {
    write_list(&add_set(&part_of(list)?, text, lengths)?, output)
}

/// The same by the archive.
#[cfg(feature = "linked")]
pub fn linked(list: &[u8], text: &[u8], lengths: &[u32], output: &mut [u8]) -> Result<usize, Refusal> {
    crate::linked::add_set(list, text, lengths, output).map(<[u8]>::len).map_err(refusal_of)
}

/// A refusal of the archive.
#[cfg(feature = "linked")]
pub fn refusal_of(refused: crate::linked::CallRefused) -> Refusal {
    Refusal::new(refused.number, refused.position as usize, refused.place as usize)
}

/// What the case's set is to its list, by the independent implementation.
pub fn answer(case: &Case) -> Result<Accepted, Refusal> {
    read_set(&part_of(&case.list)?, &case.text, &case.lengths)
}

/// Tests `add` on a case: the right answer, a list by its rules, nothing altered besides, and 14 where the output is too short. `answer` is
/// the independent implementation's, which is tested by what is known of the case from its making. `output` has `LONGEST` or more bytes.
pub fn check_add(add: &Add, case: &Case, answer: &Result<Accepted, Refusal>, output: &mut [u8]) -> Result<(), String> {
    let own = answer.as_ref().map(|_| ()).map_err(|&refusal| refusal);
    if let Some(wanted) = case.wanted.filter(|&wanted| wanted != own) {
        return Err(format!("our own answer is {own:?} where {wanted:?} is right"));
    }
    let added = answer.as_ref().map_err(|&refusal| refusal);
    let call = |output: &mut [u8]| add(&case.list, &case.text, &case.lengths, output).map(|count| (count, ()));
    check_rooms(&call, case.list.len(), added.map(|added| (Some(added), ())), output)?;
    Ok(())
}

/// What writes a list to the front of an output, or none: it gives the count of bytes, and what else it hands back.
pub type Write<'a, T> = dyn Fn(&mut [u8]) -> Result<(usize, T), Refusal> + 'a;

/// Tests a call with room for the longest list, for just the one that it writes, for one byte less and for none, where `right` is the answer
/// with room enough: the sheets whose tables its list has after those of one of `old` bytes, where it writes one, and what else it hands
/// back. Nothing else is altered. It gives the list that is written with the most room.
pub fn check_rooms<T: Copy + Debug + PartialEq>(
    call: &Write<T>,
    old: usize,
    right: Result<(Option<&Accepted>, T), Refusal>,
    output: &mut [u8],
) -> Result<Vec<u8>, String> {
    let added = right.map_or(None, |(added, _)| added);
    let count = added.map_or(0, |added| old + new_bytes(added));
    let mut list = Vec::new();
    output.fill(UNTOUCHED);
    for length in BTreeSet::from([0, count.saturating_sub(1), count, output.len()]) {
        let fault = |fault: String| format!("with room for {length} bytes: {fault}");
        let given = call(&mut output[..length]);
        let wanted = right.and_then(|(_, other)| if length < count { Err(NO_ROOM) } else { Ok((count, other)) });
        if given != wanted {
            return Err(fault(format!("{given:?} where {wanted:?} is right")));
        }
        let (written, rest) = output.split_at_mut(given.map_or(0, |(count, _)| count));
        if rest.iter().fold(0, |altered, byte| altered | (byte ^ UNTOUCHED)) != 0 {
            return Err(fault("what it should not alter is altered".into()));
        }
        if let Some(added) = added.filter(|_| !written.is_empty() && written != list) {
            list = written.to_vec();
            check_accepted(added, &list).map_err(fault)?;
        }
        written.fill(UNTOUCHED);
    }
    Ok(list)
}

/// The bytes of the new tables' lines: each leaf, and each table but the root's, is an input once, whichever cover is taken.
fn new_bytes(accepted: &Accepted) -> usize {
    let sheets = accepted.sheets.iter().zip(&accepted.least);
    sheets.map(|(sheet, least)| 40 * least + 6 * (sheet.leaves().len() + least - 1)).sum()
}
