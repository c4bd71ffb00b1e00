//! Sets of sheets (request 106): all of them in a part, or none.

use crate::adding::{Accepted, Adding};
use crate::cover;
use crate::least::least;
use crate::part::Part;
use crate::refusal::Refusal;
use crate::sheet::{read_only, Sheet};

/// The most sheets of a set.
const SHEETS: usize = 16;

/// The refusal of a set before any of its sheets: no sheets, more than 16, or lengths that do not add up to the text's.
const NO_SET: Refusal = Refusal { number: 33, sheet: 0, place: 0 };

/// The set's sheets with their least numbers, or the first refusal; `lengths` has the bytes of each sheet in `text`. The part is sound.
pub fn read_set(part: &Part, text: &[u8], lengths: &[u32]) -> Result<Accepted, Refusal> {
    walk(part, part.left(), text, lengths, least)
}

/// The part with a least cover of each sheet after its tables.
pub fn add_set(part: &Part, text: &[u8], lengths: &[u32]) -> Result<Part, Refusal> {
    let mut tables = part.tables.clone();
    walk(part, part.left(), text, lengths, |sheet, k| cover::add(sheet, k, &mut tables))?;
    Ok(Part { tables, ..*part })
}

/// Takes a set sheet by sheet, on a part of which the sheets find `left` tables; `tables` gives how many a joined sheet takes at K.
pub fn walk(
    part: &Part,
    left: usize,
    text: &[u8],
    lengths: &[u32],
    tables: impl FnMut(&Sheet, usize) -> usize,
) -> Result<Accepted, Refusal> {
    let texts = cut(text, lengths).ok_or(NO_SET)?;
    let mut adding = Adding::to(part.clone(), left, tables);
    for (position, text) in (1..).zip(texts) {
        let sheet = read_only(text).map_err(|fault| Refusal::new(fault.number, position, fault.line))?;
        adding.add(sheet).map_err(|number| Refusal::new(number, position, 0))?;
    }
    Ok(adding.accepted)
}

/// The text of each sheet, where they are 1 to 16 and the lengths add up to the text's.
fn cut<'a>(text: &'a [u8], lengths: &[u32]) -> Option<Vec<&'a [u8]>> {
    if !(1..=SHEETS).contains(&lengths.len()) {
        return None;
    }
    let mut rest = text;
    let mut texts = Vec::new();
    for &length in lengths {
        let (sheet, after) = rest.split_at_checked(usize::try_from(length).ok()?)?;
        texts.push(sheet);
        rest = after;
    }
    rest.is_empty().then_some(texts)
}
