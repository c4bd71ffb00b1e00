//! A refusal line and the input it was printed for, as a sentence with the line shown.

use crate::list;
use crate::program;
use crate::refusal::Refusal;
use crate::text;

/// The sentence for what a mapping program printed for `input`, and the line concerned.
pub fn explain(input: &[u8], printed: &[u8]) -> Result<String, String> {
    let Some(refusal) = read_refusal(printed) else {
        return list::read(printed)
            .map(|part| format!("Accepted: {} of {} tables are used.\n", part.tables.len(), part.capacity))
            .map_err(|fault| fault.to_string());
    };
    if program::read(input).err() != Some(refusal) {
        return Err("this line is not what the input gives".into());
    }
    let reason = reason(refusal.number).expect("a number that an input gives");
    let number = line_number(input, &refusal);
    let place = match (refusal.sheet, refusal.place) {
        (0, _) => "The opening line".into(),
        (sheet, 0) => format!("Sheet {sheet}, which begins at line {number} of the input"),
        (sheet, place) => format!("Sheet {sheet}, line {place} (line {number} of the input)"),
    };
    let shown = match input.split_inclusive(|&byte| byte == b'\n').nth(number - 1) {
        Some(line) => line.strip_suffix(b"\n").unwrap_or(line).escape_ascii().to_string(),
        None => "(the input ends before this line)".into(),
    };
    Ok(format!("{place}: {reason} (refusal {}).\n{number:>6} | {shown}\n", refusal.number))
}

/// Three fields and nothing else, the first below 0.
fn read_refusal(printed: &[u8]) -> Option<Refusal> {
    let (line, rest) = text::split_line(printed)?;
    let fields = text::fields(line)?;
    let &[number, sheet, place] = &fields[..] else { return None };
    let number = u32::try_from(-number).ok().filter(|&number| number > 0)?;
    rest.is_empty().then_some(Refusal::new(number, usize::try_from(sheet).ok()?, usize::try_from(place).ok()?))
}

/// The input's line, from 1, that a refusal is about: the sheet's first where it names no line. The sheets before it are good.
fn line_number(input: &[u8], refusal: &Refusal) -> usize {
    if refusal.sheet == 0 {
        return 1;
    }
    let mut first = 2;
    for _ in 1..refusal.sheet {
        let head = input.split(|&byte| byte == b'\n').nth(first - 1);
        let gates = head.and_then(text::fields).map_or(0, |fields| fields[1] as usize);
        first += gates + 1;
    }
    first + refusal.place.saturating_sub(1)
}

/// What a refusal's number says (01, "Turned down because of the input" and "of the part"; 02); the words are those of crates/refusals.
pub fn reason(number: u32) -> Option<&'static str> {
    Some(match number {
        1 => {
            "the line is missing, has no line feed, has a wrong number of fields or a field that is not laid out, or follows the last line"
        }
        2 => "K must be from 2 to 6",
        3 => "the capacity must be from 1 to 800",
        4 => "the output net must be from 1 to 9999, with or without a minus sign",
        5 => "the number of gates must be from 1 to 255",
        6 => "the kind must be 1 (AND) or 2 (OR)",
        7 => "the fanin count must be from 2 to 10",
        8 => "a fanin is neither a net (1 to 9999) nor an earlier gate (10000 plus its number)",
        9 => "a gate is read a second time",
        10 => "a net stands at a second leaf",
        11 => "the sheet's output net is one of its leaves",
        12 => "the sheet has more than 256 leaves",
        13 => "a gate other than the last is never read",
        14 => "the buffer has too little room from the place on",
        15 => "the part has no such line",
        20 => "the part is not sound",
        21 => "the output net is already driven",
        22 => "a table already reads the output net",
        23 => "the sheet needs more tables than the part has left",
        31 => "a line of the list is missing, left over, or not laid out as the list has it",
        32 => "a rule of a sound part is broken at this line of the list, or the used count is above the capacity",
        33 => "a set of no sheets or of more than 16, or its lengths do not add up to its text's",
        34 => "the wanted level must be from 0 to 1024",
        35 => "a reservation is already open",
        36 => "no reservation is open, or it is for another output net",
        _ => return None,
    })
}
