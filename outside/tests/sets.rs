//! Sets of sheets (request 106): by hand, against adds one by one and the mapping program, generated ones, and ways of adding that are wrong.

mod common;

use std::collections::BTreeSet;

use common::line;
use common::sets::{check_by_hand, check_longest, check_short_outputs};
use outside::list;
use outside::part::Part;
use outside::program;
use outside::refusal::Refusal;
use outside::samples::input;
use outside::set::add_set;
use outside::set_cases::{case, Case, KINDS};
use outside::set_check::{add_to_list, answer, check_add, Add, LONGEST};
use outside::sheet::Sheet;

#[test]
fn sets_by_hand() {
    check_by_hand(&add_to_list);
}

#[test]
fn short_outputs() {
    check_short_outputs(&add_to_list);
}

#[test]
fn the_longest_set() {
    check_longest(&add_to_list);
}

/// "As if those before it had been added": a set gives what sets of one of its sheets each give one after another.
#[test]
fn one_by_one() {
    for case in (0..2000).map(|index| case(2, index)).filter(is_of_sheets) {
        let part = list::read(&case.list).expect("a list");
        let (mut added, mut rest) = (Ok(part.clone()), &case.text[..]);
        for (position, &length) in (1..).zip(&case.lengths) {
            let (sheet, after) = rest.split_at(length as usize);
            let next = |part| add_set(&part, sheet, &[length]).map_err(|refusal| Refusal { sheet: position, ..refusal });
            added = added.and_then(next);
            rest = after;
        }
        assert_eq!(add_set(&part, &case.text, &case.lengths), added, "{}", case.kind);
    }
}

/// Whether the answer is of the sheets: one is refused, or all are accepted.
fn is_of_sheets(case: &Case) -> bool {
    !matches!(answer(case), Err(Refusal { sheet: 0, .. }))
}

/// On a part of no tables a set of good sheets is what the mapping program makes of them.
#[test]
fn as_the_program_maps() {
    for index in 0..300 {
        let sheets = outside::generate::sheets(&mut outside::rng::Rng::new(index), 1 + index as usize % 16);
        let part = list::read(line(&[4, 100, 0]).as_bytes()).expect("a list");
        let texts: Vec<String> = sheets.iter().map(Sheet::text).collect();
        let lengths: Vec<u32> = texts.iter().map(|text| text.len() as u32).collect();
        assert_eq!(add_set(&part, texts.concat().as_bytes(), &lengths), program::map(input(4, 100, &sheets).as_bytes()));
    }
}

#[test]
fn generated_sets() {
    let mut output = vec![0; LONGEST];
    let mut kinds = BTreeSet::new();
    let mut outcomes = BTreeSet::new();
    for index in 0..4000 {
        let case = case(1, index);
        let answer = answer(&case);
        assert_eq!(check_add(&add_to_list, &case, &answer, &mut output), Ok(()), "{} {index}", case.kind);
        kinds.insert(case.kind);
        outcomes.insert(answer.map_or_else(|refusal| refusal.number, |_| 0));
    }
    assert_eq!(kinds, BTreeSet::from(KINDS.map(|(kind, _)| kind)));
    assert_eq!(outcomes, (0..=13).chain(21..=23).chain(31..=33).collect());
}

/// Whether this way of adding answers rightly on some cases.
fn right(add: &Add) -> bool {
    let mut output = vec![0; LONGEST];
    (0..600).map(|index| case(3, index)).all(|case| check_add(add, &case, &answer(&case), &mut output).is_ok())
}

/// The same answer with another refusal.
fn with_refusal(change: fn(Refusal) -> Refusal) -> Box<Add> {
    Box::new(move |list, text, lengths, output| add_to_list(list, text, lengths, output).map_err(change))
}

/// The same answer where each length is taken for what `change` makes of it.
fn with_lengths(change: fn(&[u32], usize) -> Vec<u32>) -> Box<Add> {
    Box::new(move |list, text, lengths, output| add_to_list(list, text, &change(lengths, text.len()), output))
}

#[test]
fn the_right_way() {
    assert!(right(&add_to_list));
    assert!(right(&*with_refusal(|refusal| refusal)) && right(&*with_lengths(|lengths, _| lengths.to_vec())));
}

#[test]
fn wrong_answers() {
    let wrong: [(&str, Box<Add>); 11] = [
        ("positions from 0", with_refusal(|refusal| Refusal { sheet: refusal.sheet.saturating_sub(1), ..refusal })),
        ("no positions", with_refusal(|refusal| Refusal { sheet: 0, ..refusal })),
        ("position 1 in any set", with_refusal(|refusal| Refusal { sheet: refusal.sheet.max(1), ..refusal })),
        ("no places", with_refusal(|refusal| Refusal { place: 0, ..refusal })),
        ("33 as 1", with_refusal(|refusal| if refusal.number == 33 { Refusal::new(1, 1, 1) } else { refusal })),
        ("22 as 21", with_refusal(|refusal| if refusal.number == 22 { Refusal { number: 21, ..refusal } } else { refusal })),
        ("empty sheets left out", with_lengths(|lengths, _| lengths.iter().copied().filter(|&length| length > 0).collect())),
        ("sixteen of more", with_lengths(|lengths, _| lengths[..lengths.len().min(16)].to_vec())),
        ("the rest for the last sheet", with_lengths(the_rest)),
        ("14 before the set", Box::new(no_room_first)),
        ("33 before the list", Box::new(set_before_list)),
    ];
    for (name, wrong) in wrong {
        assert!(!right(&*wrong), "{name}");
    }
}

/// The last length as the text has it, where the others leave something.
fn the_rest(lengths: &[u32], length: usize) -> Vec<u32> {
    let Some((_, before)) = lengths.split_last() else { return vec![] };
    match before.iter().try_fold(length, |rest, &length| rest.checked_sub(length as usize)) {
        Some(rest) => [before, &[rest as u32]].concat(),
        None => lengths.to_vec(),
    }
}

fn no_room_first(list: &[u8], text: &[u8], lengths: &[u32], output: &mut [u8]) -> Result<usize, Refusal> {
    if output.len() < list.len() {
        return Err(Refusal::new(14, 0, 0));
    }
    add_to_list(list, text, lengths, output)
}

fn set_before_list(list: &[u8], text: &[u8], lengths: &[u32], output: &mut [u8]) -> Result<usize, Refusal> {
    if lengths.is_empty() || lengths.iter().map(|&length| length as usize).sum::<usize>() != text.len() {
        return Err(Refusal::new(33, 0, 0));
    }
    add_to_list(list, text, lengths, output)
}

/// The list with the sheets before a refused one, or the answer itself.
fn list_of_those_before(list: &[u8], text: &[u8], lengths: &[u32], output: &mut [u8]) -> Result<usize, Refusal> {
    let answer = add_to_list(list, text, lengths, output);
    if let Err(Refusal { sheet: position @ 2.., .. }) = answer {
        let before = &lengths[..position - 1];
        let bytes: u32 = before.iter().sum();
        add_to_list(list, &text[..bytes as usize], before, output)?;
    }
    answer
}

/// Where 21 to 23 are a later sheet's, what it is to the list alone.
fn sheet_on_the_list(list: &[u8], text: &[u8], lengths: &[u32], output: &mut [u8]) -> Result<usize, Refusal> {
    let answer = add_to_list(list, text, lengths, output);
    let Err(Refusal { number: 21..=23, sheet: position @ 2.., .. }) = answer else { return answer };
    let start: u32 = lengths[..position - 1].iter().sum();
    let length = lengths[position - 1];
    add_to_list(list, &text[start as usize..][..length as usize], &[length], output)
}

/// The right answer, with an accepted set's part as `change` leaves it, given how many tables are old.
fn with_part(change: fn(&mut Part, usize)) -> Box<Add> {
    Box::new(move |list, text, lengths, output| {
        let count = add_to_list(list, text, lengths, output)?;
        let mut part = list::read(&output[..count]).expect("a list");
        change(&mut part, list::read(list).expect("a list").tables.len());
        let changed = part.list();
        output[..changed.len()].copy_from_slice(changed.as_bytes());
        Ok(changed.len())
    })
}

#[test]
fn wrong_lists() {
    let wrong: [(&str, Box<Add>); 9] = [
        ("what was accepted is written", Box::new(list_of_those_before)),
        ("a sheet against the list alone", Box::new(sheet_on_the_list)),
        ("no new tables", with_part(|part, old| part.tables.truncate(old))),
        ("another capacity", with_part(|part, _| part.capacity = 800)),
        ("an old table's value", with_part(|part, old| part.tables[..old].iter_mut().for_each(|table| table.truth ^= 1))),
        ("a new table's value", with_part(|part, old| part.tables[old].truth ^= 1)),
        ("the new tables in front", with_part(|part, old| part.tables.rotate_left(old))),
        (
            "the output cleared",
            Box::new(|list, text, lengths, output| {
                output.fill(0);
                add_to_list(list, text, lengths, output)
            }),
        ),
        (
            "the rest of the output cleared",
            Box::new(|list, text, lengths, output| {
                let count = add_to_list(list, text, lengths, output)?;
                output[count..].fill(0);
                Ok(count)
            }),
        ),
    ];
    assert!(right(&*with_part(|_, _| ())));
    for (name, wrong) in wrong {
        assert!(!right(&*wrong), "{name}");
    }
}
