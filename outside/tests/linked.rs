//! The proved mapper, linked in, against the checker.
#![cfg(feature = "linked")]

mod common;

use common::{input, one_gate, reservations, sets, text, AND, LIST};
use outside::call_cases::sequence;
use outside::call_check::{self, Walk};
use outside::check::check_output;
use outside::explain::reason;
use outside::generate::case;
use outside::linked::{add_set, add_set_beside, check_list, commit, map, read_list, refusal, reserve, withdraw};
use outside::linked::{CallRefused, Refused, Reservation, LONGEST, NUMBERS};
use outside::one_more::{grown, has_join, Place};
use outside::program::read;
use outside::set_cases;
use outside::set_check::{self, check_add};
use outside::sheet::Sheet;

#[test]
fn the_example() {
    let input = text(&[&[4, 8], &[20, 3], &[2, 2, 1, 2], &[2, 2, 3, 4], &[1, 2, 10001, 10002], &[-21, 1], &[1, 2, 20, -5]]);
    assert_eq!(map(input.as_bytes(), &mut vec![0; LONGEST]), LIST.as_bytes());
}

#[test]
fn the_example_read_back() {
    let numbers = [4, 8, 2, 20, 4, 1, 2, 3, 4, 0, 0, 61152, 1, 21, 2, 5, 20, 0, 0, 0, 0, 11, 2];
    assert_eq!(read_list(LIST.as_bytes(), &mut [0; NUMBERS]), Ok(&numbers[..]));
    assert_eq!(read_list(LIST.as_bytes(), &mut [0; 23]), Ok(&numbers[..]));
    assert_eq!(read_list(LIST.as_bytes(), &mut [0; 22]), Err(Refused { number: 14, line: 0 }));
    assert_eq!(check_list(LIST.as_bytes()), Ok(()));
    assert_eq!(check_list(&LIST.as_bytes()[..100]), Err(Refused { number: 31, line: 2 }));
}

/// What the mapper prints is read back: the longest list, and those of generated inputs.
#[test]
fn lists_read_back() {
    let mut output = vec![0; LONGEST];
    let mut numbers = [0; NUMBERS];
    let inputs = (0..1000).map(|index| case(2, index).input).chain([outside::samples::full_part().into_bytes()]);
    for input in inputs.filter(|input| read(input).is_ok()) {
        let list = map(&input, &mut output);
        let part = outside::list::read(list).expect("a list");
        assert_eq!(read_list(list, &mut numbers), Ok(&outside::list_check::numbers(&part)[..]));
    }
}

#[test]
fn sets_by_hand() {
    sets::check_by_hand(&set_check::linked);
    sets::check_short_outputs(&set_check::linked);
    sets::check_longest(&set_check::linked);
}

/// What the wrapper gives, by the answer's three parts.
#[test]
fn a_set() {
    let sheets = one_gate(20, AND, &[1, 2]) + &one_gate(20, AND, &[3, 4]);
    let mut output = [0; 19 + 52];
    let new = "     4     8     1\n     1    20     2     1     2                    8\n";
    assert_eq!(add_set(b"     4     8     0\n", &sheets.as_bytes()[..38], &[38], &mut output), Ok(new.as_bytes()));
    let refused = add_set(b"     4     8     0\n", sheets.as_bytes(), &[38, 38], &mut output);
    assert_eq!(refused, Err(CallRefused { number: 21, place: 0, position: 2 }));
    let refused = add_set(&LIST.as_bytes()[..100], sheets.as_bytes(), &[38, 38], &mut output);
    assert_eq!(refused, Err(CallRefused { number: 31, place: 2, position: 0 }));
}

#[test]
fn generated_sets() {
    let mut output = vec![0; LONGEST];
    for index in 0..3000 {
        let case = set_cases::case(2, index);
        assert_eq!(check_add(&set_check::linked, &case, &set_check::answer(&case), &mut output), Ok(()), "{} {index}", case.kind);
    }
}

#[test]
fn reservations_by_hand() {
    reservations::check_by_hand(&call_check::linked);
    reservations::check_short_outputs(&call_check::linked);
    reservations::check_sale(&call_check::linked);
}

/// What the wrappers give: three tables, two of them reserved for net 30 and taken for it.
#[test]
fn a_reservation() {
    let list = b"     2     3     0\n";
    let two_gates = text(&[&[-30, 2], &[1, 2, 1, 2], &[2, 2, 10001, 3]]);
    let reserved = Reservation { tables: 2, net: 30 };
    assert_eq!(reserve(list, Reservation::NONE, two_gates.as_bytes()), Ok(reserved));
    assert_eq!(reserve(list, reserved, two_gates.as_bytes()), Err(CallRefused { number: 35, place: 0, position: 0 }));
    assert_eq!(reserve(list, Reservation::NONE, b""), Err(CallRefused { number: 1, place: 1, position: 0 }));

    let mut output = vec![0; LONGEST];
    let one = "     2     3     1\n     1    31     2     1     2                    8\n";
    let sheets = one_gate(31, AND, &[1, 2]) + &one_gate(32, AND, &[1, 2]);
    assert_eq!(add_set_beside(list, reserved, &sheets.as_bytes()[..38], &[38], &mut output), Ok(one.as_bytes()));
    let refused = add_set_beside(list, reserved, sheets.as_bytes(), &[38, 38], &mut output);
    assert_eq!(refused, Err(CallRefused { number: 23, place: 0, position: 2 }));

    let three = one.replacen("     1", "     3", 1)
        + "     2     0     2     1     2                    8\n     3    30     2     3 10002                    1\n";
    assert_eq!(commit(one.as_bytes(), reserved, two_gates.as_bytes(), &mut output), Ok(three.as_bytes()));
    let refused = commit(one.as_bytes(), Reservation::NONE, two_gates.as_bytes(), &mut output);
    assert_eq!(refused, Err(CallRefused { number: 36, place: 0, position: 0 }));

    assert_eq!(withdraw(list, reserved), Ok(()));
    assert_eq!(withdraw(list, Reservation { tables: 4, net: 30 }), Err(CallRefused { number: 20, place: 0, position: 0 }));
    assert_eq!(withdraw(&list[..18], reserved), Err(CallRefused { number: 31, place: 0, position: 0 }));
}

#[test]
fn generated_calls() {
    let mut output = vec![0; LONGEST];
    for index in 0..2000 {
        let sequence = sequence(2, index);
        let mut walk = Walk::of(&call_check::linked, &sequence);
        for step in &sequence.steps {
            let outcome = walk.step(step, &mut output);
            assert!(outcome.is_ok(), "{} in {index}: {outcome:?}", step.kind);
        }
    }
}

#[test]
fn generated_inputs() {
    let mut output = vec![0; LONGEST];
    for index in 0..5000 {
        let input = case(1, index).input;
        assert_eq!(check_output(&input, map(&input, &mut output)), Ok(()), "case {index}");
    }
}

/// Request 111: on a part of its own, a sheet without an edge to join takes as many tables with one leaf more as without it, or one more.
#[test]
fn one_leaf_more() {
    let mut output = vec![0; LONGEST];
    let mut used = |k: usize, sheet: &Sheet| {
        let input = input(k as i64, 800, &sheet.text());
        outside::list::read(map(input.as_bytes(), &mut output)).expect("a list").tables.len()
    };
    let mut seen = [0; 2];
    for accepted in (0..3000).filter_map(|index| read(&case(12, index).input).ok()) {
        for sheet in accepted.sheets.iter().filter(|sheet| !has_join(sheet)) {
            for gate in 0..sheet.gates.len().min(3) {
                let place = Place { gate, left: 1, inverted: gate == 1 };
                let Some(grown) = grown(sheet, place) else { continue };
                seen[used(accepted.k, &grown) - used(accepted.k, sheet)] += 1;
            }
        }
    }
    assert!(seen.iter().all(|&times| times > 1000), "{seen:?}");
}

#[test]
fn the_longest_list() {
    let input = outside::samples::full_part();
    assert_eq!(check_output(input.as_bytes(), map(input.as_bytes(), &mut vec![0; LONGEST])), Ok(()));
}

/// Each number of 01 and of 02's requests so far has a sentence, the one that `explain` prints; no other number has one.
#[test]
fn the_refusals() {
    for number in (0..=1000).chain([65536 + 1, u32::MAX]) {
        let mut output = [b'.'; 200];
        let sentence = String::from_utf8(refusal(number, &mut output).to_vec()).expect("plain words");
        assert_eq!(sentence, reason(number).unwrap_or(""));
        assert_eq!(sentence.is_empty(), !matches!(number, 1..=15 | 20..=23 | 31..=36), "{number}");
        assert!(sentence.len() <= 128 && output[sentence.len()..].iter().all(|&byte| byte == b'.'));
    }
}

/// A buffer that is one byte too short is left as it is.
#[test]
fn a_short_buffer() {
    let length = refusal(20, &mut [0; 128]).len();
    let mut output = vec![b'.'; length];
    assert!(refusal(20, &mut output[1..]).is_empty());
    assert!(output.iter().all(|&byte| byte == b'.'));
    assert_eq!(refusal(20, &mut output).len(), length);
}
