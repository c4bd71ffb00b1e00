//! The generator's cases against our own mapper: every family and every refusal occurs, and the checker takes what is printed.

use std::collections::BTreeMap;

use outside::check::check_output;
use outside::generate::case;
use outside::least::{least, least_by_width};
use outside::program::{print, read};

const SEED: u64 = 1;

#[test]
fn every_refusal_occurs() {
    let mut counts: BTreeMap<u32, usize> = BTreeMap::new();
    for index in 0..6000 {
        let number = read(&case(SEED, index).input).map_or_else(|refusal| refusal.number, |_| 0);
        *counts.entry(number).or_default() += 1;
    }
    println!("{counts:?}");
    for number in (0..=13).chain(21..=23) {
        assert!(counts.get(&number).is_some_and(|&count| count >= 3), "refusal {number} in {counts:?}");
    }
}

#[test]
fn the_checker_takes_our_lists() {
    for index in 0..2000 {
        let input = case(SEED, index).input;
        assert_eq!(check_output(&input, print(&input).as_bytes()), Ok(()), "case {index}");
    }
}

#[test]
fn the_two_searches_agree() {
    for index in 0..1500 {
        let Ok(accepted) = read(&case(SEED, index).input) else { continue };
        let sheets = accepted.sheets.iter().chain(accepted.joined.iter().map(|joined| &joined.sheet));
        for sheet in sheets.filter(|sheet| sheet.gates.iter().all(|gate| gate.fanins.len() < 9)) {
            assert_eq!(least(sheet, accepted.k), least_by_width(sheet, accepted.k), "case {index}");
        }
    }
}

/// A drawn gate is a splitting of the one that it is joined to, so joining never costs a table.
#[test]
fn joining_saves_tables() {
    let mut fewer = 0;
    for index in 0..3000 {
        let Ok(accepted) = read(&case(SEED, index).input) else { continue };
        for (sheet, &joined) in accepted.sheets.iter().zip(&accepted.least) {
            let drawn = least(sheet, accepted.k);
            assert!(joined <= drawn, "case {index}");
            fewer += usize::from(joined < drawn);
        }
    }
    assert!(fewer > 50, "{fewer}");
}
