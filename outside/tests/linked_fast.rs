//! The second mapping program (request 107) of the archive, linked in, against the checker.
#![cfg(feature = "linked")]

mod common;

use common::{line, LIST};
use outside::fast_cases::case;
use outside::fast_check::check_output;
use outside::linked::{map_fast, LONGEST_FAST};

#[test]
fn the_example() {
    let sheets = common::text(&[&[20, 3], &[2, 2, 1, 2], &[2, 2, 3, 4], &[1, 2, 10001, 10002], &[-21, 1], &[1, 2, 20, -5]]);
    let printed = LIST.to_string() + &line(&[20, 0]) + &line(&[21, -1]);
    assert_eq!(map_fast((line(&[4, 8, 1]) + &sheets).as_bytes(), &mut vec![0; LONGEST_FAST]), printed.as_bytes());
    assert_eq!(map_fast((line(&[4, 8, 1025]) + &sheets).as_bytes(), &mut vec![0; LONGEST_FAST]), line(&[-34, 0, 0]).as_bytes());
}

#[test]
fn generated_inputs() {
    let mut output = vec![0; LONGEST_FAST];
    for index in 0..2000 {
        let case = case(2, index);
        assert_eq!(check_output(&case.input, map_fast(&case.input, &mut output)), Ok(()), "{} {index}", case.kind);
    }
}

/// A full part of 800 sheets has the longest output.
#[test]
fn the_longest_output() {
    let sheet = |index: i64| {
        line(&[9999 - index, 1])
            + &common::gate(1, &[1 + 6 * index, 2 + 6 * index, 3 + 6 * index, 4 + 6 * index, 5 + 6 * index, 6 + 6 * index])
    };
    let input = line(&[6, 800, 0]) + &(0..800).map(sheet).collect::<String>();
    let mut output = vec![0; LONGEST_FAST];
    let printed = map_fast(input.as_bytes(), &mut output);
    assert_eq!(printed.len(), LONGEST_FAST);
    assert_eq!(check_output(input.as_bytes(), printed), Ok(()));
}
