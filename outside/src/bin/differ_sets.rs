//! Tests of adding sets of sheets to lists, on generated cases.
//!
//!     differ_sets [--count N] [--seed S] [--first I] [--save FOLDER] own | linked
//!
//! `own` tests the independent implementation by what is known of each case from its making; `linked` the archive linked in (feature
//! `linked`), against the independent implementation too. A case is known by its seed and index. A list of an accepted set is checked, not
//! compared. A run in which a kind of cases, a refusal or an accepted set does not occur fails; 14 is tried with each accepted set.

use std::process::ExitCode;

use outside::set_cases::{case, KINDS};
use outside::set_check::{add_to_list, answer, check_add, Add, LONGEST};
use outside::tool::{finish_run, Failures, Options, Tally};

fn adder(words: &[String]) -> Result<Box<Add>, String> {
    match &words.iter().map(String::as_str).collect::<Vec<&str>>()[..] {
        ["own"] | [] => Ok(Box::new(add_to_list)),
        #[cfg(feature = "linked")]
        ["linked"] => Ok(Box::new(outside::set_check::linked)),
        #[cfg(not(feature = "linked"))]
        ["linked"] => Err("built without the feature `linked`".into()),
        words => Err(format!("{words:?} is no option or implementation")),
    }
}

/// The refusals that occur, with 0 for an accepted set.
const OUTCOMES: [std::ops::RangeInclusive<u32>; 3] = [0..=13, 21..=23, 31..=33];

fn run_cases() -> Result<usize, String> {
    let options = Options::read(20_000)?;
    let add = adder(&options.words)?;
    let mut tally = Tally::of(KINDS.map(|(kind, _)| kind), OUTCOMES.into_iter().flatten());
    let mut failures = Failures::none(&options);
    let mut output = vec![0; LONGEST];
    for index in options.first..options.first + options.count {
        let case = case(options.seed, index);
        let answer = answer(&case);
        tally.add(case.kind, answer.as_ref().map_or_else(|refusal| refusal.number, |_| 0));
        let tested = check_add(&*add, &case, &answer, &mut output);
        if !failures.take(&index.to_string(), case.kind, &case.shown(), tested)? {
            break;
        }
    }
    tally.finish(&failures, "sets")
}

fn main() -> ExitCode {
    finish_run("differ_sets", run_cases())
}
