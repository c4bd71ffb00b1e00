//! Tests of sequences of calls on lists, with reservations, on generated ones.
//!
//!     differ_calls [--count N] [--seed S] [--first I] [--save FOLDER] own | linked
//!
//! `own` tests the independent implementation by what is known of each call from its making; `linked` the archive linked in (feature
//! `linked`), against the independent implementation too. A sequence is known by its seed and index. A list of accepted sheets is checked,
//! not compared. Between the calls the reserved sheet is tried at a commit, which must not give 23. A run in which a kind of calls, a
//! refusal or an accepted call does not occur fails; 14 is tried with each accepted call that writes a list.

use std::process::ExitCode;

use outside::call_cases::{kinds, sequence, Sequence};
use outside::call_check::{own, Perform, Walk};
use outside::set_check::LONGEST;
use outside::tool::{finish_run, Failures, Options, Tally};

fn performer(words: &[String]) -> Result<Box<Perform>, String> {
    match &words.iter().map(String::as_str).collect::<Vec<&str>>()[..] {
        ["own"] | [] => Ok(Box::new(own)),
        #[cfg(feature = "linked")]
        ["linked"] => Ok(Box::new(outside::call_check::linked)),
        #[cfg(not(feature = "linked"))]
        ["linked"] => Err("built without the feature `linked`".into()),
        words => Err(format!("{words:?} is no option or implementation")),
    }
}

/// The refusals that occur, with 0 for an accepted call.
const OUTCOMES: [std::ops::RangeInclusive<u32>; 4] = [0..=13, 20..=23, 31..=33, 35..=36];

/// Goes through a sequence up to the first call that fails, and gives its number, from 1, and how it fails.
fn run_calls(perform: &Perform, sequence: &Sequence, tally: &mut Tally, output: &mut [u8]) -> Result<(), String> {
    let mut walk = Walk::of(perform, sequence);
    for (number, step) in (1..).zip(&sequence.steps) {
        let outcome = walk.step(step, output).map_err(|fault| format!("call {number}, {}: {fault}", step.kind))?;
        tally.add(step.kind, outcome);
    }
    Ok(())
}

fn run_sequences() -> Result<usize, String> {
    let options = Options::read(20_000)?;
    let perform = performer(&options.words)?;
    let mut tally = Tally::of(kinds(), OUTCOMES.into_iter().flatten());
    let mut failures = Failures::none(&options);
    let mut output = vec![0; LONGEST];
    for index in options.first..options.first + options.count {
        let sequence = sequence(options.seed, index);
        let tested = run_calls(&*perform, &sequence, &mut tally, &mut output);
        if !failures.take(&index.to_string(), "sequence", &sequence.shown(), tested)? {
            break;
        }
    }
    tally.finish(&failures, "calls")
}

fn main() -> ExitCode {
    finish_run("differ_calls", run_sequences())
}
