//! Tests of the second mapping program (request 107) on generated inputs.
//!
//!     differ_fast [--count N] [--seed S] [--first I] [--save FOLDER] own | linked | command PROGRAM
//!
//! `own` is the independent mapper, `linked` the archive linked in (feature `linked`), `command` a program that reads standard input and
//! writes standard output. What is printed is checked, and a refusal compared with what is known from the input's making, too. The first ten
//! failing inputs are saved. A run in which a kind of inputs, a refusal, or one of the things that accepted inputs show does not occur fails.

use std::process::ExitCode;

use outside::fast_cases::{case, kinds, Case, SHOWN};
use outside::fast_check::check_answer;
use outside::fast_program::{map, print, Mapped};
use outside::refusal::Refusal;
use outside::tool::{finish_run, run_program, Failures, Options, Tally};

/// What prints for an input.
type Mapper = dyn FnMut(&[u8]) -> Result<Vec<u8>, String>;

fn mapper(words: &[String]) -> Result<Box<Mapper>, String> {
    match &words.iter().map(String::as_str).collect::<Vec<&str>>()[..] {
        ["own"] | [] => Ok(Box::new(|input| Ok(print(input).into_bytes()))),
        #[cfg(feature = "linked")]
        ["linked"] => {
            let mut output = vec![0; outside::linked::LONGEST_FAST];
            Ok(Box::new(move |input| Ok(outside::linked::map_fast(input, &mut output).to_vec())))
        }
        #[cfg(not(feature = "linked"))]
        ["linked"] => Err("built without the feature `linked`".into()),
        &["command", program] => {
            let program = program.to_string();
            Ok(Box::new(move |input| run_program(&program, input).map_err(|error| format!("{program}: {error}"))))
        }
        words => Err(format!("{words:?} is no option or mapper")),
    }
}

/// The refusals that occur, with 0 for an accepted input.
const OUTCOMES: [std::ops::RangeInclusive<u32>; 3] = [0..=13, 21..=23, 34..=34];

/// Tests that the answer is the one that the making tells.
fn check_made(case: &Case, answer: &Result<Mapped, Refusal>) -> Result<(), String> {
    let answer = answer.as_ref().map(drop).map_err(|&refusal| refusal);
    match case.wanted {
        Some(wanted) if wanted != answer => Err(format!("{answer:?} where {wanted:?} is right by the making")),
        _ => Ok(()),
    }
}

fn run_cases() -> Result<usize, String> {
    let options = Options::read(20_000)?;
    let mut mapper = mapper(&options.words)?;
    let mut tally = Tally::of(kinds(), OUTCOMES.into_iter().flatten());
    let mut shown = [0; SHOWN.len()];
    let mut failures = Failures::none(&options);
    for index in options.first..options.first + options.count {
        let case = case(options.seed, index);
        let answer = map(&case.input);
        tally.add(case.kind, answer.as_ref().map_or_else(|refusal| refusal.number, |_| 0));
        if let Ok(mapped) = &answer {
            SHOWN.iter().zip(&mut shown).for_each(|((_, shows), count)| *count += usize::from(shows(mapped)));
        }
        let checked = check_made(&case, &answer).and_then(|()| check_answer(&answer, &mapper(&case.input)?));
        if !failures.take(&index.to_string(), case.kind, &case.input, checked)? {
            break;
        }
    }
    for ((name, _), count) in SHOWN.iter().zip(&shown) {
        println!("{count:>8} accepted with {name}");
    }
    let failed = tally.finish(&failures, "inputs")?;
    if failed == 0 && shown.contains(&0) {
        return Err("something that accepted inputs show did not occur".into());
    }
    Ok(failed)
}

fn main() -> ExitCode {
    finish_run("differ_fast", run_cases())
}
