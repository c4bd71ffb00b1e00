//! Tests of list readers on generated texts.
//!
//!     differ_lists [--count N] [--seed S] [--first I] [--save FOLDER] own | linked
//!
//! `own` tests the independent reader by what is known of each text from its making; `linked` compares the archive linked in (feature
//! `linked`) with the independent reader. N texts are tried, those of list I first; a case is known by its seed, its list and its place
//! among that list's texts. A run in which an outcome does not occur, a kind of fault or a list that is accepted, fails.

use std::collections::BTreeMap;
use std::process::ExitCode;

use outside::list::{self, Kind};
use outside::list_cases::{cases, Case};
use outside::list_check::check_own;
use outside::tool::{finish_run, Failures, Options};

/// What tests a case.
type Test = Box<dyn FnMut(&Case) -> Result<(), String>>;

fn test(words: &[String]) -> Result<Test, String> {
    match &words.iter().map(String::as_str).collect::<Vec<&str>>()[..] {
        ["own"] | [] => Ok(Box::new(check_own)),
        #[cfg(feature = "linked")]
        ["linked"] => Ok(linked()),
        #[cfg(not(feature = "linked"))]
        ["linked"] => Err("built without the feature `linked`".into()),
        words => Err(format!("{words:?} is no option or reader")),
    }
}

#[cfg(feature = "linked")]
fn linked() -> Test {
    use outside::linked::{check_list, read_list, Refused, NUMBERS};
    use outside::list_check::{check_reader, Reader};
    fn pair(refused: Refused) -> (u32, usize) {
        (refused.number, refused.line as usize)
    }
    let mut room = vec![0; NUMBERS];
    Box::new(move |case| {
        let reader = Reader {
            check: &|text| check_list(text).map_err(pair),
            read: &|text, numbers| read_list(text, numbers).map(<[u64]>::len).map_err(pair),
        };
        check_reader(&reader, &case.text, &mut room)
    })
}

fn run_cases() -> Result<usize, String> {
    let options = Options::read(100_000)?;
    let mut test = test(&options.words)?;
    let mut outcomes: BTreeMap<Option<Kind>, usize> = Kind::all().map(Some).chain([None]).map(|outcome| (outcome, 0)).collect();
    let mut failures = Failures::none(&options);
    let lists = (options.first..).flat_map(|list| (0..).zip(cases(options.seed, list)).map(move |(text, case)| (list, text, case)));
    for (list, text, case) in lists.take(options.count as usize) {
        *outcomes.entry(list::read(&case.text).err().map(|fault| fault.kind)).or_default() += 1;
        if !failures.take(&format!("{list}-{text}"), case.name, &case.text, test(&case))? {
            break;
        }
    }
    for (kind, count) in &outcomes {
        let outcome = kind.map_or("accepted".into(), |kind| format!("refusal {}: {}", kind.number(), kind.words()));
        println!("{count:>8} {outcome}");
    }
    println!("seed {}: {} texts, {} failed", options.seed, outcomes.values().sum::<usize>(), failures.count);
    if failures.count == 0 && outcomes.values().any(|&count| count == 0) {
        return Err("an outcome that did not occur".into());
    }
    Ok(failures.count)
}

fn main() -> ExitCode {
    finish_run("differ_lists", run_cases())
}
