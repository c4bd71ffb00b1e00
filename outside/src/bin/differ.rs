//! Differential tests: generated inputs are given to a mapper, and what it prints is checked against 01.
//!
//!     differ [--count N] [--seed S] [--first I] [--save FOLDER] [--write FILE] own | linked | command PROGRAM
//!
//! `own` is the independent mapper, `linked` the archive linked in (feature `linked`), `command` a program that reads standard
//! input and writes standard output. A case is known by its seed and index. The first ten failing inputs are saved.
//! With `--write`, what the mapper prints in all cases goes into a file, so that two builds can be compared. A run of 1,000 cases
//! or more in which no input is accepted that has a join of some kind, or a chained edge without room for one, fails.

use std::collections::BTreeMap;
use std::fs::File;
use std::io::{BufWriter, Write};
use std::process::ExitCode;

use outside::adding::Accepted;
use outside::check::check_answer;
use outside::generate::case;
use outside::join::{Chained, Joined};
use outside::program;
use outside::tool::{finish_run, run_program, Failures, Options};
use outside::FANINS;

enum Mapper {
    Own,
    #[cfg(feature = "linked")]
    Linked(Vec<u8>),
    Command(String),
}

impl Mapper {
    fn of(words: &[String]) -> Result<Mapper, String> {
        match &words.iter().map(String::as_str).collect::<Vec<&str>>()[..] {
            ["own"] | [] => Ok(Mapper::Own),
            #[cfg(feature = "linked")]
            ["linked"] => Ok(Mapper::Linked(vec![0; outside::linked::LONGEST])),
            #[cfg(not(feature = "linked"))]
            ["linked"] => Err("built without the feature `linked`".into()),
            ["command", program] => Ok(Mapper::Command((*program).into())),
            words => Err(format!("{words:?} is no option or mapper")),
        }
    }

    fn map(&mut self, input: &[u8]) -> Result<Vec<u8>, String> {
        match self {
            Mapper::Own => Ok(program::print(input).into_bytes()),
            #[cfg(feature = "linked")]
            Mapper::Linked(output) => Ok(outside::linked::map(input, output).to_vec()),
            Mapper::Command(program) => run_program(program, input).map_err(|error| format!("{program}: {error}")),
        }
    }
}

/// How many cases a run has in which each kind of join must occur.
const LONG: u64 = 1000;

/// Whether a sheet with these chained edges shows what is counted.
type Shows = fn(&[Chained]) -> bool;

/// What is counted of the accepted inputs' joins.
const JOINS: [(&str, Shows); 6] = [
    ("a join", |edges| edges.iter().any(Chained::is_joined)),
    ("an inverted edge joined", |edges| edges.iter().any(|edge| edge.is_joined() && edge.inverted)),
    ("a join under a join", |edges| edges.iter().any(|edge| edge.is_joined() && reads_joined(edge, edges))),
    ("a gate joined to ten fanins", |edges| edges.iter().any(|edge| edge.fanins == FANINS)),
    ("a chained edge without room", |edges| edges.iter().any(|edge| !edge.is_joined())),
    ("a chained edge that would make eleven fanins", |edges| edges.iter().any(|edge| edge.fanins == FANINS + 1)),
];

/// Whether the gate below this edge has a join of its own.
fn reads_joined(edge: &Chained, edges: &[Chained]) -> bool {
    edges.iter().any(|below| below.is_joined() && below.upper == edge.lower)
}

fn count_joins(accepted: &Accepted, counts: &mut [usize; JOINS.len()]) {
    for ((_, shows), count) in JOINS.iter().zip(counts) {
        *count += usize::from(accepted.joined.iter().any(|Joined { chained, .. }| shows(chained)));
    }
}

fn created(name: &str) -> Result<File, String> {
    File::create(name).map_err(|error| format!("{name}: {error}"))
}

fn run_cases() -> Result<usize, String> {
    let options = Options::read(2000)?;
    let (mut file, words) = match &options.words[..] {
        [name, file, words @ ..] if name == "--write" => (Some(BufWriter::new(created(file)?)), words),
        words => (None, words),
    };
    let mut mapper = Mapper::of(words)?;
    let mut outcomes: BTreeMap<u32, usize> = BTreeMap::new();
    let mut joins = [0; JOINS.len()];
    let mut failures = Failures::none(&options);
    for index in options.first..options.first + options.count {
        let case = case(options.seed, index);
        let answer = program::read(&case.input);
        *outcomes.entry(answer.as_ref().map_or_else(|refusal| refusal.number, |_| 0)).or_default() += 1;
        if let Ok(accepted) = &answer {
            count_joins(accepted, &mut joins);
        }
        let printed = mapper.map(&case.input);
        if let (Some(file), Ok(printed)) = (&mut file, &printed) {
            file.write_all(printed).map_err(|error| format!("--write: {error}"))?;
        }
        let checked = printed.and_then(|printed| check_answer(&answer, &printed));
        if !failures.take(&index.to_string(), case.name, &case.input, checked)? {
            break;
        }
    }
    if let Some(file) = &mut file {
        file.flush().map_err(|error| format!("--write: {error}"))?;
    }
    for (number, count) in &outcomes {
        let outcome = if *number == 0 { "accepted".into() } else { format!("refusal {number}") };
        println!("{count:>8} {outcome}");
    }
    for ((name, _), count) in JOINS.iter().zip(&joins) {
        println!("{count:>8} accepted with {name}");
    }
    println!("seed {}: {} cases, {} failed", options.seed, outcomes.values().sum::<usize>(), failures.count);
    if failures.count == 0 && options.count >= LONG && joins.contains(&0) {
        return Err("a kind of join that did not occur".into());
    }
    Ok(failures.count)
}

fn main() -> ExitCode {
    finish_run("differ", run_cases())
}
