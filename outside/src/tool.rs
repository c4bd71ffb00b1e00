//! What the tools share: reading standard input, options of a run of cases, failing cases, what occurred, and how they end.

use std::collections::BTreeMap;
use std::io::{Read, Write};
use std::process::{Command, ExitCode, Stdio};

pub fn read_stdin() -> Result<Vec<u8>, String> {
    let mut text = Vec::new();
    std::io::stdin().read_to_end(&mut text).map_err(|error| format!("standard input: {error}"))?;
    Ok(text)
}

pub fn read_file(name: &str) -> Result<Vec<u8>, String> {
    std::fs::read(name).map_err(|error| format!("{name}: {error}"))
}

pub fn write_file(name: &str, bytes: &[u8]) -> Result<(), String> {
    std::fs::write(name, bytes).map_err(|error| format!("{name}: {error}"))
}

/// Prints the text on standard output, or the error on standard error.
pub fn finish(tool: &str, result: Result<String, String>) -> ExitCode {
    let print = |text: String| std::io::stdout().write_all(text.as_bytes()).map_err(|error| format!("standard output: {error}"));
    match result.and_then(print) {
        Ok(()) => ExitCode::SUCCESS,
        Err(error) => {
            eprintln!("{tool}: {error}");
            ExitCode::FAILURE
        }
    }
}

/// Runs a program with `input` on its standard input; what it wrote. It must end well.
pub fn run_program(program: &str, input: &[u8]) -> std::io::Result<Vec<u8>> {
    let mut child = Command::new(program).stdin(Stdio::piped()).stdout(Stdio::piped()).spawn()?;
    let (mut stdin, mut stdout) = (child.stdin.take().unwrap(), child.stdout.take().unwrap());
    let mut output = Vec::new();
    std::thread::scope(|scope| {
        // A program may end before it has read all: that is no fault.
        scope.spawn(move || drop(stdin.write_all(input)));
        stdout.read_to_end(&mut output)
    })?;
    let status = child.wait()?;
    if status.success() {
        Ok(output)
    } else {
        Err(std::io::Error::other(format!("{status}")))
    }
}

/// A run of cases: which, and where failing ones are saved.
pub struct Options {
    pub count: u64,
    pub seed: u64,
    pub first: u64,
    pub save: String,
    /// What stands besides options.
    pub words: Vec<String>,
}

impl Options {
    /// The options that the program was called with: `[--count N] [--seed S] [--first I] [--save FOLDER]`, and other words.
    pub fn read(count: u64) -> Result<Options, String> {
        let mut options = Options { count, seed: 1, first: 0, save: ".".into(), words: Vec::new() };
        let mut arguments = std::env::args().skip(1);
        while let Some(name) = arguments.next() {
            let mut value = || arguments.next().ok_or(format!("{name} needs a value"));
            let number = |text: String| text.parse::<u64>().map_err(|_| format!("{text:?} is no number"));
            match &name[..] {
                "--count" => options.count = number(value()?)?,
                "--seed" => options.seed = number(value()?)?,
                "--first" => options.first = number(value()?)?,
                "--save" => options.save = value()?,
                _ => options.words.push(name),
            }
        }
        Ok(options)
    }
}

/// The cases of a run that failed: each is printed and saved.
pub struct Failures<'a> {
    options: &'a Options,
    pub count: usize,
}

impl Failures<'_> {
    pub fn none(options: &Options) -> Failures<'_> {
        Failures { options, count: 0 }
    }

    /// Takes the case of this index, made as `name`, if it failed. Whether the run goes on: it ends with ten of them.
    pub fn take(&mut self, index: &str, name: &str, text: &[u8], tested: Result<(), String>) -> Result<bool, String> {
        if let Err(fault) = tested {
            self.count += 1;
            let Options { seed, save, .. } = self.options;
            println!("seed {seed} case {index} ({name}): {fault}");
            write_file(&format!("{save}/case-{seed}-{index}"), text)?;
        }
        Ok(self.count < 10)
    }
}

/// How often each kind of case and each outcome occurred in a run: a refusal by its number, 0 for what is accepted.
pub struct Tally {
    kinds: BTreeMap<&'static str, usize>,
    outcomes: BTreeMap<u32, usize>,
}

impl Tally {
    /// None so far; each of these is to occur.
    pub fn of(kinds: impl IntoIterator<Item = &'static str>, outcomes: impl IntoIterator<Item = u32>) -> Tally {
        Tally {
            kinds: kinds.into_iter().map(|kind| (kind, 0)).collect(),
            outcomes: outcomes.into_iter().map(|number| (number, 0)).collect(),
        }
    }

    pub fn add(&mut self, kind: &'static str, outcome: u32) {
        *self.kinds.entry(kind).or_default() += 1;
        *self.outcomes.entry(outcome).or_default() += 1;
    }

    /// Prints all of them, and gives how many cases failed; a run in which something did not occur is no good one.
    pub fn finish(&self, failures: &Failures, cases: &str) -> Result<usize, String> {
        for (kind, count) in &self.kinds {
            println!("{count:>8} {kind}");
        }
        for (number, count) in &self.outcomes {
            let outcome = if *number == 0 { "accepted".into() } else { format!("refusal {number}") };
            println!("{count:>8} {outcome}");
        }
        let count: usize = self.kinds.values().sum();
        println!("seed {}: {count} {cases}, {} failed", failures.options.seed, failures.count);
        if failures.count == 0 && self.kinds.values().chain(self.outcomes.values()).any(|&count| count == 0) {
            return Err("a kind of cases or an outcome that did not occur".into());
        }
        Ok(failures.count)
    }
}

/// Ends a run of cases: well where none failed.
pub fn finish_run(tool: &str, failed: Result<usize, String>) -> ExitCode {
    match failed {
        Ok(0) => ExitCode::SUCCESS,
        Ok(_) => ExitCode::FAILURE,
        Err(error) => {
            eprintln!("{tool}: {error}");
            ExitCode::from(2)
        }
    }
}
