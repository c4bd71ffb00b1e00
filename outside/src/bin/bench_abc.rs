//! Times a mapping program against berkeley-abc's area mapper, each as a process from its input file to its output file.
//!
//!     bench_abc PROGRAM ABC FOLDER [ROUNDS]
//!
//! Each figure is the least time of the rounds in milliseconds, the two by turns; the files are left in FOLDER. Most of a short run of
//! abc is its start, so the last column has what one more run of the same commands in one process takes.

use std::fs::File;
use std::process::{Command, ExitCode, Stdio};
use std::time::Instant;

use outside::blif::networks;
use outside::program;
use outside::samples::{chain, full_part, input};
use outside::tool::{finish, write_file};

struct Programs {
    program: String,
    abc: String,
    folder: String,
    rounds: usize,
}

impl Programs {
    fn file(&self, name: &str) -> String {
        format!("{}/{name}", self.folder)
    }

    /// Milliseconds of a run, which must end well.
    fn time(&self, command: &mut Command) -> Result<f64, String> {
        let start = Instant::now();
        let status = command.status().map_err(|error| format!("{command:?}: {error}"))?;
        let taken = start.elapsed().as_secs_f64() * 1e3;
        if status.success() {
            Ok(taken)
        } else {
            Err(format!("{command:?}: {status}"))
        }
    }

    fn open(&self, name: &str) -> Result<File, String> {
        File::open(self.file(name)).map_err(|error| format!("{name}: {error}"))
    }

    fn create(&self, name: &str) -> Result<File, String> {
        File::create(self.file(name)).map_err(|error| format!("{name}: {error}"))
    }

    fn map(&self) -> Result<f64, String> {
        let mut command = Command::new(&self.program);
        self.time(command.stdin(self.open("input.txt")?).stdout(self.create("list.txt")?))
    }

    /// One process of abc that maps so many times.
    fn abc(&self, k: usize, times: usize) -> Result<f64, String> {
        let (drawn, mapped) = (self.file("drawn.blif"), self.file("abc.blif"));
        let script = format!("read_blif {drawn}; strash; if -K {k} -a; write_blif {mapped}; ").repeat(times);
        self.time(Command::new(&self.abc).args(["-c", &script]).stdout(Stdio::null()))
    }

    fn compare(&self, name: &str, k: usize, text: &str) -> Result<String, String> {
        let (drawn, _) = networks(text.as_bytes(), program::print(text.as_bytes()).as_bytes())?;
        write_file(&self.file("input.txt"), text.as_bytes())?;
        write_file(&self.file("drawn.blif"), drawn.as_bytes())?;
        const MORE: usize = 20;
        let (mut ours, mut once, mut again) = (f64::MAX, f64::MAX, f64::MAX);
        for _ in 0..self.rounds {
            ours = ours.min(self.map()?);
            once = once.min(self.abc(k, 1)?);
            again = again.min(self.abc(k, 1 + MORE)?);
        }
        let more = (again - once) / MORE as f64;
        Ok(format!("{name:<34}{ours:>12.2}{once:>12.2}{:>10.1}{more:>14.2}\n", once / ours))
    }
}

fn compared() -> Result<String, String> {
    let arguments: Vec<String> = std::env::args().skip(1).collect();
    let [program, abc, folder, ..] = &arguments[..] else { return Err("usage: bench_abc PROGRAM ABC FOLDER [ROUNDS]".into()) };
    let rounds = arguments.get(3).and_then(|rounds| rounds.parse().ok()).unwrap_or(20);
    let programs = Programs { program: program.clone(), abc: abc.clone(), folder: folder.clone(), rounds };
    let head = format!("{:<34}{:>12}{:>12}{:>10}{:>14}\n", "input", "mapper", "abc", "times", "abc once more");
    let chain_255 = programs.compare("chain of 255 gates, K 6", 6, &input(6, 800, &[chain(9999, 1, 255, 2)]))?;
    let wide = programs.compare("28 gates of ten fanins, K 6", 6, &input(6, 800, &[chain(9999, 1, 28, 10)]))?;
    let full = programs.compare("full part of 800 tables, K 6", 6, &full_part())?;
    Ok(head + &chain_255 + &wide + &full)
}

fn main() -> ExitCode {
    finish("bench_abc", compared())
}
