//! Times the independent mapper, and with the feature `linked` the proved one beside it, on the same inputs in one run.
//!
//!     bench [ROUNDS]
//!     bench once INPUT none | own | proved
//!     bench print INPUT own | proved
//!
//! Each figure is the least time of the rounds for one whole input that is mapped, one list that is read back, or one set of sheets that is
//! added to a list, in microseconds; the ratio is the proved code's time over the independent one's. The two are measured by turns, so that both meet the same load. `once`
//! takes one input (a row, from 1) one time, for a count of instructions, and with `none` does all but that. `print` prints what a mapper
//! prints for one input, so that two builds can be compared.

use std::hint::black_box;
use std::process::ExitCode;
use std::time::Instant;

use outside::samples::{chain, full_part, full_sheets, input, levelled, LEVELLED};
use outside::set::add_set;
use outside::sheet::Kind;
use outside::tool::finish;
use outside::{fast_program, list, program};

/// What is done with a text.
#[derive(Clone, Copy)]
enum Task {
    Map,
    MapFast,
    Read,
    AddSet,
}

/// A named text, and for a list the sheets that are added to it, with the bytes of each.
struct Sample {
    name: String,
    text: String,
    sheets: String,
    lengths: Vec<u32>,
    task: Task,
}

impl Sample {
    fn new(name: String, text: String, task: Task) -> Sample {
        Sample { name, text, sheets: String::new(), lengths: Vec::new(), task }
    }
}

fn one(name: &str, k: usize, gates: usize, fanins: usize) -> Sample {
    Sample::new(format!("{name}, K {k}"), input(k, 800, &[chain(9999, 1, gates, fanins)]), Task::Map)
}

/// A chain of ANDs, which are joined.
fn ands(k: usize, gates: usize) -> Sample {
    let mut sheet = chain(9999, 1, gates, 2);
    for gate in &mut sheet.gates {
        gate.kind = Kind::And;
    }
    Sample::new(format!("chain of {gates} ANDs, joined, K {k}"), input(k, 800, &[sheet]), Task::Map)
}

/// A chain whose nets have the levels from `lowest` to 50 and then from 0 again, after the sheets that drive them.
fn on_levels(name: &str, k: usize, lowest: u16, gates: usize, fanins: usize) -> Sample {
    let nets = gates * (fanins - 1) + 1;
    let mut sheets = levelled(lowest + nets as u16);
    sheets.push(chain(9999, LEVELLED + lowest, gates, fanins));
    Sample::new(format!("{name}, K {k}"), input(k, 800, &sheets), Task::Map)
}

/// The same input for the second mapping program, with a wanted level.
fn fast(sample: Sample) -> Sample {
    Sample::new(format!("{}, levels", sample.name), sample.text.replacen('\n', "   500\n", 1), Task::MapFast)
}

/// The list of a full part, cut to its first tables.
fn listed(tables: usize) -> Sample {
    let mut part = list::read(program::print(full_part().as_bytes()).as_bytes()).expect("the list of a full part");
    part.tables.truncate(tables);
    Sample::new(format!("list of {tables} tables, read"), part.list(), Task::Read)
}

/// The sheets of a full part after the first ones, as many as a set has, added to the list of those.
fn added(first: usize) -> Sample {
    let sheets = full_sheets();
    let text = program::print(input(6, 800, &sheets[..first]).as_bytes());
    let texts: Vec<String> = sheets[first..first + 16].iter().map(|sheet| sheet.text()).collect();
    let lengths = texts.iter().map(|text| text.len() as u32).collect();
    Sample { name: format!("16 sheets to {} tables, K 6", 8 * first), text, sheets: texts.concat(), lengths, task: Task::AddSet }
}

fn samples() -> Vec<Sample> {
    let mut samples = vec![one("chain of 255 gates", 2, 255, 2), one("chain of 255 gates", 6, 255, 2)];
    samples.push(one("28 gates of ten fanins", 6, 28, 10));
    samples.push(Sample::new("full part of 800 tables, K 6".into(), full_part(), Task::Map));
    samples.extend([32, 64, 128].map(|gates| one(&format!("chain of {gates} gates"), 6, gates, 2)));
    samples.extend([7, 14].map(|gates| one(&format!("{gates} gates of ten fanins"), 6, gates, 10)));
    samples.extend((2..=10).map(|fanins| one(&format!("one gate of {fanins} fanins"), 4, 1, fanins)));
    samples.extend([800, 400, 200, 1].map(listed));
    samples.push(ands(6, 255));
    samples.extend([0, 84].map(added));
    samples.extend([2, 6].map(|k| fast(one("chain of 255 gates", k, 255, 2))));
    samples.extend([2, 6].map(|k| fast(one("28 gates of ten fanins", k, 28, 10))));
    samples.extend([2, 6].map(|k| fast(ands(k, 255))));
    samples.push(fast(Sample::new("full part of 800 tables, K 6".into(), full_part(), Task::Map)));
    samples.extend([2, 5, 10].map(|fanins| fast(one(&format!("one gate of {fanins} fanins"), 4, 1, fanins))));
    samples.push(fast(on_levels("one gate of 10 fanins on levels 1 to 10", 4, 1, 1, 10)));
    samples.extend([2, 6].map(|k| fast(on_levels("28 gates of ten fanins on levels 0 to 50", k, 0, 28, 10))));
    samples
}

/// Microseconds of one call, over as many calls as take about a millisecond.
fn time(calls: u32, mut call: impl FnMut()) -> f64 {
    let start = Instant::now();
    for _ in 0..calls {
        call();
    }
    start.elapsed().as_secs_f64() * 1e6 / f64::from(calls)
}

fn own(sample: &Sample) {
    let text = black_box(sample.text.as_bytes());
    match sample.task {
        Task::Map => drop(black_box(program::print(text))),
        Task::MapFast => drop(black_box(fast_program::print(text))),
        Task::Read => drop(black_box(list::read(text))),
        Task::AddSet => {
            drop(black_box(add_set(&list::read(text).expect("a list"), sample.sheets.as_bytes(), &sample.lengths).map(|part| part.list())))
        }
    }
}

/// The proved code with the room that a task writes to.
#[cfg(feature = "linked")]
struct Proved {
    output: Vec<u8>,
    numbers: Vec<u64>,
}

#[cfg(feature = "linked")]
impl Proved {
    fn of(task: Task) -> Proved {
        let (bytes, numbers) = match task {
            Task::Map | Task::AddSet => (outside::linked::LONGEST, 0),
            Task::MapFast => (outside::linked::LONGEST_FAST, 0),
            Task::Read => (0, outside::linked::NUMBERS),
        };
        Proved { output: vec![0; bytes], numbers: vec![0; numbers] }
    }

    fn run(&mut self, sample: &Sample) {
        let text = black_box(sample.text.as_bytes());
        match sample.task {
            Task::Map => drop(black_box(outside::linked::map(text, &mut self.output))),
            Task::MapFast => drop(black_box(outside::linked::map_fast(text, &mut self.output))),
            Task::Read => drop(black_box(outside::linked::read_list(text, &mut self.numbers))),
            Task::AddSet => drop(black_box(outside::linked::add_set(text, sample.sheets.as_bytes(), &sample.lengths, &mut self.output))),
        }
    }
}

fn calls(sample: &Sample) -> u32 {
    let once = time(1, || own(sample)).max(1.0);
    (1000.0 / once).ceil() as u32
}

#[cfg(feature = "linked")]
fn measure(rounds: usize, sample: &Sample) {
    let mut proved = Proved::of(sample.task);
    let calls = calls(sample);
    let (mut ours, mut theirs) = (f64::MAX, f64::MAX);
    for _ in 0..rounds {
        ours = ours.min(time(calls, || own(sample)));
        theirs = theirs.min(time(calls, || proved.run(sample)));
    }
    println!("{:<56}{ours:>14.1}{theirs:>14.1}{:>10.2}", sample.name, theirs / ours);
}

#[cfg(not(feature = "linked"))]
fn measure(rounds: usize, sample: &Sample) {
    let calls = calls(sample);
    let ours = (0..rounds).map(|_| time(calls, || own(sample))).fold(f64::MAX, f64::min);
    println!("{:<56}{ours:>14.1}", sample.name);
}

/// The input of this row.
fn sample(row: &str) -> Result<Sample, String> {
    let row = row.parse::<usize>().ok().and_then(|row| row.checked_sub(1));
    row.and_then(|row| samples().into_iter().nth(row)).ok_or("no such input".into())
}

/// Takes one input one time.
fn once(sample: &Sample, by: &str) -> Result<String, String> {
    match by {
        "none" => (),
        "own" => own(sample),
        #[cfg(feature = "linked")]
        "proved" => Proved::of(sample.task).run(sample),
        _ => return Err(format!("{by:?} is neither none nor own nor proved")),
    }
    Ok(String::new())
}

/// What a mapper prints for one input.
fn print(sample: &Sample, by: &str) -> Result<String, String> {
    match by {
        "own" => Ok(match sample.task {
            Task::MapFast => fast_program::print(sample.text.as_bytes()),
            _ => program::print(sample.text.as_bytes()),
        }),
        #[cfg(feature = "linked")]
        "proved" => {
            let mut output = vec![0; outside::linked::LONGEST_FAST];
            let map = if let Task::MapFast = sample.task { outside::linked::map_fast } else { outside::linked::map };
            Ok(String::from_utf8_lossy(map(sample.text.as_bytes(), &mut output)).into())
        }
        _ => Err(format!("{by:?} is neither own nor proved")),
    }
}

fn run() -> Result<String, String> {
    let arguments: Vec<String> = std::env::args().skip(1).collect();
    match &arguments.iter().map(String::as_str).collect::<Vec<&str>>()[..] {
        ["once", row, by] => return once(&sample(row)?, by),
        ["print", row, by] => return print(&sample(row)?, by),
        _ => (),
    }
    let rounds = arguments.first().map_or(Ok(50), |rounds| rounds.parse().map_err(|_| format!("{rounds:?} is no number")))?;
    println!("{:<56}{:>14}{:>14}{:>10}", "input", "independent", "proved", "ratio");
    for sample in samples() {
        measure(rounds, &sample);
    }
    Ok(String::new())
}

fn main() -> ExitCode {
    finish("bench", run())
}
