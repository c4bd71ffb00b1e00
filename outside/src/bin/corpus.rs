//! Writes generated inputs that are accepted to a folder: those of one sheet as sheet-I.txt, all others as input-I.txt, where I is
//! the case's index. With `--tables`, counts how many tables the sheets of inputs need as drawn, and how many with their gates joined.
//!
//!     corpus FOLDER COUNT [SEED]
//!     corpus --tables INPUT..

use std::process::ExitCode;

use outside::generate::case;
use outside::least::least;
use outside::program::read;
use outside::tool::{finish, read_file, write_file};

fn number(text: &str) -> Result<u64, String> {
    text.parse().map_err(|_| format!("{text:?} is no number"))
}

fn written(folder: &str, count: u64, seed: u64) -> Result<String, String> {
    let accepted = (0..).filter_map(|index| {
        let input = case(seed, index).input;
        let sheets = read(&input).ok()?.sheets.len();
        (sheets > 0).then_some((index, input, sheets))
    });
    for (index, input, sheets) in accepted.take(count as usize) {
        let kind = if sheets == 1 { "sheet" } else { "input" };
        write_file(&format!("{folder}/{kind}-{index}.txt"), &input)?;
    }
    Ok(String::new())
}

fn tables(inputs: &[String]) -> Result<String, String> {
    let (mut sheets, mut drawn, mut joined, mut fewer) = (0, 0, 0, 0);
    for input in inputs {
        let accepted = read(&read_file(input)?).map_err(|refusal| format!("{input}: refusal {}", refusal.number))?;
        let as_drawn: Vec<usize> = accepted.sheets.iter().map(|sheet| least(sheet, accepted.k)).collect();
        sheets += as_drawn.len();
        drawn += as_drawn.iter().sum::<usize>();
        joined += accepted.least.iter().sum::<usize>();
        fewer += as_drawn.iter().zip(&accepted.least).filter(|(drawn, joined)| joined < drawn).count();
    }
    let inputs = inputs.len();
    Ok(format!("{inputs} inputs, {sheets} sheets: {drawn} tables as drawn, {joined} joined, which is fewer on {fewer} sheets\n"))
}

fn run() -> Result<String, String> {
    let arguments: Vec<String> = std::env::args().skip(1).collect();
    match &arguments[..] {
        [option, inputs @ ..] if option == "--tables" => tables(inputs),
        [folder, count] => written(folder, number(count)?, 1),
        [folder, count, seed] => written(folder, number(count)?, number(seed)?),
        _ => Err("usage: corpus FOLDER COUNT [SEED] | corpus --tables INPUT..".into()),
    }
}

fn main() -> ExitCode {
    finish("corpus", run())
}
