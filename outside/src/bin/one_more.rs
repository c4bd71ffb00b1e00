//! Looks for the largest change of the least number when one leaf is added to a gate (02, request 111), over all trees of up to LEAVES leaves
//! and over trees of two or three chained gates, and prints the changes with how often they occur; a sheet for each that is not 0 or 1.
//!
//!     one_more [LEAVES]

use std::process::ExitCode;

use outside::one_more::{chained_trees, changes, small_trees, Changes, Tree};
use outside::tool::finish;
use outside::INPUTS;

const KINDS: [&str; 2] = ["no edge to join", "an edge to join"];

fn shown(title: &str, trees: &[Tree]) -> String {
    let mut text = format!("{title}: {} trees\n", trees.len());
    for (k, both) in changes(trees) {
        for (kind, changes) in KINDS.iter().zip(&both).filter(|(_, changes)| !changes.seen.is_empty()) {
            text += &format!("  K {k}, {kind}: {}\n", counts(changes));
            text += &examples(changes);
        }
    }
    text
}

fn counts(changes: &Changes) -> String {
    let counts: Vec<String> = changes.seen.iter().map(|(change, (count, _))| format!("{change:+} {count} times")).collect();
    counts.join(", ")
}

fn examples(changes: &Changes) -> String {
    let odd = changes.seen.iter().filter(|(change, _)| !(0..=1).contains(*change));
    odd.map(|(_, (_, example))| {
        let ([before, after], leaves) = (example.least, example.sheet.leaves().len());
        format!("  {before} to {after} with a leaf more at gate {} of these {leaves} leaves:\n{}", example.gate + 1, example.sheet.text())
    })
    .collect()
}

fn run() -> Result<String, String> {
    let arguments: Vec<String> = std::env::args().skip(1).collect();
    let most = match &arguments[..] {
        [] => 8,
        [leaves] => leaves.parse().map_err(|_| format!("{leaves:?} is no number"))?,
        _ => return Err("usage: one_more [LEAVES]".into()),
    };
    let mut text = shown(&format!("all trees of up to {most} leaves"), &small_trees(most));
    for width in 2..=INPUTS {
        text += &shown(
            &format!("two or three chained gates, 9 to 14 fanins in all, leaves and gates of {width} leaves"),
            &chained_trees(width, 9..=14),
        );
    }
    Ok(text)
}

fn main() -> ExitCode {
    finish("one_more", run())
}
