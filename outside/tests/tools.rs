//! The tools: explanations, drawings and BLIF.

mod common;

use std::collections::HashMap;

use common::{input, one_gate, text};
use outside::blif::networks;
use outside::dot::draw;
use outside::explain::explain;
use outside::generate::case;
use outside::program::{print, read};
use outside::rng::Rng;

fn explained(input: &str) -> String {
    explain(input.as_bytes(), print(input.as_bytes()).as_bytes()).expect("an explanation")
}

#[test]
fn a_refusal_in_words() {
    let second = input(2, 8, &(one_gate(99, 1, &[1, 2]) + &text(&[&[98, 2], &[1, 2, 3, 4], &[3, 2, 5, 6]])));
    let wanted =
        "Sheet 2, line 3 (line 6 of the input): the kind must be 1 (AND) or 2 (OR) (refusal 6).\n     6 |      3     2     5     6\n";
    assert_eq!(explained(&second), wanted);
    let driven = input(2, 8, &(one_gate(99, 1, &[1, 2]) + &one_gate(-99, 1, &[3, 4])));
    let wanted = "Sheet 2, which begins at line 4 of the input: the output net is already driven (refusal 21).\n     4 |    -99     1\n";
    assert_eq!(explained(&driven), wanted);
    assert_eq!(explained("     7     8\n"), "The opening line: K must be from 2 to 6 (refusal 2).\n     1 |      7     8\n");
    assert!(explained("     4     8\n    99     1\n").ends_with("(refusal 1).\n     3 | (the input ends before this line)\n"));
    assert_eq!(explained("     4     8\n"), "Accepted: 0 of 8 tables are used.\n");
    assert!(explain(driven.as_bytes(), b"   -22     2     0\n").is_err());
}

#[test]
fn every_generated_refusal_has_words() {
    for index in 0..1500 {
        let input = case(3, index).input;
        let sentence = explain(&input, print(&input).as_bytes()).expect("an explanation");
        if let Err(refusal) = read(&input) {
            assert!(sentence.contains(&format!("(refusal {}).\n", refusal.number)));
        }
    }
}

#[test]
fn a_drawing() {
    let input = input(2, 8, &one_gate(-99, 1, &[1, -2, 3]));
    let gates = draw(input.as_bytes()).expect("a drawing");
    for line in ["  s1g1 [shape=box, label=\"AND\"];", "  1 -> s1g1;", "  2 -> s1g1 [arrowhead=odot];", "  s1g1 -> 99 [arrowhead=odot];"] {
        assert!(gates.lines().any(|drawn| drawn == line), "{line} in {gates}");
    }
    let list =
        "     2     8     2\n     1     0     2     1     2                    2\n     2    99     2     3 10001                    7\n";
    let tables = draw(list.as_bytes()).expect("a drawing");
    for line in ["  t1 [shape=box, label=\"table 1\\n2\"];", "  t1 -> t2;", "  3 -> t2;", "  t2 -> 99;"] {
        assert!(tables.lines().any(|drawn| drawn == line), "{line} in {tables}");
    }
    assert!(draw(b"neither").is_err());
}

/// The outputs of a network in BLIF, 64 settings at a time. Its inputs are set in the order of their names.
fn run(network: &str, seed: u64) -> Vec<(String, u64)> {
    let mut rng = Rng::new(seed);
    let mut values: HashMap<String, u64> = HashMap::new();
    let mut outputs: Vec<String> = Vec::new();
    let mut node: Vec<String> = Vec::new();
    for line in network.lines() {
        let words: Vec<String> = line.split_ascii_whitespace().map(String::from).collect();
        match &words[0][..] {
            ".inputs" => values.extend(words[1..].iter().map(|name| (name.clone(), rng.word()))),
            ".outputs" => outputs = words[1..].to_vec(),
            ".names" => {
                node = words[1..].to_vec();
                values.insert(node[node.len() - 1].clone(), 0);
            }
            ".model" | ".end" => (),
            row => {
                let fits = |(name, wanted): (&String, char)| match wanted {
                    '1' => values[name],
                    '0' => !values[name],
                    _ => !0,
                };
                let value = node.iter().zip(row.chars()).map(fits).fold(!0, |all, value| all & value);
                *values.get_mut(&node[node.len() - 1]).unwrap() |= value;
            }
        }
    }
    outputs.into_iter().map(|name| (name.clone(), values[&name])).collect()
}

#[test]
fn the_networks_agree() {
    let mut compared = 0;
    for index in 0..400 {
        let input = case(5, index).input;
        if read(&input).is_err() {
            continue;
        }
        let (drawn, mapped) = networks(&input, print(&input).as_bytes()).expect("two networks");
        assert_eq!(run(&drawn, index), run(&mapped, index), "case {index}");
        compared += 1;
    }
    assert!(compared > 100);
}
