//! One leaf more (request 111): the least number stays or rises by one where no edge is to be joined, and what it may do otherwise.

mod common;

use common::{nets, sheet, sheet_text, AND, OR};
use outside::exhaustive::{self, splittings};
use outside::generate::case;
use outside::join::join;
use outside::least::least_by_width;
use outside::one_more::{chained_trees, changes, grown, has_join, small_trees, Place};
use outside::program::read;
use outside::rng::Rng;
use outside::sheet::{read_only, Edge, Fault, Sheet, Source};

/// Leaves alone: 1. Of three: flat, or a gate of two, apart or chained. Of four: flat; two leaves and a gate of two, 2; a leaf and a gate of
/// three, 6; two gates of two, both apart, one, or both chained, 3.
#[test]
fn how_many_small_trees() {
    let counts: Vec<usize> = (2..=4).map(|most| small_trees(most).len()).collect();
    assert_eq!(counts, [1, 1 + 3, 1 + 3 + 12]);
}

/// How often the number stayed and rose, by K: at K of 2 it rises, and at each other both occur.
fn both_occur(seen: &[[usize; 2]; 7]) {
    assert_eq!(seen[2][0], 0, "{seen:?}");
    assert!(seen[2][1] > 0 && seen[3..].iter().flatten().all(|&times| times > 0), "{seen:?}");
}

/// On every tree of up to six leaves without an edge to join, at every gate and every K, by every splitting and every cover: the least number
/// stays or rises by one.
#[test]
fn stays_or_rises_by_every_cover() {
    let mut seen = [[0; 2]; 7];
    for sheet in small_trees(6).iter().map(|tree| tree.sheet()).filter(|sheet| !has_join(sheet)) {
        let before = splittings(&sheet);
        for gate in 0..sheet.gates.len() {
            let after = splittings(&grown(&sheet, Place { gate, left: 0, inverted: false }).expect("room"));
            for (k, seen) in seen.iter_mut().enumerate().skip(2) {
                seen[exhaustive::least(&after, k) - exhaustive::least(&before, k)] += 1;
            }
        }
    }
    both_occur(&seen);
}

/// The accepted sheets of a run without an edge to join, each with its K.
fn settled_sheets(count: u64) -> impl Iterator<Item = (usize, Sheet)> {
    let accepted = (0..count).filter_map(|index| read(&case(11, index).input).ok());
    accepted.flat_map(|accepted| accepted.sheets.into_iter().map(move |sheet| (accepted.k, sheet))).filter(|(_, sheet)| !has_join(sheet))
}

/// The same of generated sheets, with the leaf at any place, upright or inverted; the sheet with the leaf is accepted, and has no edge to join.
#[test]
fn stays_or_rises_on_generated_sheets() {
    let mut rng = Rng::new(11);
    let mut seen = [[0; 2]; 7];
    for (k, sheet) in settled_sheets(3000) {
        let gate = rng.below(sheet.gates.len());
        let place = Place { gate, left: rng.below(sheet.gates[gate].fanins.len() + 1), inverted: rng.once_in(2) };
        let Some(grown) = grown(&sheet, place) else { continue };
        assert_eq!(read_only(grown.text().as_bytes()).as_ref(), Ok(&grown));
        assert!(!has_join(&grown), "{}", grown.text());
        let change = least_by_width(&grown, k) - least_by_width(&sheet, k);
        seen[k][change] += 1;
    }
    both_occur(&seen);
}

/// What 02 asks for is what makes the sheet with the leaf acceptable: else it is refused.
#[test]
fn what_is_refused() {
    let refused = |gates: &[(i64, &[i64])]| read_only(sheet_text(gates).as_bytes()).expect_err("a refusal");
    assert_eq!(refused(&[(AND, &nets(1, 11))]), Fault { number: 1, line: 2 });
    assert_eq!(refused(&[(AND, &[1, 2, -2])]), Fault { number: 10, line: 2 });
    assert_eq!(refused(&[(AND, &[1, 9999, 2])]), Fault { number: 11, line: 2 });
    let mut chain = outside::samples::chain(9999, 1, 255, 2);
    assert_eq!(grown(&chain, Place { gate: 0, left: 0, inverted: false }), None);
    chain.gates[254].fanins.push(Edge { inverted: false, source: Source::Net(257) });
    assert_eq!(read_only(chain.text().as_bytes()), Err(Fault { number: 12, line: 256 }));
    assert_eq!(grown(&sheet(&[(AND, &nets(1, 10))]), Place { gate: 0, left: 0, inverted: false }), None);
}

/// The least number before and after, joined, by the search that keeps every width.
fn before_and_after(sheet: &Sheet, gate: usize, k: usize) -> [usize; 2] {
    let grown = grown(sheet, Place { gate, left: 0, inverted: false }).expect("room");
    [sheet, &grown].map(|sheet| least_by_width(&join(sheet).sheet, k))
}

/// Five ORs of three leaves, under an AND that the root reads beside five leaves. Joined, each OR fills a table with two leaves or tables. With six
/// leaves the edge is not joined, and no leaf stands beside the ORs: five tables for these, and two for what is left.
#[test]
fn rises_by_two() {
    let ors: Vec<Vec<i64>> = (0..5).map(|or| nets(3 * or + 1, 3 * or + 3)).collect();
    let mut gates: Vec<(i64, &[i64])> = ors.iter().map(|fanins| (OR, &fanins[..])).collect();
    let (lower, root) = (nets(10001, 10005), [nets(10006, 10006), nets(16, 20)].concat());
    gates.extend([(AND, &lower[..]), (AND, &root[..])]);
    assert!(has_join(&sheet(&gates)));
    assert_eq!(before_and_after(&sheet(&gates), 6, 5), [5, 7]);
}

/// The root reads an AND of an OR and eight leaves, which is joined and makes ten, and one of two ORs, for which there is no room then. With a
/// leaf more there is none for the first, and the second is joined.
#[test]
fn falls() {
    let gates: &[(i64, &[i64])] = &[
        (OR, &nets(1, 4)),
        (OR, &nets(5, 8)),
        (OR, &nets(9, 12)),
        (AND, &[&[10001], &nets(13, 20)[..]].concat()),
        (AND, &[10002, 10003]),
        (AND, &[10004, 10005]),
    ];
    assert!(has_join(&sheet(gates)));
    assert_eq!(before_and_after(&sheet(gates), 5, 6), [5, 4]);
}

/// Without an edge to join no change but 0 and 1 is found, and with one both others are, at K of 5 and a gate of three leaves.
#[test]
fn the_search_for_changes() {
    let found = changes(&chained_trees(3, 10..=12));
    let seen = |k: usize, kind: usize| found[k - 2].1[kind].seen.keys().copied().collect::<Vec<isize>>();
    assert_eq!([seen(2, 0), seen(2, 1)], [vec![1], vec![1]]);
    assert_eq!([seen(5, 0), seen(5, 1)], [vec![0, 1], vec![-1, 0, 1, 2]]);
    let (_, example) = &found[5 - 2].1[1].seen[&2];
    assert_eq!((example.sheet.leaves().len(), example.least), (20, [5, 7]));
}
