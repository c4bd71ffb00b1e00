//! Joins (request 104), worked by hand, and against the same rule on nested trees.

mod common;

use common::nested::{self, RIGHT};
use common::{nets, sheet, AND, OR};
use outside::generate::case;
use outside::join::join;
use outside::program::read;
use outside::rng::Rng;
use outside::sheet::{read_only, Sheet};

/// These gates are joined to those.
fn joins(drawn: &[(i64, &[i64])], joined: &[(i64, &[i64])]) {
    assert_eq!(join(&sheet(drawn)).sheet, sheet(joined));
}

/// These gates stay as they are.
fn stays(gates: &[(i64, &[i64])]) {
    joins(gates, gates);
}

/// Upper and lower gate, from 1, and fanin count of each chained edge.
fn looked_at(gates: &[(i64, &[i64])]) -> Vec<(usize, usize, usize)> {
    join(&sheet(gates)).chained.iter().map(|edge| (edge.upper + 1, edge.lower + 1, edge.fanins)).collect()
}

#[test]
fn three_ands() {
    joins(
        &[(AND, &[1, 2, 3]), (AND, &[4, 5, 6]), (AND, &[7, 8, 9]), (AND, &[10001, 10002, 10003])],
        &[(AND, &[1, 2, 3, 4, 5, 6, 7, 8, 9])],
    );
}

#[test]
fn three_ors() {
    stays(&[(OR, &[1, 2, 3]), (OR, &[4, 5, 6]), (OR, &[7, 8, 9]), (AND, &[10001, 10002, 10003])]);
}

/// NOT (1 AND NOT 2) OR 3 is NOT 1 OR 2 OR 3.
#[test]
fn turned_over() {
    joins(&[(AND, &[1, -2]), (OR, &[-10001, 3])], &[(OR, &[-1, 2, 3])]);
    joins(&[(OR, &[1, -2]), (AND, &[3, -10001])], &[(AND, &[3, -1, 2])]);
}

/// An edge to a gate is turned over like one to a leaf, and the gate that it reads stays as it is.
#[test]
fn a_gate_turned_over() {
    joins(&[(OR, &[1, -2]), (AND, &[10001, 3]), (OR, &[-10002, 4])], &[(OR, &[1, -2]), (OR, &[-10001, -3, 4])]);
}

#[test]
fn not_chained() {
    stays(&[(AND, &[1, 2]), (AND, &[-10001, 3])]);
    stays(&[(OR, &[1, 2]), (OR, &[3, -10001])]);
    stays(&[(AND, &[1, 2]), (OR, &[10001, 3])]);
    stays(&[(OR, &[1, 2]), (AND, &[3, 10001])]);
}

/// The output's inversion stays where it is.
#[test]
fn the_output() {
    let drawn = Sheet { inverted: true, ..sheet(&[(AND, &[1, 2]), (AND, &[10001, 3])]) };
    assert_eq!(join(&drawn).sheet, Sheet { inverted: true, ..sheet(&[(AND, &[1, 2, 3])]) });
}

/// The lower gate's fanins stand where the edge stood, whatever stands beside it.
#[test]
fn in_the_place_of_the_edge() {
    joins(&[(OR, &[3, 4]), (OR, &[6, 7]), (OR, &[1, 10001, 5, 10002, 8])], &[(OR, &[1, 3, 4, 5, 6, 7, 8])]);
}

#[test]
fn ten_and_no_more() {
    stays(&[(AND, &[1, 2]), (AND, &[&[10001], &nets(3, 11)[..]].concat())]);
    joins(&[(AND, &[1, 2]), (AND, &[&[10001], &nets(3, 10)[..]].concat())], &[(AND, &nets(1, 10))]);
    stays(&[(AND, &nets(1, 10)), (AND, &[10001, 11])]);
    joins(&[(AND, &nets(1, 9)), (AND, &[10001, 10])], &[(AND, &nets(1, 10))]);
}

/// Six and the edge to the second make seven; six more for that edge would be twelve.
#[test]
fn two_ands_of_six() {
    let drawn: &[(i64, &[i64])] = &[(AND, &nets(1, 6)), (AND, &nets(7, 12)), (AND, &[10001, 10002])];
    joins(drawn, &[(AND, &nets(7, 12)), (AND, &[&nets(1, 6)[..], &[10001]].concat())]);
    assert_eq!(looked_at(drawn), [(3, 1, 7), (3, 2, 12)]);
}

/// Three fanins, then 8 with the six, 12 with the five, which stay, and 10 with the three.
#[test]
fn of_six_five_and_three() {
    let drawn: &[(i64, &[i64])] = &[(AND, &nets(1, 6)), (AND, &nets(7, 11)), (AND, &nets(12, 14)), (AND, &[10001, 10002, 10003])];
    joins(drawn, &[(AND, &nets(7, 11)), (AND, &[&nets(1, 6)[..], &[10001], &nets(12, 14)].concat())]);
    assert_eq!(looked_at(drawn), [(4, 1, 8), (4, 2, 12), (4, 3, 10)]);
}

/// A fanin not yet looked at counts one: the five, the four and the edge to the six make ten.
#[test]
fn what_is_to_come_counts_one() {
    let drawn: &[(i64, &[i64])] = &[(AND, &nets(1, 5)), (AND, &nets(6, 10)), (AND, &nets(11, 15)), (AND, &[10001, 10002, 10003])];
    assert_eq!(looked_at(drawn), [(4, 1, 7), (4, 2, 11), (4, 3, 11)]);
    let drawn: &[(i64, &[i64])] = &[(AND, &nets(1, 5)), (AND, &nets(6, 9)), (AND, &nets(10, 15)), (AND, &[10001, 10002, 10003])];
    assert_eq!(looked_at(drawn), [(4, 1, 7), (4, 2, 10), (4, 3, 15)]);
    joins(drawn, &[(AND, &nets(10, 15)), (AND, &[&nets(1, 9)[..], &[10001]].concat())]);
}

/// Gates 1 to 3 make ten; gate 4 finds no room for them.
#[test]
fn a_chain_with_ten_in_the_middle() {
    let drawn: &[(i64, &[i64])] = &[(AND, &nets(1, 4)), (AND, &[10001, 5, 6, 7]), (AND, &[8, 10002, 9, 10]), (AND, &[10003, 11])];
    joins(drawn, &[(AND, &[8, 1, 2, 3, 4, 5, 6, 7, 9, 10]), (AND, &[10001, 11])]);
    assert_eq!(looked_at(drawn), [(2, 1, 7), (3, 2, 10), (4, 3, 11)]);
}

/// Gates 1 and 2 make nine, gate 3 finds no room for them, and gate 4 joins gate 3, as it is then, with its edge to gate 2.
#[test]
fn a_chain_without_room_in_the_middle() {
    let drawn: &[(i64, &[i64])] = &[(OR, &nets(1, 5)), (OR, &[10001, 6, 7, 8, 9]), (OR, &[10002, 10, 11]), (OR, &[12, 10003])];
    joins(drawn, &[(OR, &nets(1, 9)), (OR, &[12, 10001, 10, 11])]);
    assert_eq!(looked_at(drawn), [(2, 1, 9), (3, 2, 11), (4, 3, 4)]);
}

/// A lower gate comes with what it has joined.
#[test]
fn a_join_under_a_join() {
    joins(&[(OR, &[1, 2]), (OR, &[10001, -3]), (OR, &[4, 10002])], &[(OR, &[4, 1, 2, -3])]);
    joins(&[(AND, &[1, 2]), (AND, &[3, 4]), (AND, &[5, 10001]), (AND, &[10003, 10002])], &[(AND, &[5, 1, 2, 3, 4])]);
}

/// NOT (NOT (1 AND 2) OR 3) AND 4 is 1 AND 2 AND NOT 3 AND 4: what is below two inverted edges is turned over twice.
#[test]
fn turned_over_twice() {
    joins(&[(AND, &[1, 2]), (OR, &[-10001, 3]), (AND, &[-10002, 4])], &[(AND, &[1, 2, -3, 4])]);
    joins(&[(OR, &[1, -2]), (OR, &[10001, 3]), (AND, &[-10002, 4]), (OR, &[5, -10003])], &[(OR, &[5, 1, -2, 3, -4])]);
}

/// A lower gate without room is read as before, turned over where the gate that reads it is.
#[test]
fn no_room_and_turned_over() {
    joins(&[(OR, &nets(1, 9)), (OR, &[10001, 10, 11]), (AND, &[-10002, 12])], &[(OR, &nets(1, 9)), (AND, &[-10001, -10, -11, 12])]);
}

/// The sheets of the accepted cases of a run.
fn sheets(count: u64) -> Vec<Sheet> {
    (0..count).filter_map(|index| read(&case(7, index).input).ok()).flat_map(|accepted| accepted.sheets).collect()
}

#[test]
fn the_same_by_nested_trees() {
    for sheet in sheets(3000) {
        assert_eq!(nested::tree(&join(&sheet).sheet), RIGHT.join(nested::tree(&sheet)), "{}", sheet.text());
    }
}

/// Joining changes no value and no leaf, leaves a sheet that can be read, and finds nothing more to join in it.
#[test]
fn joined_sheets() {
    let mut rng = Rng::new(7);
    for sheet in sheets(3000) {
        let joined = join(&sheet).sheet;
        assert_eq!(read_only(joined.text().as_bytes()).as_ref(), Ok(&joined));
        assert_eq!(join(&joined).sheet, joined);
        let mut leaves = [sheet.leaves(), joined.leaves()];
        leaves.iter_mut().for_each(|leaves| leaves.sort_unstable());
        assert_eq!(leaves[0], leaves[1]);
        let values: Vec<u64> = (0..=9999).map(|_| rng.word()).collect();
        let value = |sheet: &Sheet| sheet.value(|net| values[usize::from(net)]);
        assert_eq!(value(&sheet), value(&joined), "{}", sheet.text());
    }
}
