//! Sets of sheets by hand (request 106), each with the answer that 02's words give. Each sheet that is accepted is one table, or a chain
//! whose tables are settled.

use outside::refusal::Refusal;
use outside::samples;
use outside::set_cases::Case;
use outside::set_check::{answer, check_add, Add, LONGEST};
use outside::sheet::Sheet;

use super::{gate, line, nets, one_gate, table, text, AND, LIST, OR};

struct ByHand {
    what: &'static str,
    list: String,
    text: String,
    lengths: Vec<u32>,
    /// The new list, or the refusal with the sheet's position.
    wanted: Result<String, Refusal>,
}

/// Tests a way of adding on each of them.
pub fn check_by_hand(add: &Add) {
    for ByHand { what, list, text, lengths, wanted } in by_hand() {
        let mut output = vec![b'.'; LONGEST];
        let given = add(list.as_bytes(), text.as_bytes(), &lengths, &mut output);
        assert_eq!(given, wanted.as_ref().map(String::len).map_err(|&refusal| refusal), "{what}");
        let new = wanted.unwrap_or_default();
        assert_eq!(&output[..new.len()], new.as_bytes(), "{what}");
        assert!(output[new.len()..].iter().all(|&byte| byte == b'.'), "{what}");
    }
}

/// The output is exactly long enough, one byte too short, or empty; a refusal of the set comes before 14.
pub fn check_short_outputs(add: &Add) {
    let answer = |lengths: &[u32], length| add(LIST.as_bytes(), and().as_bytes(), lengths, &mut vec![0; length]);
    assert_eq!(answer(&[38], LIST.len() + 52), Ok(LIST.len() + 52));
    assert_eq!(answer(&[38], LIST.len() + 51), Err(Refusal::new(14, 0, 0)));
    assert_eq!(answer(&[38], 0), Err(Refusal::new(14, 0, 0)));
    assert_eq!(answer(&[37], 0), Err(Refusal::new(33, 0, 0)));
    assert_eq!(answer(&[38, 0], 0), Err(Refusal::new(1, 2, 1)));
}

/// A set whose text has more than 2^16 bytes and whose list is the longest, and one that needs a table more.
pub fn check_longest(add: &Add) {
    let mut output = vec![0; LONGEST];
    for case in [longest(175), longest(176)] {
        assert_eq!(check_add(add, &case, &answer(&case), &mut output), Ok(()));
    }
    let Case { list, text, lengths, .. } = longest(175);
    assert_eq!((text.len(), add(&list, &text, &lengths, &mut output)), (100_208, Ok(LONGEST)));
}

/// A list of no tables.
fn empty(k: i64, capacity: i64) -> String {
    line(&[k, capacity, 0])
}

/// 30 is 6 AND NOT 7.
fn and() -> String {
    one_gate(30, AND, &[6, -7])
}

/// 31 is the inverse of that.
fn inverted() -> String {
    one_gate(-31, AND, &[6, -7])
}

/// 40 is the inverse of (NOT (8 AND NOT 9)) AND 10: at K 2 two tables.
fn chain() -> String {
    line(&[-40, 2]) + &gate(AND, &[8, -9]) + &gate(AND, &[-10001, 10])
}

/// Sheet i of sixteen or more: 100 + i is net i + 1, AND or OR by turns, with what the sheet before drives, or with 1.
fn numbered(i: i64) -> String {
    one_gate(100 + i, if i % 2 == 1 { AND } else { OR }, &[i + 1, if i == 1 { 1 } else { 99 + i }])
}

fn numbered_tables() -> String {
    let later = (2..=16).map(|i| table(i, 100 + i, &[i + 1, 99 + i], if i % 2 == 1 { "8" } else { "14" }));
    table(1, 101, &[1, 2], "8") + &later.collect::<String>()
}

fn numbered_sheets(count: i64) -> Vec<String> {
    nets(1, count).into_iter().map(numbered).collect()
}

/// A set of these sheets.
fn set(what: &'static str, list: &str, sheets: &[String], wanted: Result<String, Refusal>) -> ByHand {
    let lengths = sheets.iter().map(|sheet| sheet.len() as u32).collect();
    ByHand { what, list: list.into(), text: sheets.concat(), lengths, wanted }
}

fn accepted(what: &'static str, list: &str, sheets: &[String], new: String) -> ByHand {
    set(what, list, sheets, Ok(new))
}

fn refused(what: &'static str, list: &str, sheets: &[String], (number, place, position): (u32, usize, usize)) -> ByHand {
    set(what, list, sheets, Err(Refusal::new(number, position, place)))
}

/// The sheets `and` and `inverted`, 38 bytes each, on 01's list, with other lengths.
fn cut(what: &'static str, lengths: &[u32], answer: (u32, usize, usize)) -> ByHand {
    ByHand { lengths: lengths.to_vec(), ..refused(what, LIST, &[and(), inverted()], answer) }
}

fn by_hand() -> Vec<ByHand> {
    [all_accepted(), no_set(), bytes_of_a_sheet(), refused_sheets(), tables_left(), damaged_lists()].into_iter().flatten().collect()
}

fn all_accepted() -> Vec<ByHand> {
    let example = [text(&[&[20, 3], &[2, 2, 1, 2], &[2, 2, 3, 4], &[1, 2, 10001, 10002]]), one_gate(-21, AND, &[20, -5])];
    let both = line(&[4, 8, 4]) + LIST.split_once('\n').unwrap().1 + &table(3, 30, &[6, 7], "2") + &table(4, 31, &[6, 7], "13");
    vec![
        accepted("one sheet", &empty(4, 8), &[and()], line(&[4, 8, 1]) + &table(1, 30, &[6, 7], "2")),
        accepted("01's two sheets: the second reads what the first drives", &empty(4, 8), &example, LIST.into()),
        accepted("the old tables stay in front", LIST, &[and(), inverted()], both),
        accepted("sixteen sheets", &empty(2, 16), &numbered_sheets(16), line(&[2, 16, 16]) + &numbered_tables()),
    ]
}

fn no_set() -> Vec<ByHand> {
    let no_set = (33, 0, 0);
    let fault = one_gate(30, 3, &[6, -7]);
    vec![
        cut("no sheets", &[], no_set),
        refused("no sheets, no bytes", LIST, &[], no_set),
        refused("seventeen sheets", &empty(2, 20), &numbered_sheets(17), no_set),
        refused("seventeen empty sheets", LIST, &vec![String::new(); 17], no_set),
        cut("one byte short", &[38, 37], no_set),
        cut("one byte long", &[38, 39], no_set),
        cut("a length too few", &[38], no_set),
        cut("a length too many", &[38, 38, 38], no_set),
        cut("a length whose low sixteen bits are right", &[38, 65536 + 38], no_set),
        cut("2^32 too much, in one length", &[u32::MAX, 77], no_set),
        cut("2^32 too much, in a third and a fourth sheet", &[38, 38, 1 << 31, 1 << 31], no_set),
        cut("15 × 2^32 too much", &[&[u32::MAX; 15][..], &[91]].concat(), no_set),
        ByHand { lengths: vec![37], ..refused("before any sheet", LIST, &[fault], no_set) },
        ByHand { lengths: vec![0; 272], ..refused("256 + 16 empty sheets", LIST, &[], no_set) },
    ]
}

fn bytes_of_a_sheet() -> Vec<ByHand> {
    let three = [and(), chain(), inverted()];
    vec![
        refused("an empty sheet alone", LIST, &["".into()], (1, 1, 1)),
        refused("sixteen empty sheets", LIST, &vec![String::new(); 16], (1, 1, 1)),
        cut("an empty first sheet", &[0, 38, 38], (1, 1, 1)),
        cut("an empty middle sheet", &[38, 0, 38], (1, 1, 2)),
        cut("an empty last sheet", &[38, 38, 0], (1, 1, 3)),
        cut("two sheets in one length", &[76], (1, 3, 1)),
        cut("a byte of the second sheet in the first", &[39, 37], (1, 3, 1)),
        cut("the first one's last byte in the second", &[37, 39], (1, 2, 1)),
        cut("a sheet in two lengths", &[13, 25, 38], (1, 2, 1)),
        ByHand { lengths: vec![38, 64, 37], ..refused("a byte more in the second of three", LIST, &three, (1, 4, 2)) },
        ByHand { lengths: vec![38, 62, 39], ..refused("a byte less in the second of three", LIST, &three, (1, 3, 2)) },
        refused("a line feed after the last one", LIST, &[and(), inverted() + "\n"], (1, 3, 2)),
    ]
}

fn refused_sheets() -> Vec<ByHand> {
    let kind_3 = one_gate(50, 3, &[6, -7]);
    let net_twice = line(&[50, 2]) + &gate(AND, &[6, -7]) + &gate(OR, &[10001, -6]);
    let unread = line(&[50, 2]) + &gate(AND, &[6, 7]) + &gate(AND, &[8, 9]);
    let reads_50 = one_gate(51, AND, &[50, 1]);
    let drives_50 = one_gate(50, AND, &[8, 9]);
    vec![
        refused("a fault in the first sheet", LIST, &[kind_3.clone(), and(), inverted()], (6, 2, 1)),
        refused("a fault in the middle, and one in the last", LIST, &[and(), net_twice, kind_3.clone()], (10, 3, 2)),
        refused("a fault in the last", LIST, &[and(), inverted(), unread], (13, 2, 3)),
        refused("a net that the list drives", LIST, &[and(), one_gate(-20, AND, &[6, 7])], (21, 0, 2)),
        refused("a net that the list reads", LIST, &[and(), one_gate(5, AND, &[6, 7])], (22, 0, 2)),
        refused("21 in the first, before a fault in the second", LIST, &[one_gate(21, AND, &[6, 7]), kind_3], (21, 0, 1)),
        refused("a net that a sheet before drives", LIST, &[and(), and()], (21, 0, 2)),
        refused("a net that a sheet before reads", LIST, &[and(), one_gate(6, AND, &[8, 9])], (22, 0, 2)),
        refused("read, then driven", LIST, &[reads_50.clone(), drives_50.clone()], (22, 0, 2)),
        refused("driven, read, then driven again", LIST, &[drives_50.clone(), reads_50, drives_50], (21, 0, 3)),
    ]
}

fn tables_left() -> Vec<ByHand> {
    let three = [and(), chain(), inverted()];
    let full = line(&[2, 4, 4])
        + &table(1, 30, &[6, 7], "2")
        + &table(2, 0, &[8, 9], "2")
        + &table(3, 40, &[10, 10002], "13")
        + &table(4, 31, &[6, 7], "13");
    vec![
        refused("none left for the second, though the third would fit", &empty(2, 2), &three, (23, 0, 2)),
        refused("none left for the last", &empty(2, 3), &three, (23, 0, 3)),
        accepted("all tables used", &empty(2, 4), &three, full.clone()),
        refused("none left at all", &full, &[one_gate(50, AND, &[1, 2])], (23, 0, 1)),
        refused("none left for the sixteenth", &empty(2, 15), &numbered_sheets(16), (23, 0, 16)),
        refused("21 before 23", &full, &[one_gate(40, AND, &[1, 2])], (21, 0, 1)),
    ]
}

/// The list comes before the set.
fn damaged_lists() -> Vec<ByHand> {
    let (head, tables) = LIST.split_once('\n').unwrap();
    let no_set = |list: &str, number, line| ByHand { lengths: vec![], ..refused("a damaged list", list, &[and()], (number, line, 0)) };
    vec![
        refused("no list", "", &[and()], (31, 0, 0)),
        refused("a cut list", &LIST[..LIST.len() - 1], &[and()], (31, 2, 0)),
        refused("K 7", &empty(7, 8), &[and()], (2, 0, 0)),
        refused("capacity 801", &empty(4, 801), &[and()], (3, 0, 0)),
        refused("used above capacity", &line(&[4, 8, 9]), &[and()], (32, 0, 0)),
        refused("a net driven twice", &LIST.replace("    21     2", "    20     2"), &[and()], (32, 2, 0)),
        no_set(&format!("{head}\n\n{tables}"), 31, 1),
        no_set(&empty(1, 8), 2, 0),
        no_set(&empty(4, 0), 3, 0),
    ]
}

/// The longest set that a part can accept, where `last` is 175: fifteen chains of 255 gates, 51 tables each, and one of `last` gates, for
/// which 35 tables are left, five gates each.
fn longest(last: usize) -> Case {
    let chain = |i: u16| samples::chain(9999 - i, 1, if i == 15 { last } else { 255 }, 2);
    let sheets: Vec<Sheet> = (0..16).map(chain).collect();
    let texts: Vec<String> = sheets.iter().map(Sheet::text).collect();
    Case {
        kind: "the longest set",
        list: empty(6, 800).into_bytes(),
        text: texts.concat().into_bytes(),
        lengths: texts.iter().map(|text| text.len() as u32).collect(),
        wanted: Some(if last <= 175 { Ok(()) } else { Err(Refusal::new(23, 16, 0)) }),
    }
}
