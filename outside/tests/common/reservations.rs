//! Calls with reservations by hand (request 109), each with the answer that 02's words give. Each sheet that is accepted is a chain whose
//! tables are settled.

use outside::call_check::Perform;
use outside::refusal::Refusal;
use outside::reservation::{Call, Reservation};
use outside::set_check::LONGEST;

use super::{gate, line, nets, one_gate, table, AND, LIST, OR};

/// A list and its reservation, a call, and what is right: the new list, where it writes one, and the reservation after it, or the refusal.
struct ByHand {
    what: &'static str,
    list: String,
    reservation: Reservation,
    call: Call,
    wanted: Result<(String, Reservation), Refusal>,
}

/// Tests what makes calls on each of them.
pub fn check_by_hand(perform: &Perform) {
    for ByHand { what, list, reservation, call, wanted } in by_hand() {
        let mut output = vec![b'.'; LONGEST];
        let given = perform(list.as_bytes(), reservation, &call, &mut output);
        assert_eq!(given, wanted.clone().map(|(new, after)| (new.len(), after)), "{what}");
        let new = wanted.map_or(String::new(), |(new, _)| new);
        assert_eq!(&output[..new.len()], new.as_bytes(), "{what}");
        assert!(output[new.len()..].iter().all(|&byte| byte == b'.'), "{what}");
    }
}

/// The output is exactly long enough, one byte too short, or empty; all other refusals come before 14, and no room is needed where no list
/// is written.
pub fn check_short_outputs(perform: &Perform) {
    let answer = |call: &Call, length| perform(empty(2, 3).as_bytes(), of(2, 30), call, &mut vec![0; length]);
    let (fits, set_fits) = (commit(&chain(30, 1)), set(&[chain(31, 1)]));
    for (call, after) in [(&fits, NONE), (&set_fits, of(2, 30))] {
        assert_eq!(answer(call, 19 + 52), Ok((19 + 52, after)));
        assert_eq!(answer(call, 19 + 51), Err(refusal(14)));
        assert_eq!(answer(call, 0), Err(refusal(14)));
    }
    assert_eq!(answer(&commit(&chain(30, 4)), 0), Err(refusal(23)));
    assert_eq!(answer(&commit(&chain(31, 1)), 0), Err(refusal(36)));
    assert_eq!(answer(&set(&[chain(31, 2)]), 0), Err(Refusal::new(23, 1, 0)));
    assert_eq!(answer(&reserve(&chain(31, 1)), 0), Err(refusal(35)));
    assert_eq!(answer(&Call::Withdraw, 0), Ok((0, NONE)));
    assert_eq!(perform(empty(2, 3).as_bytes(), NONE, &reserve(&chain(31, 1)), &mut []), Ok((0, of(1, 31))));
}

/// A sale: five tables, three of them promised for net 30, and each call on what the one before it handed back. The sheet that was reserved
/// is accepted in the end, though all other tables are used by then.
pub fn check_sale(perform: &Perform) {
    let mut output = vec![0; LONGEST];
    let (mut list, mut reservation) = (empty(2, 5), NONE);
    let mut next = |call: Call| {
        let (count, after) = perform(list.as_bytes(), reservation, &call, &mut output)?;
        if count > 0 {
            list = String::from_utf8(output[..count].to_vec()).unwrap();
        }
        reservation = after;
        Ok((list.clone(), after))
    };
    assert_eq!(next(reserve(&chain(30, 3))), Ok((empty(2, 5), of(3, 30))));
    assert_eq!(next(set(&[chain(31, 3)])), Err(Refusal::new(23, 1, 0)));
    assert_eq!(next(reserve(&chain(31, 1))), Err(refusal(35)));
    let two = line(&[2, 5, 2]) + &tables(1, 31, 2);
    assert_eq!(next(set(&[chain(31, 2)])), Ok((two.clone(), of(3, 30))));
    assert_eq!(next(set(&[chain(32, 1)])), Err(Refusal::new(23, 1, 0)));
    assert_eq!(next(commit(&chain(30, 4))), Err(refusal(23)));
    assert_eq!(next(commit(&chain(32, 1))), Err(refusal(36)));
    let five = line(&[2, 5, 5]) + &tables(1, 31, 2) + &tables(3, 30, 3);
    assert_eq!(next(commit(&chain(30, 3))), Ok((five, NONE)));
    assert_eq!(next(commit(&chain(30, 3))), Err(refusal(36)));
    assert_eq!(next(Call::Withdraw), Err(refusal(36)));
    assert_eq!(next(reserve(&chain(32, 1))), Err(refusal(23)));
}

const NONE: Reservation = Reservation::NONE;

fn of(tables: u16, net: u16) -> Reservation {
    Reservation { tables, net }
}

/// A refusal without place and position.
fn refusal(number: u32) -> Refusal {
    Refusal::new(number, 0, 0)
}

/// A list of no tables.
fn empty(k: i64, capacity: i64) -> String {
    line(&[k, capacity, 0])
}

fn reserve(sheet: &str) -> Call {
    Call::Reserve { text: sheet.into() }
}

fn commit(sheet: &str) -> Call {
    Call::Commit { text: sheet.into() }
}

fn set(sheets: &[String]) -> Call {
    Call::AddSet { text: sheets.concat().into(), lengths: sheets.iter().map(|sheet| sheet.len() as u32).collect() }
}

/// A sheet of so many gates: 8 AND NOT 9, OR 10, AND 11, OR 12 and so on. At K 2 each is a table: there is nothing to join.
fn chain(net: i64, gates: i64) -> String {
    let later = |i: i64| gate(if i % 2 == 1 { AND } else { OR }, &[9999 + i, 8 + i]);
    line(&[net, gates]) + &gate(AND, &[8, -9]) + &(2..=gates).map(later).collect::<String>()
}

/// The lines of that sheet's tables at K 2, the first of this number.
fn tables(first: i64, net: i64, gates: i64) -> String {
    let driven = |i: i64| if i == gates { net } else { 0 };
    let later = |i: i64| table(first + i - 1, driven(i), &[8 + i, 9998 + first + i], if i % 2 == 1 { "8" } else { "14" });
    table(first, driven(1), &[8, 9], "2") + &(2..=gates).map(later).collect::<String>()
}

/// 30 is 8 AND NOT 9, with a kind that there is not.
fn kind_3(net: i64) -> String {
    one_gate(net, 3, &[8, -9])
}

fn case(what: &'static str, list: &str, reservation: Reservation, call: Call, wanted: Result<(String, Reservation), Refusal>) -> ByHand {
    ByHand { what, list: list.into(), reservation, call, wanted }
}

fn by_hand() -> Vec<ByHand> {
    [reserved(), not_reserved(), already_open(), committed(), not_committed(), withdrawn(), beside(), not_sound(), damaged_lists()]
        .into_iter()
        .flatten()
        .collect()
}

/// The least number is set aside, and no list is written.
fn reserved() -> Vec<ByHand> {
    let accepted = |what, list: &str, sheet: &str, after| case(what, list, NONE, reserve(sheet), Ok((String::new(), after)));
    let three_ands =
        line(&[99, 4]) + &gate(AND, &nets(1, 3)) + &gate(AND, &nets(4, 6)) + &gate(AND, &nets(7, 9)) + &gate(AND, &[10001, 10002, 10003]);
    vec![
        accepted("two tables of three", &empty(2, 3), &chain(30, 2), of(2, 30)),
        accepted("all tables left", &empty(2, 2), &chain(30, 2), of(2, 30)),
        accepted("the net has no sign", &empty(2, 3), &chain(-30, 1), of(1, 30)),
        accepted("the greatest net", &empty(2, 3), &chain(9999, 1), of(1, 9999)),
        accepted("beside tables that are used", LIST, &one_gate(30, AND, &[20, 21]), of(1, 30)),
        accepted("the tables of the joined tree", &empty(5, 2), &three_ands, of(2, 99)),
        accepted("255 tables", &empty(2, 800), &outside::samples::chain(9000, 1, 255, 2).text(), of(255, 9000)),
    ]
}

/// Every check of an add.
fn not_reserved() -> Vec<ByHand> {
    let refused = |what, list: &str, sheet: &str, refusal| case(what, list, NONE, reserve(sheet), Err(refusal));
    let full = line(&[2, 2, 2]) + &tables(1, 30, 2);
    vec![
        refused("an empty sheet", LIST, "", Refusal::new(1, 0, 1)),
        refused("bytes after the sheet", LIST, &(chain(30, 1) + "\n"), Refusal::new(1, 0, 3)),
        refused("a fault", LIST, &kind_3(30), Refusal::new(6, 0, 2)),
        refused("a fault before 21", LIST, &kind_3(20), Refusal::new(6, 0, 2)),
        refused("a driven net", LIST, &chain(-21, 1), refusal(21)),
        refused("a driven net that is read", LIST, &chain(20, 1), refusal(21)),
        refused("a read net", LIST, &chain(5, 1), refusal(22)),
        refused("a table too few", &empty(2, 1), &chain(31, 2), refusal(23)),
        refused("none left", &full, &chain(31, 1), refusal(23)),
        refused("21 before 23", &full, &chain(30, 1), refusal(21)),
        refused("22 before 23", &full, &one_gate(9, AND, &[1, 2]), refusal(22)),
    ]
}

/// 35 comes right after 20.
fn already_open() -> Vec<ByHand> {
    let refused = |what, sheet: &str| case(what, LIST, of(1, 30), reserve(sheet), Err(refusal(35)));
    vec![
        refused("another sheet", &chain(31, 1)),
        refused("the same sheet", &chain(30, 1)),
        refused("35 before an empty sheet", ""),
        refused("35 before a fault", &kind_3(31)),
        refused("35 before 21", &chain(20, 1)),
        refused("35 before 22", &chain(5, 1)),
        refused("35 before 23", &outside::samples::chain(9000, 1, 255, 2).text()),
    ]
}

/// All that is not used may be taken, and what is not needed is released.
fn committed() -> Vec<ByHand> {
    let accepted = |what, reservation, gates| {
        let new = line(&[2, 3, gates]) + &tables(1, 30, gates);
        case(what, &empty(2, 3), reservation, commit(&chain(30, gates)), Ok((new, NONE)))
    };
    let inverted = line(&[2, 3, 1]) + &table(1, 30, &[8, 9], "13");
    let after_others = line(&[2, 5, 5]) + &tables(1, 31, 2) + &tables(3, 30, 3);
    vec![
        accepted("as many tables as are set aside", of(2, 30), 2),
        accepted("fewer", of(2, 30), 1),
        accepted("more", of(1, 30), 2),
        accepted("all that is not used", of(1, 30), 3),
        accepted("all that is not used, all set aside", of(3, 30), 3),
        case("inverted", &empty(2, 3), of(1, 30), commit(&chain(-30, 1)), Ok((inverted, NONE))),
        case("after the old tables", &(line(&[2, 5, 2]) + &tables(1, 31, 2)), of(3, 30), commit(&chain(30, 3)), Ok((after_others, NONE))),
    ]
}

/// 36 comes right after 20 where none is open, and right before 21 for another net.
fn not_committed() -> Vec<ByHand> {
    let closed = |what, sheet: &str| case(what, LIST, NONE, commit(sheet), Err(refusal(36)));
    let refused = |what, list: &str, reservation, sheet: &str, refusal| case(what, list, reservation, commit(sheet), Err(refusal));
    vec![
        closed("none open", &chain(30, 1)),
        closed("none open, an empty sheet", ""),
        closed("none open, a fault", &kind_3(30)),
        closed("none open, a driven net", &chain(20, 1)),
        refused("an empty sheet", LIST, of(1, 30), "", Refusal::new(1, 0, 1)),
        refused("a fault", LIST, of(1, 30), &kind_3(30), Refusal::new(6, 0, 2)),
        refused("a fault, and another net", LIST, of(1, 30), &kind_3(31), Refusal::new(6, 0, 2)),
        refused("a fault on the last line, and another net", LIST, of(1, 30), &(chain(31, 1) + " "), Refusal::new(1, 0, 3)),
        refused("another net", LIST, of(1, 30), &chain(31, 1), refusal(36)),
        refused("36 before 21", LIST, of(1, 30), &chain(20, 1), refusal(36)),
        refused("36 before 22", LIST, of(1, 30), &chain(5, 1), refusal(36)),
        refused("36 before 23", &empty(2, 1), of(1, 30), &chain(31, 2), refusal(36)),
        refused("the net driven since", LIST, of(1, 20), &chain(20, 1), refusal(21)),
        refused("the net read since", LIST, of(1, 5), &chain(5, 1), refusal(22)),
        refused("a table more than are not used", &empty(2, 3), of(3, 30), &chain(30, 4), refusal(23)),
        refused("21 before 23", &(line(&[2, 3, 2]) + &tables(1, 30, 2)), of(1, 30), &chain(30, 2), refusal(21)),
    ]
}

fn withdrawn() -> Vec<ByHand> {
    let withdrawal = |what, reservation, wanted| case(what, LIST, reservation, Call::Withdraw, wanted);
    vec![
        withdrawal("a withdrawal", of(1, 30), Ok((String::new(), NONE))),
        withdrawal("a withdrawal of all tables left", of(6, 9999), Ok((String::new(), NONE))),
        withdrawal("a withdrawal of a net that is driven", of(6, 20), Ok((String::new(), NONE))),
        withdrawal("a withdrawal with none open", NONE, Err(refusal(36))),
    ]
}

/// Sets find only what is neither used nor set aside, and the reservation stays.
fn beside() -> Vec<ByHand> {
    let list = empty(2, 3);
    let given = |what, reservation, sheets: &[String], wanted| case(what, &list, reservation, set(sheets), wanted);
    let too_few = |position| Err(Refusal::new(23, position, 0));
    let one_more = [chain(31, 1), one_gate(32, OR, &[31, 30])];
    let two = line(&[2, 3, 2]) + &tables(1, 31, 1) + &table(2, 32, &[30, 31], "14");
    vec![
        given("all that is left", of(1, 30), &[chain(31, 2)], Ok((line(&[2, 3, 2]) + &tables(1, 31, 2), of(1, 30)))),
        given("one table set aside is needed", of(2, 30), &[chain(31, 2)], too_few(1)),
        given("all tables set aside are needed", of(2, 30), &[chain(31, 3)], too_few(1)),
        given("more than are not used", of(2, 30), &[chain(31, 4)], too_few(1)),
        given("nothing is left", of(3, 30), &[chain(31, 1)], too_few(1)),
        given("nothing is reserved", NONE, &[chain(31, 3)], Ok((line(&[2, 3, 3]) + &tables(1, 31, 3), NONE))),
        given("the second sheet needs one", of(2, 30), &[chain(31, 1), one_gate(32, AND, &[1, 2])], too_few(2)),
        given("the second sheet reads the reserved net", of(1, 30), &one_more, Ok((two, of(1, 30)))),
        given("the reserved net", of(1, 30), &[chain(30, 2)], Ok((line(&[2, 3, 2]) + &tables(1, 30, 2), of(1, 30)))),
        given("the reserved net needs a table set aside", of(1, 30), &[chain(30, 3)], too_few(1)),
        given("33", of(1, 30), &[], Err(refusal(33))),
    ]
}

/// 20 comes before all else but the list's: more tables than are not used, just one zero, and what is no net.
fn not_sound() -> Vec<ByHand> {
    let calls = || [Call::Withdraw, reserve(&kind_3(20)), commit(&kind_3(20)), set(&[])];
    let full = line(&[2, 2, 2]) + &tables(1, 30, 2);
    let unsound = [
        (LIST, of(7, 30)),
        (LIST, of(8, 30)),
        (LIST, of(u16::MAX, 30)),
        (LIST, of(0, 30)),
        (LIST, of(1, 0)),
        (LIST, of(1, 10000)),
        (LIST, of(0, u16::MAX)),
        (&full, of(1, 31)),
    ];
    let refused = |(list, reservation)| calls().map(|call| case("no reservation of the part", list, reservation, call, Err(refusal(20))));
    unsound.into_iter().flat_map(refused).collect()
}

/// The list comes before the reservation.
fn damaged_lists() -> Vec<ByHand> {
    let refused = |what, list: &str, reservation, call, line| case(what, list, reservation, call, Err(Refusal::new(31, 0, line)));
    let cut = &LIST[..LIST.len() - 1];
    vec![
        refused("a cut list", cut, of(1, 30), Call::Withdraw, 2),
        refused("a cut list, 20", cut, of(0, 30), Call::Withdraw, 2),
        refused("a cut list, 35", cut, of(1, 30), reserve(""), 2),
        refused("a cut list, 36", cut, NONE, commit(""), 2),
        refused("no list, 33", "", NONE, set(&[]), 0),
        case("K 7", &empty(7, 8), of(9, 0), Call::Withdraw, Err(refusal(2))),
        case("capacity 801", &empty(4, 801), of(9, 0), reserve(""), Err(refusal(3))),
        case("used above capacity", &line(&[4, 8, 9]), of(9, 0), commit(""), Err(refusal(32))),
    ]
}
