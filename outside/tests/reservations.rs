//! Reservations (request 109): by hand, generated sequences of calls, the guarantee, and ways of making calls that are wrong.

mod common;

use std::collections::BTreeSet;
use std::ops::Range;

use common::reservations::{check_by_hand, check_sale, check_short_outputs};
use common::ways::{first, keeps_guarantee, placeless, refused_if, right, way, with_after, with_numbers, with_refusal, Asked, Given};
use common::{line, one_gate, AND};
use outside::call_cases::{kinds, sequence};
use outside::call_check::{own, Perform, Walk};
use outside::least::least;
use outside::list;
use outside::part::Part;
use outside::refusal::Refusal;
use outside::reservation::{Call, Reservation, State};
use outside::set::add_set;
use outside::set_check::LONGEST;
use outside::sheet::read_only;

#[test]
fn calls_by_hand() {
    check_by_hand(&own);
}

#[test]
fn short_outputs() {
    check_short_outputs(&own);
}

#[test]
fn a_sale() {
    check_sale(&own);
}

/// A list shows no reservation, and read back none is open.
#[test]
fn read_back() {
    let part = list::read(line(&[4, 8, 0]).as_bytes()).expect("a list");
    let state = State { part, reservation: Reservation::NONE };
    let after = state.after(&Call::Reserve { text: one_gate(30, AND, &[1, 2]).into() }).expect("a reservation");
    assert_eq!(after.reservation, Reservation { tables: 1, net: 30 });
    assert_eq!(list::read(after.part.list().as_bytes()), Ok(state.part));
}

/// An accepted commit gives what a set of that one sheet gives where nothing is reserved, whatever is set aside.
#[test]
fn a_commit_is_an_add() {
    let part = Part { k: 3, capacity: 300, tables: Vec::new() };
    let mut compared = 0;
    for step in (0..600).flat_map(|index| sequence(4, index).steps) {
        let (Call::Commit { text }, Some(Ok(_))) = (&step.call, step.wanted) else { continue };
        let net = read_only(text).expect("a sheet").net;
        let added = add_set(&part, text, &[text.len() as u32]);
        for tables in [1, 300] {
            let state = State { part: part.clone(), reservation: Reservation { tables, net } };
            assert_eq!(state.after(&step.call).map(|after| after.part), added);
        }
        compared += 1;
    }
    assert!(compared > 100, "{compared}");
}

#[test]
fn generated_sequences() {
    let mut output = vec![0; LONGEST];
    let mut seen = BTreeSet::new();
    let mut outcomes = BTreeSet::new();
    for index in 0..2500 {
        let sequence = sequence(1, index);
        let mut walk = Walk::of(&own, &sequence);
        for step in &sequence.steps {
            let outcome = walk.step(step, &mut output);
            assert!(outcome.is_ok(), "{} in {index}: {outcome:?}", step.kind);
            seen.insert(step.kind);
            outcomes.extend(outcome);
        }
    }
    assert_eq!(seen, kinds().collect());
    assert_eq!(outcomes, (0..=13).chain(20..=23).chain(31..=33).chain([35, 36]).collect());
}

#[test]
fn the_right_way() {
    assert!(right(&own) && keeps_guarantee(&own));
    assert!(right(&*with_refusal(|_, refusal| refusal)) && right(&*with_numbers(|asked| asked.reservation)));
    assert!(right(&*with_after(|_, after, _| after)) && right(&*refused_if(placeless(23), |_, _, _| false)));
    assert!(right(&*first(20, |_| false)));
}

type Ways = Vec<(&'static str, Box<Perform>)>;

/// Fails where one of these ways answers rightly on all sequences.
fn each_is_found(ways: Ways) {
    for (name, wrong) in ways {
        assert!(!right(&*wrong), "{name}");
    }
}

#[test]
fn wrong_orders() {
    each_is_found(vec![
        ("20 before the list", first(20, |asked| (asked.reservation.tables == 0) != (asked.reservation.net == 0))),
        ("35 before 20", first(35, |asked| asked.is_reservation() && asked.part().is_some() && asked.reservation.tables > 0)),
        ("36 before 20", first(36, none_to_close)),
        ("33 before 20", first(33, |asked| asked.part().is_some() && is_without_lengths(asked))),
        ("35 after the sheet's own", way(|asked, output| refused_after(asked, 35, 0..20, output))),
        ("35 after 21 to 23", way(|asked, output| refused_after(asked, 35, 21..24, output))),
        ("36 with none open after the sheet's own", way(|asked, output| none_open_after(asked, 0..20, output))),
        ("36 with none open after 21 to 23", way(|asked, output| none_open_after(asked, 21..24, output))),
        ("36 for another net before the sheet's own", first(36, |asked| asked.is_open() && is_of_another_net(asked))),
        ("36 for another net after 21 and 22", way(|asked, output| another_net_after(asked, 21..23, output))),
        ("36 for another net after 23", way(|asked, output| another_net_after(asked, 23..24, output))),
        ("14 before the others", way(no_room_first)),
    ]);
}

/// A commit or a withdrawal where no table is set aside.
fn none_to_close(asked: &Asked) -> bool {
    (asked.is_commit() || asked.is_withdrawal()) && asked.part().is_some() && asked.reservation.tables == 0
}

fn is_without_lengths(asked: &Asked) -> bool {
    matches!(asked.call, Call::AddSet { lengths, .. } if lengths.is_empty())
}

fn is_of_another_net(asked: &Asked) -> bool {
    asked.is_commit() && asked.net().is_some_and(|net| net != asked.reservation.net)
}

/// Where a reservation or a commit is refused with this number: the refusal that it would have otherwise, if that is one of these.
fn refused_after(asked: &Asked, number: u32, earlier: Range<u32>, output: &mut [u8]) -> Given {
    let answer = asked.own(output);
    let Some(text) = asked.text().filter(|_| answer == Err(placeless(number))) else { return answer };
    match own(asked.list, Reservation::NONE, &Call::Reserve { text: text.into() }, output) {
        Err(other) if earlier.contains(&other.number) => Err(other),
        _ => answer,
    }
}

fn none_open_after(asked: &Asked, earlier: Range<u32>, output: &mut [u8]) -> Given {
    if asked.is_open() {
        return asked.own(output);
    }
    refused_after(asked, 36, earlier, output)
}

fn another_net_after(asked: &Asked, earlier: Range<u32>, output: &mut [u8]) -> Given {
    if !asked.is_open() {
        return asked.own(output);
    }
    refused_after(asked, 36, earlier, output)
}

fn no_room_first(asked: &Asked, output: &mut [u8]) -> Given {
    if asked.call.adds() && output.len() < asked.list.len() {
        return Err(placeless(14));
    }
    asked.own(output)
}

#[test]
fn wrong_refusals() {
    each_is_found(vec![
        ("36 as 35", with_refusal(|_, refusal| renumbered(refusal, 36, 35))),
        ("35 as 36", with_refusal(|_, refusal| renumbered(refusal, 35, 36))),
        ("22 as 21 at a commit", with_refusal(|asked, refusal| if asked.is_commit() { renumbered(refusal, 22, 21) } else { refusal })),
        ("no places", with_refusal(|asked, refusal| if asked.is_set() { refusal } else { Refusal { place: 0, ..refusal } })),
        ("position 1 in any call", with_refusal(|_, refusal| Refusal { sheet: refusal.sheet.max(1), ..refusal })),
        ("no positions", with_refusal(|_, refusal| Refusal { sheet: 0, ..refusal })),
    ]);
}

fn renumbered(refusal: Refusal, from: u32, to: u32) -> Refusal {
    Refusal { number: if refusal.number == from { to } else { refusal.number }, ..refusal }
}

#[test]
fn wrong_soundness() {
    each_is_found(vec![
        ("a net without tables is none", with_numbers(|asked| asked.none_if(asked.reservation.tables == 0))),
        ("tables without a net are none", with_numbers(|asked| asked.none_if(asked.reservation.net == 0))),
        ("any net", with_numbers(|asked| Reservation { net: asked.reservation.net.min(9999), ..asked.reservation })),
        ("as many tables as the capacity", with_numbers(up_to_capacity)),
        ("fewer than all tables left", first(20, |asked| asked.is_open() && asked.reservation.tables == asked.left())),
        ("a net that is not driven", first(20, |asked| asked.is_open() && asked.part().is_some_and(|part| drives(&part, asked)))),
        ("no test", with_numbers(|asked| asked.none_if(!asked.is_sound()))),
    ]);
}

/// More tables than are not used, but no more than the capacity, are taken for all that are not used.
fn up_to_capacity(asked: &Asked) -> Reservation {
    let Reservation { tables, net } = asked.reservation;
    let within = asked.part().is_some_and(|part| usize::from(tables) <= part.capacity);
    Reservation { tables: if within { tables.min(asked.left()) } else { tables }, net }
}

fn drives(part: &Part, asked: &Asked) -> bool {
    part.driven().contains(&asked.reservation.net)
}

/// Ways that break the guarantee.
fn without_guarantee() -> Ways {
    vec![
        ("sets find all that is not used", with_numbers(|asked| asked.none_if(asked.is_set() && asked.is_sound()))),
        ("the later sheets of a set find all that is not used", way(later_find_all)),
        (
            "a commit finds what is left beside",
            refused_if(placeless(23), |asked, _, written| {
                asked.is_commit() && asked.added(written) > asked.left() - asked.reservation.tables
            }),
        ),
        ("a table fewer is set aside", with_after(|asked, after, _| set_aside(asked, after, after.tables.saturating_sub(1).max(1)))),
    ]
}

#[test]
fn a_broken_guarantee() {
    for (name, wrong) in without_guarantee() {
        assert!(!keeps_guarantee(&*wrong), "{name}");
    }
    each_is_found(without_guarantee());
}

/// After a reservation so many tables are set aside.
fn set_aside(asked: &Asked, after: Reservation, tables: u16) -> Reservation {
    Reservation { tables: if asked.is_reservation() { tables } else { after.tables }, ..after }
}

/// The first sheet of a set finds what is left beside the reservation, the others all that is not used.
fn later_find_all(asked: &Asked, output: &mut [u8]) -> Given {
    let answer = asked.own(output);
    let (Call::AddSet { text, lengths }, Err(Refusal { number: 23, sheet: 2.., .. })) = (asked.call, answer) else { return answer };
    let (one, others) = text.split_at(lengths[0] as usize);
    let mut list = vec![0; LONGEST];
    let only = Call::AddSet { text: one.into(), lengths: lengths[..1].into() };
    let (count, _) = own(asked.list, asked.reservation, &only, &mut list)?;
    let later = Call::AddSet { text: others.into(), lengths: lengths[1..].into() };
    own(&list[..count], Reservation::NONE, &later, output).map(|(count, _)| (count, asked.reservation)).or(answer)
}

#[test]
fn wrong_reservations() {
    each_is_found(vec![
        ("a second one takes the place of the first", with_numbers(|asked| asked.none_if(asked.is_reservation() && asked.is_sound()))),
        ("one of the reserved net is made anew", with_numbers(|asked| asked.none_if(asked.is_reservation() && is_reserved(asked)))),
        ("a table more is set aside", with_after(|asked, after, _| set_aside(asked, after, (after.tables + 1).min(asked.left())))),
        ("all tables left are set aside", with_after(|asked, after, _| set_aside(asked, after, asked.left()))),
        ("the number of the sheet as drawn", with_after(|asked, after, _| set_aside(asked, after, as_drawn(asked).unwrap_or_default()))),
        ("no 23", way(without_23)),
        ("23 for all tables left", refused_if(placeless(23), |asked, after, _| asked.is_reservation() && after.tables == asked.left())),
        ("the tables are added", way(with_tables)),
        ("a withdrawal closes nothing", with_after(|asked, after, _| if asked.is_withdrawal() { asked.reservation } else { after })),
        ("a withdrawal leaves the net", with_after(|asked, after, _| Reservation { net: net_left(asked, after), ..after })),
        ("a withdrawal with none open", way(|asked, output| if is_idle(asked) { Ok((0, Reservation::NONE)) } else { asked.own(output) })),
    ]);
}

fn is_reserved(asked: &Asked) -> bool {
    asked.is_open() && asked.net() == Some(asked.reservation.net)
}

/// The least number of the sheet as it is drawn.
fn as_drawn(asked: &Asked) -> Option<u16> {
    Some(least(&read_only(asked.text()?).ok()?, asked.part()?.k) as u16)
}

/// A reservation that finds too few tables sets aside what there is.
fn without_23(asked: &Asked, output: &mut [u8]) -> Given {
    let answer = asked.own(output);
    let short = asked.is_reservation() && answer == Err(placeless(23)) && asked.left() > 0;
    asked.net().filter(|_| short).map_or(answer, |net| Ok((0, Reservation { tables: asked.left(), net })))
}

/// A reservation adds its sheet too.
fn with_tables(asked: &Asked, output: &mut [u8]) -> Given {
    let (count, after) = asked.own(output)?;
    match asked.as_set().filter(|_| asked.is_reservation()) {
        Some(set) => own(asked.list, Reservation::NONE, &set, output).map(|(count, _)| (count, after)),
        None => Ok((count, after)),
    }
}

fn net_left(asked: &Asked, after: Reservation) -> u16 {
    if asked.is_withdrawal() {
        asked.reservation.net
    } else {
        after.net
    }
}

fn is_idle(asked: &Asked) -> bool {
    asked.is_withdrawal() && asked.is_sound()
}

#[test]
fn wrong_commits() {
    each_is_found(vec![
        ("no more than is set aside", refused_if(placeless(23), |asked, _, written| commits(asked, written) > asked.reservation.tables)),
        (
            "no fewer than are set aside",
            refused_if(placeless(36), |asked, _, written| (1..asked.reservation.tables).contains(&commits(asked, written))),
        ),
        ("the reservation stays", with_after(|asked, after, _| if asked.is_commit() { asked.reservation } else { after })),
        (
            "what is not needed stays set aside",
            with_after(|asked, after, written| if asked.is_commit() { rest(asked, written) } else { after }),
        ),
        ("none is inverted", refused_if(placeless(36), |asked, _, _| asked.is_commit() && asked.first_field() < Some(0))),
        ("any net", way(commit_any_net)),
        ("an add with none open", way(commit_with_none_open)),
    ]);
}

/// The tables that a commit added.
fn commits(asked: &Asked, written: &[u8]) -> u16 {
    if asked.is_commit() {
        asked.added(written)
    } else {
        0
    }
}

/// What a commit did not need of the tables set aside.
fn rest(asked: &Asked, written: &[u8]) -> Reservation {
    match asked.reservation.tables.saturating_sub(asked.added(written)) {
        0 => Reservation::NONE,
        tables => Reservation { tables, ..asked.reservation },
    }
}

fn commit_any_net(asked: &Asked, output: &mut [u8]) -> Given {
    match asked.net().filter(|_| asked.is_commit() && asked.is_open()) {
        Some(net) => asked.with(Reservation { net, ..asked.reservation }, output),
        None => asked.own(output),
    }
}

fn commit_with_none_open(asked: &Asked, output: &mut [u8]) -> Given {
    let idle = asked.is_commit() && asked.is_sound() && !asked.is_open();
    match asked.as_set().filter(|_| idle) {
        Some(set) => own(asked.list, Reservation::NONE, &set, output).map_err(|refusal| Refusal { sheet: 0, ..refusal }),
        None => asked.own(output),
    }
}

#[test]
fn wrong_sets() {
    each_is_found(vec![
        ("the reserved net is turned away", refused_if(Refusal::new(21, 1, 0), |asked, _, written| asked.drives_reserved(written))),
        (
            "the reserved net closes the reservation",
            with_after(|asked, after, written| if asked.drives_reserved(written) { Reservation::NONE } else { after }),
        ),
        ("the reserved net finds all that is not used", way(reserved_net_finds_all)),
        ("tables set aside are taken", with_after(|asked, after, written| if asked.is_set() { rest(asked, written) } else { after })),
        ("a set closes the reservation", with_after(|asked, after, _| if asked.is_set() { Reservation::NONE } else { after })),
        (
            "a table fewer is found",
            refused_if(Refusal::new(23, 1, 0), |asked, _, written| {
                asked.is_set() && asked.is_open() && asked.added(written) == asked.left() - asked.reservation.tables
            }),
        ),
    ]);
}

/// A set that drives the reserved net may use the tables set aside.
fn reserved_net_finds_all(asked: &Asked, output: &mut [u8]) -> Given {
    let mut written = vec![0; LONGEST];
    let drives = asked.with(Reservation::NONE, &mut written).is_ok_and(|(count, _)| asked.drives_reserved(&written[..count]));
    asked.with(asked.none_if(drives), output)
}
