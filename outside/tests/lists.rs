//! Reading a list back (request 101): each refusal with its line, each pair of faults whose order 101 settles, generated texts, and readers
//! that are wrong.

mod common;

use common::{line, table, LIST};
use outside::level::levels;
use outside::list::{self, Answer, Fault, Kind};
use outside::list_cases::cases;
use outside::list_check::{check_own, check_reader, numbers, Check, Read, Reader, NUMBERS};
use outside::part::Table;

fn taken(text: &str) -> bool {
    list::read(text.as_bytes()).is_ok_and(|part| part.list() == text)
}

fn refuses(text: &str, number: u32, line: usize) {
    let fault = list::read(text.as_bytes()).expect_err(text);
    assert_eq!(fault.refusal(), (number, line), "{text}");
}

/// Reads one table line in a part of K 4 and capacity 8.
fn refuses_line(table: &str, number: u32) {
    refuses(&(line(&[4, 8, 1]) + table), number, 1);
}

#[test]
fn good_lists() {
    assert!(taken(LIST));
    assert!(taken("     2     1     0\n") && taken("     6   800     0\n"));
    assert!(taken(&(line(&[2, 1, 1]) + &table(1, 9999, &[1, 9998], "15"))));
    assert!(taken(&(line(&[6, 1, 1]) + &table(1, 0, &[1, 2, 3, 4, 5, 6], "18446744073709551615"))));
    assert!(taken(&(line(&[2, 8, 2]) + &table(1, 0, &[1, 2], "8") + &table(2, 9, &[1, 10001], "0"))));
    let full: String = (1..=800).map(|t| table(t, 0, &[1, 2], "8")).collect();
    assert!(taken(&(line(&[2, 800, 800]) + &full)));
}

#[test]
fn the_part_of_the_example() {
    let part = list::read(LIST.as_bytes()).expect("a list");
    assert_eq!(numbers(&part), [4, 8, 2, 20, 4, 1, 2, 3, 4, 0, 0, 61152, 1, 21, 2, 5, 20, 0, 0, 0, 0, 11, 2]);
}

#[test]
fn half_a_list_is_none() {
    for at in 0..LIST.len() {
        let line = LIST[..at].matches('\n').count();
        refuses(&LIST[..at], 31, line);
    }
}

#[test]
fn line_0() {
    let bad = [
        "",
        "\n",
        "     4     8     0",
        "     4     8\n",
        "     4     8     0     0\n",
        "     4     8    00\n",
        "    04     8     0\n",
        "     4    +8     0\n",
        "     4    -8     0\n",
        "    -4     8     0\n",
        "     4     8    -0\n",
        "     4     8      \n",
        "4         8     0\n",
        "     4     8     0 \n",
        "     4     8     0\r\n",
        "     4\t    8     0\n",
        "     4     8\0    0\n",
        "    4     8     0\n",
    ];
    for text in bad {
        refuses(text, 31, 0);
    }
    for k in [0, 1, 7, 258, 999999] {
        refuses(&line(&[k, 8, 0]), 2, 0);
    }
    for capacity in [0, 801, 65537, 999999] {
        refuses(&line(&[4, capacity, 0]), 3, 0);
    }
    refuses(&line(&[4, 8, 9]), 32, 0);
    refuses(&line(&[4, 8, 999999]), 32, 0);
    refuses(&line(&[4, 800, 801]), 32, 0);
}

#[test]
fn the_order_on_line_0() {
    refuses("     7   801   802", 31, 0);
    refuses("     7   801   -02\n", 31, 0);
    refuses(&line(&[7, 801, 802]), 2, 0);
    refuses(&line(&[4, 801, 802]), 3, 0);
    refuses(&(line(&[4, 1, 2]) + "bad"), 32, 0);
    refuses(&line(&[4, 8, 1]), 31, 1);
}

#[test]
fn the_layout_of_a_line() {
    let good = table(1, 9, &[1, 2], "8");
    let bad = [
        "".into(),
        "\n".into(),
        good.replace('\n', ""),
        good.replace('\n', " \n"),
        good.replace('\n', "\r\n"),
        good.replace(" 8\n", "8\n"),
        good.replace(" 8\n", "08\n"),
        good.replace(" 8\n", "-8\n"),
        good.replace("8\n", " \n"),
        good.replace("     9", "    09"),
        good.replace("     9", "    -9"),
        good.replace("     9", "     +"),
        good.replace("     2    ", "    +2    "),
        table(0, 9, &[1, 2], "8"),
        table(2, 9, &[1, 2], "8"),
        table(65537, 9, &[1, 2], "8"),
        table(1, 9, &[], "0"),
        table(1, 9, &[1], "1"),
        table(1, 9, &[1, 2, 3, 4, 5, 6, 7], "8"),
        table(1, 9, &[-1, 2], "8"),
        table(1, 9, &[1, 2], "18446744073709551616"),
        table(1, 9, &[1, 2], "18446744073709551624"),
        table(1, 9, &[1, 2], "100000000000000000000"),
        table(1, 9, &[1, 2, 3], "8").replace("     3     1", "     2     1"),
        table(1, 9, &[1, 2], "8").replace("     2     1", "     3     1"),
    ];
    assert!(taken(&(line(&[4, 8, 1]) + &good)));
    for text in bad {
        refuses_line(&text, 31);
    }
}

#[test]
fn the_rules() {
    refuses_line(&table(1, 9, &[1, 2, 3, 4, 5], "8"), 32);
    refuses_line(&table(1, 9, &[1, 2], "16"), 32);
    refuses_line(&table(1, 9, &[1, 2], "18446744073709551615"), 32);
    refuses_line(&table(1, 9, &[1, 2, 3], "256"), 32);
    refuses_line(&table(1, 9, &[1, 2, 3, 4], "65536"), 32);
    for net in [10000, 10001, 65536, 65545, 999999] {
        refuses_line(&table(1, net, &[1, 2], "8"), 32);
    }
    for input in [10000, 10001, 10002, 10800, 10801, 65535, 65536, 65538, 999999] {
        refuses_line(&table(1, 9, &[1, input], "8"), 32);
    }
    refuses_line(&table(1, 9, &[0, 1], "8"), 32);
    refuses_line(&table(1, 9, &[2, 2], "8"), 32);
    refuses_line(&table(1, 9, &[2, 1], "8"), 32);
    refuses_line(&table(1, 9, &[1, 9], "8"), 32);
}

#[test]
fn rules_of_two_lines() {
    let two = |first: &str, second: &str| line(&[4, 8, 2]) + first + second;
    let drives = table(1, 9, &[1, 2], "8");
    let bare = table(1, 0, &[1, 2], "8");
    assert!(taken(&two(&drives, &table(2, 8, &[1, 9], "8"))));
    assert!(taken(&two(&bare, &table(2, 8, &[1, 10001], "8"))));
    assert!(taken(&two(&bare, &table(2, 0, &[1, 2], "8"))));
    refuses(&two(&drives, &table(2, 9, &[3, 4], "8")), 32, 2);
    refuses(&two(&drives, &table(2, 1, &[3, 4], "8")), 32, 2);
    refuses(&two(&drives, &table(2, 8, &[1, 10001], "8")), 32, 2);
    refuses(&two(&bare, &table(2, 8, &[1, 10002], "8")), 32, 2);
    refuses(&two(&table(1, 0, &[1, 10002], "8"), &table(2, 8, &[3, 4], "8")), 32, 1);
}

#[test]
fn the_order_of_lines() {
    let (good, unsound, bad) = (table(1, 9, &[1, 2], "8"), table(1, 10000, &[1, 2], "8"), "     1\n");
    let unsound_2 = table(2, 10000, &[1, 2], "8");
    refuses(&(line(&[4, 8, 2]) + &unsound + bad), 32, 1);
    refuses(&(line(&[4, 8, 2]) + bad + &unsound_2), 31, 1);
    refuses(&(line(&[4, 8, 2]) + &unsound), 32, 1);
    refuses(&(line(&[4, 8, 2]) + &good), 31, 2);
    refuses(&(line(&[4, 8, 1]) + &unsound + "x"), 32, 1);
    refuses(&(line(&[4, 8, 1]) + &good + "x"), 31, 2);
    refuses(&(line(&[4, 8, 1]) + &good + "\n"), 31, 2);
    refuses(&(line(&[4, 8, 0]) + &good), 31, 1);
    refuses(&(line(&[4, 8, 0]) + "\0"), 31, 1);
}

/// On a line every fault of layout comes before every rule, wherever it stands.
#[test]
fn the_order_on_a_line() {
    refuses_line(&table(2, 10000, &[1, 2], "8"), 31);
    refuses_line(&table(1, 10000, &[2, 1], "18446744073709551616"), 31);
    refuses_line(&table(1, 10000, &[1, 2], "-8"), 31);
    refuses_line(&table(1, 10000, &[1, 2], "8").replace('\n', ""), 31);
    refuses_line(&table(1, 9, &[1, 2, 3, 4, 5], "08"), 31);
    refuses_line(&table(1, 9, &[0, 10009], "16").replace("10009", "010009"), 31);
}

#[test]
fn generated_texts() {
    let mut seen = Vec::new();
    for index in 0..60 {
        for case in cases(1, index) {
            assert_eq!(check_own(&case), Ok(()), "{} of list {index}: {:?}", case.name, String::from_utf8_lossy(&case.text));
            seen.extend(list::read(&case.text).err().map(|fault| fault.kind));
            seen.sort();
            seen.dedup();
        }
    }
    assert_eq!(seen, Vec::from_iter(Kind::all()));
}

/// A reader in the archive's place.
fn check(text: &[u8]) -> Answer<()> {
    list::read(text).map(|_| ()).map_err(Fault::refusal)
}

fn read(text: &[u8], room: &mut [u64]) -> Answer<usize> {
    check(text)?;
    let numbers = numbers(&list::read(text).expect("a list"));
    room.get_mut(..numbers.len()).ok_or((14, 0))?.copy_from_slice(&numbers);
    Ok(numbers.len())
}

/// Whether the reader answers rightly on the texts of some lists.
fn right(check: &Check, read: &Read) -> bool {
    let mut room = vec![0; NUMBERS];
    let texts = (0..40).flat_map(|index| cases(2, index)).map(|case| case.text);
    texts.into_iter().all(|text| check_reader(&Reader { check, read }, &text, &mut room).is_ok())
}

#[test]
fn the_right_reader() {
    assert!(right(&check, &read));
}

#[test]
fn wrong_answers() {
    let wrong: [&Check; 7] = [
        &|_| Ok(()),
        &|_| Err((31, 0)),
        &|text| check(text).map_err(|(number, line)| (number, line.min(800))),
        &|text| check(text).or_else(|refused| if refused.0 == 32 { Ok(()) } else { Err(refused) }),
        &|text| check(text).map_err(|(number, line)| (number.min(31), line)),
        &|text| check(&[text, b"\n"].concat()).or(check(text)),
        &|text| check(&text[..text.iter().rposition(|&byte| byte == b'\n').map_or(0, |end| end + 1)]),
    ];
    for (index, wrong) in wrong.iter().enumerate() {
        assert!(!right(wrong, &read), "wrong check {index}");
    }
}

#[test]
fn wrong_numbers() {
    let wrong: [&Read; 5] = [
        &|text, room| if room.is_empty() { Err((14, 0)) } else { read(text, room) },
        &|text, room| read(text, room).inspect_err(|_| room.fill(0)),
        &|text, room| read(text, room).inspect(|&count| room[count..].fill(0)),
        &|text, room| read(text, room).inspect(|_| room.swap(0, 1)),
        &|text, room| read(text, room).or_else(|refused| if refused.0 == 14 { Ok(0) } else { Err(refused) }),
    ];
    for (index, wrong) in wrong.iter().enumerate() {
        assert!(!right(&check, wrong), "wrong read {index}");
    }
}

/// What makes levels of a list's tables.
type Levels = fn(Vec<Table>) -> Vec<usize>;

/// The reader with these levels.
fn read_with(levels: Levels, text: &[u8], room: &mut [u64]) -> Answer<usize> {
    let count = read(text, room)?;
    let tables = list::read(text).expect("a list").tables;
    for (numbers, level) in room[3..count].chunks_mut(10).zip(levels(tables)) {
        numbers[9] = level as u64;
    }
    Ok(count)
}

/// The levels of the tables as `change` leaves them.
fn changed(change: fn(&mut Table), mut tables: Vec<Table>) -> Vec<usize> {
    tables.iter_mut().for_each(change);
    levels(&tables)
}

#[test]
fn wrong_levels() {
    let wrong: [(&str, Levels); 8] = [
        ("from 0", |tables| levels(&tables).iter().map(|level| level - 1).collect()),
        ("all 1", |tables| vec![1; tables.len()]),
        ("the line's number", |tables| (1..=tables.len()).collect()),
        ("in a byte", |tables| levels(&tables).iter().map(|level| level % 256).collect()),
        ("driven nets taken for free ones", |tables| changed(|table| table.net = 0, tables)),
        ("tables not counted", |tables| changed(|table| table.inputs.retain(|&input| input < 10_000), tables)),
        ("of the first input alone", |tables| changed(|table| table.inputs.truncate(1), tables)),
        ("of the last input alone", |tables| changed(|table| drop(table.inputs.drain(..table.inputs.len() - 1)), tables)),
    ];
    assert!(right(&check, &|text, room| read_with(|tables| levels(&tables), text, room)));
    for (name, wrong) in wrong {
        assert!(!right(&check, &move |text, room| read_with(wrong, text, room)), "{name}");
    }
}
