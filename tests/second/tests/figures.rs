//! Bounds, tables, sequences and the plain reckoner where a wrong method gives another figure.

mod common;

use common::{machine, pair, place, sheet, Row};
use second::bounds::{critical, demand, plain, request, table};
use second::sheet::{Refusal, Sheet};

fn one(states: usize, rows: &[Row]) -> Sheet {
    sheet(&[machine(states, rows)])
}

/// Number and place of a refusal.
fn refused<T: std::fmt::Debug>(reply: Result<T, Refusal>) -> (u32, u32, u32) {
    place(reply.expect_err("the question is refused"))
}

fn pairs(sheet: &Sheet, number: u32, start: u32, end: u32) -> Vec<(usize, u32)> {
    let sequence = critical(sheet, number, start, end, 4_096).expect("the window is right");
    sequence.iter().map(|p| (p.action, p.instant)).collect()
}

#[test]
fn windows_of_requests_and_demands() {
    let pair = pair();
    for ask in [request, demand] {
        // The machine is looked at before the window.
        assert_eq!(refused(ask(&pair, 2, 5, 4)), (10, 0, 0));
        assert_eq!(refused(ask(&pair, u32::MAX, 0, 1)), (10, 0, 0));
        for (start, end) in [
            (7, 3),
            (0, 2_049),
            (1_000_000, 1_000_001),
            (1_000_001, 1_000_001),
            (997_951, 1_000_000),
            (0, u32::MAX),
            (u32::MAX, 0),
            (u32::MAX, u32::MAX),
        ] {
            assert_eq!(refused(ask(&pair, 1, start, end)), (11, 0, 0));
        }
        assert_eq!(ask(&pair, 1, 1_000_000, 1_000_000), Ok(0));
        assert!(ask(&pair, 1, 997_952, 1_000_000).is_ok());
    }
    assert_eq!(request(&pair, 1, 0, 2_048), Ok(271));
}

#[test]
fn requests() {
    let pair = pair();
    assert_eq!(request(&pair, 1, 80, 121), Ok(13));
    // Waiting is allowed.
    let waits = one(2, &[(0, 1, 1, 1, 1), (0, 0, 2, 2, 1)]);
    assert_eq!(request(&waits, 0, 1, 3), Ok(2));
    // The dearest action first is not best.
    let loses = one(2, &[(1, 0, 2, 2, 1), (1, 1, 1, 2, 1)]);
    assert_eq!(request(&loses, 0, 0, 2), Ok(4));
}

#[test]
fn demands() {
    let two_deadlines = one(1, &[(0, 0, 2, 3, 1), (0, 0, 2, 1, 2)]);
    assert_eq!(demand(&two_deadlines, 0, 0, 1), Ok(3));
    let short = one(1, &[(0, 0, 4, 2, 1)]);
    assert_eq!(demand(&short, 0, 0, 1), Ok(2));
    let long = one(1, &[(0, 0, 2, 1, 2)]);
    assert_eq!(demand(&long, 0, 0, 2), Ok(1));
}

#[test]
fn tables() {
    let pair = pair();
    let words = table(&pair, 1, 80, 21, 24).expect("there is room");
    let right: Vec<u32> = (0..=21)
        .map(|n| request(&pair, 1, 80, 80 + n).unwrap())
        .collect();
    assert_eq!(words, right);
    assert_eq!(
        (words.len(), words[0], words[1], words[20], words[21]),
        (22, 0, 5, 5, 8)
    );
    assert!(table(&pair, 1, 80, 21, 22).is_ok());
    assert_eq!(refused(table(&pair, 1, 80, 21, 21)), (12, 0, 0));
    assert_eq!(refused(table(&pair, 1, 0, 1, 1)), (12, 0, 0));
    // Windows come before room, machines before windows.
    assert_eq!(refused(table(&pair, 1, 0, 2_049, 0)), (11, 0, 0));
    assert_eq!(refused(table(&pair, 2, 0, 2_049, 0)), (10, 0, 0));
    // In 32 bits these sums wrap to windows that would be right.
    assert_eq!(refused(table(&pair, 1, u32::MAX, 1, 2)), (11, 0, 0));
    assert_eq!(refused(table(&pair, 1, 1, u32::MAX, 9)), (11, 0, 0));
    assert_eq!(table(&pair, 1, 1_000_000, 0, 1), Ok(vec![0]));
    assert_eq!(refused(table(&pair, 1, 1_000_000, 1, 2)), (11, 0, 0));
    assert_eq!(
        table(&pair, 1, 0, 2_048, 2_049).map(|words| words[2_048]),
        Ok(271)
    );
}

#[test]
fn critical_sequences() {
    // Smaller instants come before smaller action numbers.
    let numbers = one(2, &[(1, 1, 2, 3, 1), (1, 0, 1, 3, 1)]);
    assert_eq!(pairs(&numbers, 0, 1, 3), [(1, 1)]);
    let early = one(2, &[(1, 0, 1, 3, 1)]);
    assert_eq!(pairs(&early, 0, 0, 2), [(0, 0)]);
    let tied = one(2, &[(1, 1, 2, 1, 1), (0, 0, 3, 1, 1)]);
    assert_eq!(pairs(&tied, 0, 0, 1), [(0, 0)]);
    let longer = one(2, &[(1, 1, 1, 1, 1), (1, 0, 2, 2, 1)]);
    assert_eq!(pairs(&longer, 0, 0, 2), [(0, 0), (0, 1)]);
}

#[test]
fn room_for_critical_sequences() {
    let pair = pair();
    let once = one(2, &[(0, 1, 1, 1, 1)]);
    assert_eq!(critical(&once, 0, 0, 3, 8).map(|pairs| pairs.len()), Ok(1));
    // As much room as the sequence needs, not as the window could need.
    assert_eq!(critical(&once, 0, 0, 3, 2).map(|pairs| pairs.len()), Ok(1));
    assert_eq!(refused(critical(&once, 0, 0, 3, 1)), (12, 0, 0));
    assert_eq!(
        critical(&pair, 1, 0, 101, 10).map(|pairs| pairs.len()),
        Ok(4)
    );
    assert_eq!(critical(&pair, 1, 1, 40, 0), Ok(vec![]));
    assert_eq!(refused(critical(&pair, 1, 80, 101, 3)), (12, 0, 0));
    assert_eq!(refused(critical(&pair, 1, 7, 3, 0)), (11, 0, 0));
    assert_eq!(refused(critical(&pair, 2, 7, 3, 0)), (10, 0, 0));
}

#[test]
fn plain_reckoner() {
    let pair = pair();
    // Four instants, though eight pairs of action and instant, and 101 ticks.
    assert_eq!(plain(&pair, 1, 0, 101), Ok(19));
    assert_eq!(plain(&pair, 1, 0, 41), Ok(11));
    assert_eq!(plain(&pair, 1, 5, 5), Ok(0));
    let every_tick = one(1, &[(0, 0, 1, 1, 1)]);
    assert_eq!(plain(&every_tick, 0, 0, 6), Ok(6));
    assert_eq!(refused(plain(&every_tick, 0, 0, 7)), (14, 0, 0));
    // Instants of the machine asked about only.
    let two = sheet(&[
        machine(1, &[(0, 0, 1, 1, 1)]),
        machine(1, &[(0, 0, 8, 1, 1)]),
    ]);
    assert_eq!(plain(&two, 1, 0, 8), Ok(1));
    assert_eq!(refused(plain(&pair, 0, 0, 2_049)), (11, 0, 0));
    assert_eq!(refused(plain(&pair, 2, 0, 2_049)), (10, 0, 0));
    assert_eq!(refused(plain(&pair, 0, 0, 2_048)), (14, 0, 0));
    // No two actions at one instant.
    let chain = one(3, &[(0, 1, 2, 1, 1), (1, 2, 2, 1, 1)]);
    assert_eq!(plain(&chain, 0, 0, 1), Ok(1));
}
