//! Verdicts where a wrong method gives another one; all walks must give the right one.

mod common;

use common::{machine, pair_with, sheet, Row};
use second::sheet::{check, Machine, Sheet};
use second::text::verdict_line;
use second::verdict::{plain_walk, same_method, swift_walk, verdict};
use second::write::write;

fn gives(sheet: &Sheet, line: &str) {
    let same_method = |sheet: &Sheet| same_method(&write(&sheet.machines), sheet);
    for walk in [verdict, plain_walk, same_method, swift_walk] {
        assert_eq!(verdict_line(&walk(sheet)).trim_end(), line);
    }
}

fn one_state(rows: &[Row]) -> Machine {
    machine(1, rows)
}

#[test]
fn pair() {
    gives(&common::pair(), "FITS");
    let heavier = check(&pair_with(&[(4, 15)])).expect("15 is in range");
    gives(&heavier, "LATE 1 0 20 6");
}

#[test]
fn every_start_is_tried() {
    // Machine 0's actions meet at time 0, so it asks for more at 4.
    let meeting = one_state(&[(0, 0, 6, 1, 1), (0, 0, 4, 1, 1)]);
    let machines = [meeting, one_state(&[(0, 0, 4, 3, 4)])];
    gives(&sheet(&machines), "LATE 1 4 4 3");
    // Not an instant of the machine asked about.
    let high = one_state(&[(0, 0, 12, 1, 4), (0, 0, 8, 2, 2)]);
    let middle = one_state(&[(0, 0, 8, 5, 8)]);
    let machines = [high, middle, one_state(&[(0, 0, 12, 1, 8)])];
    gives(&sheet(&machines), "LATE 2 8 12 1");
    // Not an instant of machine 0.
    let high = machine(3, &[(0, 1, 10, 4, 5), (1, 2, 15, 4, 5)]);
    gives(
        &sheet(&[high, one_state(&[(0, 0, 9, 3, 9)])]),
        "LATE 1 9 9 3",
    );
    // The first of several starts that fail.
    let high = one_state(&[(0, 0, 6, 2, 2), (0, 0, 4, 1, 2)]);
    gives(
        &sheet(&[high, one_state(&[(0, 0, 5, 2, 4)])]),
        "LATE 1 5 4 2",
    );
    // Inside the busy stretch of another start.
    let high = machine(2, &[(1, 0, 6, 2, 3), (0, 0, 9, 3, 3)]);
    gives(
        &sheet(&[high, one_state(&[(0, 0, 7, 4, 7)])]),
        "LATE 1 6 8 4",
    );
}

#[test]
fn machines_come_before_starts() {
    let machines = [
        one_state(&[(0, 0, 9, 1, 2), (0, 0, 6, 1, 1)]),
        one_state(&[(0, 0, 9, 5, 6)]),
        one_state(&[(0, 0, 9, 1, 2)]),
    ];
    gives(&sheet(&machines), "LATE 1 9 6 5");
}

#[test]
fn requests_of_the_higher_machines() {
    let high = one_state(&[(0, 0, 4, 1, 2)]);
    gives(
        &sheet(&[high, one_state(&[(0, 0, 4, 1, 1)])]),
        "LATE 1 0 1 1",
    );
    // Those of the same start, not the worst of any start.
    let high = one_state(&[(0, 0, 4, 1, 2), (0, 0, 10, 1, 1)]);
    let low = one_state(&[(0, 0, 10, 4, 8), (0, 0, 10, 3, 5)]);
    gives(&sheet(&[high, low]), "FITS");
    // From any state, not only from the initial one.
    let high = machine(2, &[(0, 1, 4, 1, 4), (1, 1, 4, 3, 4)]);
    gives(
        &sheet(&[high, one_state(&[(0, 0, 4, 2, 4)])]),
        "LATE 1 0 4 2",
    );
}

#[test]
fn an_earlier_m_may_pass() {
    let high = one_state(&[(0, 0, 4, 2, 2)]);
    gives(&sheet(&[high, one_state(&[(0, 0, 4, 1, 4)])]), "FITS");
}

#[test]
fn demand_of_the_machine_itself() {
    gives(&sheet(&[one_state(&[(0, 0, 2, 2, 2)])]), "FITS");
    gives(&sheet(&[one_state(&[(0, 0, 2, 3, 2)])]), "LATE 0 0 2 3");
}

#[test]
fn little_load_can_be_late() {
    let high = one_state(&[(0, 0, 4, 2, 4)]);
    gives(
        &sheet(&[high, one_state(&[(0, 0, 4, 1, 1)])]),
        "LATE 1 0 1 1",
    );
}

#[test]
fn longest_lengths() {
    gives(&sheet(&[one_state(&[(0, 0, 1_024, 1_024, 1_024)])]), "FITS");
    let half = one_state(&[(0, 0, 1_024, 512, 1_024)]);
    gives(&sheet(&[half.clone(), half.clone()]), "FITS");
    let more = one_state(&[(0, 0, 1_024, 513, 1_024)]);
    gives(&sheet(&[half, more]), "LATE 1 0 1024 513");
}
