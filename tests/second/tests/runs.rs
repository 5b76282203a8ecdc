//! Runs: the tick itself, and none late on sheets that fit.

mod common;

use common::{machine, sheet};
use second::random::Random;
use second::run::{Run, Trigger};
use second::simulate::{can_be_late, report};
use second::verdict::{verdict, Verdict};

fn trigger(action: usize, work: u32) -> Option<Trigger> {
    Some(Trigger { action, work })
}

#[test]
fn work_must_be_done_before_the_deadline() {
    let sheet = sheet(&[machine(1, &[(0, 0, 4, 2, 1)])]);
    assert_eq!(Run::new(&sheet).step(&[trigger(0, 2)]), Some(0));
    // Triggers come first, so one unit is done in the same tick.
    assert_eq!(Run::new(&sheet).step(&[trigger(0, 1)]), None);
    assert_eq!(Run::new(&sheet).step(&[trigger(0, 0)]), None);
}

#[test]
fn the_highest_machine_works_first() {
    let high = machine(1, &[(0, 0, 4, 2, 4)]);
    let low = machine(1, &[(0, 0, 4, 1, 2)]);
    let sheet = sheet(&[high, low]);
    let mut run = Run::new(&sheet);
    assert_eq!(run.step(&[trigger(0, 2), trigger(0, 1)]), None);
    assert_eq!(run.step(&[]), Some(1));
}

#[test]
fn legal_actions_are_those_of_the_state_and_the_instant() {
    let sheet = common::pair();
    let mut run = Run::new(&sheet);
    assert_eq!(run.legal(1), [0]);
    run.step(&[None, trigger(0, 0)]);
    assert_eq!(run.legal(1), []);
    while run.tick() < 40 {
        run.step(&[]);
    }
    assert_eq!(run.legal(1), [2]);
    while run.tick() < 200 {
        run.step(&[]);
    }
    assert_eq!(run.legal(1), [2, 3]);
}

#[test]
fn a_late_sheet_can_be_made_late() {
    let high = machine(3, &[(0, 1, 10, 4, 5), (1, 2, 15, 4, 5)]);
    let sheet = sheet(&[high, machine(1, &[(0, 0, 9, 3, 9)])]);
    let Verdict::Late(window) = verdict(&sheet) else {
        panic!("the sheet is late");
    };
    assert!(can_be_late(&sheet, window, &mut Random::new(31)));
}

#[test]
fn no_run_of_a_fitting_sheet_is_late() {
    let seen = report(32, 300).expect("no run is late");
    assert!(seen.contains("none late"), "{seen}");
    assert!(report(32, 0).is_err(), "no runs show nothing");
}
