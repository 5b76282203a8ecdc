//! The numbers that the sheet PAIR must give.

mod common;

use common::{pair, pair_with};
use second::bounds::{critical, demand, request};
use second::sheet::check;
use second::verdict::{verdict, Verdict, Window};

const ROOM: usize = 4_096;

#[test]
fn requests_and_demands_of_machine_1() {
    let pair = pair();
    let requests = [
        (0, 0, 0),
        (0, 1, 6),
        (0, 40, 6),
        (0, 41, 11),
        (1, 40, 0),
        (80, 100, 5),
        (80, 101, 8),
        (0, 101, 19),
        (0, 200, 26),
    ];
    for (start, end, bound) in requests {
        assert_eq!(request(&pair, 1, start, end), Ok(bound), "[{start}, {end})");
    }
    for (end, bound) in [(19, 0), (20, 6), (120, 19)] {
        assert_eq!(demand(&pair, 1, 0, end), Ok(bound), "[0, {end}]");
    }
}

#[test]
fn critical_sequences() {
    let pair = pair();
    let pairs = |start, end| -> Vec<(usize, u32)> {
        let sequence = critical(&pair, 1, start, end, ROOM).expect("the window is right");
        sequence.iter().map(|p| (p.action, p.instant)).collect()
    };
    assert_eq!(pairs(0, 101), [(1, 0), (0, 40), (2, 80), (1, 100)]);
    assert_eq!(pairs(80, 101), [(0, 80), (3, 100)]);
    assert_eq!(pairs(1, 40), []);
}

#[test]
fn no_window_of_41_ticks_has_more_than_13() {
    let pair = pair();
    let bounds = (0..200).map(|start| (request(&pair, 1, start, start + 41).unwrap(), start));
    assert_eq!(bounds.max(), Some((13, 80)));
    // Neighbouring windows do not add up.
    assert_eq!(request(&pair, 1, 100, 101), Ok(6));
}

#[test]
fn verdicts() {
    assert_eq!(verdict(&pair()), Verdict::Fits);
    let heavier = check(&pair_with(&[(4, 15)])).expect("15 is in range");
    let late = Window {
        machine: 1,
        start: 0,
        length: 20,
        demand: 6,
    };
    assert_eq!(verdict(&heavier), Verdict::Late(late));
}
