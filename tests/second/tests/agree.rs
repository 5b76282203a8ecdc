//! Different methods give the same answers on random sheets.

mod common;

use common::machine;
use second::back::{bound, table, Count};
use second::critical::{by_definition, by_rows};
use second::generate::{border, extreme, uneven, valid};
use second::legal::{each, is_legal, total, Pair};
use second::plain::plain;
use second::random::Random;
use second::sheet::{check, hyperperiod, Machine, Sheet};
use second::verdict::{plain_walk, same_method, swift_walk, verdict, Verdict, Window};
use second::write::write;

/// A machine with few states and actions, many ties, and one of a few short periods each.
fn small(random: &mut Random) -> Machine {
    let states = random.pick(&[1, 2, 2, 3]);
    let periods = random.pick(&[[1, 1, 2], [2, 3, 4], [2, 4, 6], [3, 6, 9]]);
    let row = |_| {
        let period = random.pick(&periods);
        let time = random.within(1..=3);
        (random.place(states), random.place(states), period, time, 1)
    };
    let rows: Vec<_> = (0..=states).map(row).collect();
    let mut machine = machine(states, &rows);
    let divisor = machine.divisor();
    for action in &mut machine.actions {
        action.deadline = random.within(1..=divisor);
    }
    machine
}

fn window(random: &mut Random) -> (u32, u32) {
    let start = random.within(0..=20);
    (start, start + random.within(0..=7))
}

/// Every legal sequence of a window.
fn sequences(machine: &Machine, start: u32, end: u32) -> Vec<Vec<Pair>> {
    let mut all = Vec::new();
    each(machine, start, end, &mut |sequence| {
        all.push(sequence.to_vec())
    });
    assert!(all.iter().all(|sequence| is_legal(machine, sequence)));
    all
}

#[test]
fn bounds_are_those_of_all_legal_sequences() {
    let mut random = Random::new(11);
    for _ in 0..2_000 {
        let machine = small(&mut random);
        let (start, end) = window(&mut random);
        let all = sequences(&machine, start, end);
        let most = all.iter().map(|sequence| total(&machine, sequence)).max();
        assert_eq!(Some(bound(&machine, Count::Request, start, end)), most);
        let counted = |sequence: &Vec<Pair>| -> u32 {
            let action = |pair: &Pair| &machine.actions[pair.action];
            let in_time = sequence
                .iter()
                .filter(|p| p.instant + action(p).deadline <= end);
            in_time.map(|pair| action(pair).time).sum()
        };
        // Instants at the end and after it are legal here and must not matter.
        let later = sequences(&machine, start, end + 1);
        let most = later.iter().map(counted).max();
        assert_eq!(Some(bound(&machine, Count::Demand, start, end)), most);
    }
}

#[test]
fn tables_are_the_requests_of_each_length() {
    let mut random = Random::new(17);
    for _ in 0..300 {
        let machine = small(&mut random);
        let start = random.within(0..=20);
        let longest = random.within(0..=30);
        let request = |n| bound(&machine, Count::Request, start, start + n);
        let right: Vec<u32> = (0..=longest).map(request).collect();
        assert_eq!(table(&machine, start, longest), right);
    }
}

#[test]
fn critical_sequences_are_the_first_of_all() {
    let mut random = Random::new(12);
    for _ in 0..2_000 {
        let machine = small(&mut random);
        let (start, end) = window(&mut random);
        let first = by_definition(&machine, start, end);
        assert_eq!(by_rows(&machine, start, end), first);
        assert_eq!(
            total(&machine, &first),
            bound(&machine, Count::Request, start, end)
        );
    }
}

#[test]
fn the_plain_reckoner_agrees() {
    let mut random = Random::new(13);
    let mut answered = 0;
    while answered < 1_000 {
        let machines = valid::machines(&mut random);
        let machine = &machines[random.place(machines.len())];
        let start = random.within(0..=2_000);
        let end = start + random.within(0..=200);
        if let Some(figure) = plain(machine, start, end) {
            assert_eq!(figure, bound(machine, Count::Request, start, end));
            answered += 1;
        }
    }
}

#[test]
fn bounds_repeat_with_the_hyperperiod() {
    let mut random = Random::new(14);
    for _ in 0..200 {
        let machines = valid::machines(&mut random);
        let shift = hyperperiod(&machines).expect("a valid sheet");
        let machine = &machines[random.place(machines.len())];
        let start = random.within(0..=shift);
        let end = start + random.within(0..=300);
        for count in [Count::Request, Count::Demand] {
            let later = bound(machine, count, start + shift, end + shift);
            assert_eq!(bound(machine, count, start, end), later);
        }
    }
}

#[test]
fn all_verdicts_agree() {
    let mut random = Random::new(15);
    for round in 0..800 {
        let machines = match round % 8 {
            0..=2 => valid::machines(&mut random),
            3..=4 => border::machines(&mut random),
            5..=6 => uneven::machines(&mut random),
            _ => extreme::machines(&mut random),
        };
        let bytes = write(&machines);
        let sheet = check(&bytes).expect("a valid sheet");
        let right = verdict(&sheet);
        assert_eq!(plain_walk(&sheet), right, "{sheet:?}");
        assert_eq!(same_method(&bytes, &sheet), right, "{sheet:?}");
        assert_eq!(swift_walk(&sheet), right, "{sheet:?}");
    }
}

/// The verdict with nothing remembered: the closing length first, then each tested length.
fn word_by_word(sheet: &Sheet) -> Verdict {
    let machines = &sheet.machines;
    for machine in 0..machines.len() {
        for start in 0..sheet.hyperperiod {
            let requests = |of: &[Machine], length| -> u32 {
                let one = |each| bound(each, Count::Request, start, start + length);
                of.iter().map(one).sum()
            };
            let closing = (1..=2_048).find(|&n| requests(&machines[..=machine], n) <= n);
            for length in 1..closing.unwrap_or(2_049) {
                let demand = bound(&machines[machine], Count::Demand, start, start + length);
                if (0..=length).all(|m| demand + requests(&machines[..machine], m) > m) {
                    return Verdict::Late(Window {
                        machine: machine as u32,
                        start,
                        length,
                        demand,
                    });
                }
            }
            if closing.is_none() {
                return Verdict::Open {
                    machine: machine as u32,
                    start,
                };
            }
        }
    }
    Verdict::Fits
}

#[test]
fn the_verdict_is_that_of_its_words() {
    let mut random = Random::new(16);
    let (mut fits, mut late) = (0, 0);
    for _ in 0..600 {
        let count = random.pick(&[1, 1, 2, 2, 3]);
        let mut machines: Vec<Machine> = (0..count).map(|_| small(&mut random)).collect();
        // Slower machines, so that more than one of them can fit.
        for action in machines.iter_mut().flat_map(|m| &mut m.actions) {
            action.period *= 3;
            action.deadline *= random.pick(&[1, 3]);
        }
        let sheet = check(&write(&machines)).expect("a valid sheet");
        let right = word_by_word(&sheet);
        assert_eq!(verdict(&sheet), right, "{sheet:?}");
        match right {
            Verdict::Fits => fits += 1,
            _ => late += 1,
        }
    }
    assert!(fits >= 100 && late >= 100, "fits {fits}, late {late}");
}
