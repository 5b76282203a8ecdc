//! Sheets whose worst start is seldom 0: high machines with rates that do not divide each other.

use super::rates;
use crate::random::Random;
use crate::sheet::{Action, Machine};

const HYPERPERIODS: [u32; 16] = [
    12, 24, 30, 36, 60, 60, 72, 84, 90, 120, 180, 210, 360, 420, 840, 1_008,
];

/// The last machine has one slow action, to be made longer until it is late.
pub fn machines(random: &mut Random) -> Vec<Machine> {
    let divisors = rates::divisors(random.pick(&HYPERPERIODS));
    // Neither every tick nor once a hyperperiod.
    let quick = &divisors[1..divisors.len() - 1];
    let count = random.pick(&[1, 1, 2, 3]);
    let mut machines: Vec<Machine> = (0..count).map(|_| high(random, quick)).collect();
    for _ in 0..random.pick(&[0, 0, 0, 1, 2, 4]) {
        machines.push(slow(random, &divisors));
    }
    machines.sort_by_key(Machine::divisor);
    machines.push(slow(random, &divisors));
    machines
}

fn slow(random: &mut Random, divisors: &[u32]) -> Machine {
    let period = random.pick(divisors).max(random.pick(divisors));
    machine(1, vec![(0, 0, period)])
}

/// A machine of up to three states; at time 0 its rates meet, and only one action can be taken.
fn high(random: &mut Random, quick: &[u32]) -> Machine {
    let rates = rates::uneven(random, quick, 12);
    let states = random.pick(&[1, 1, 2, 3]);
    let steps = (0..states * rates.len()).map(|number| {
        let source = number % states;
        (source, random.place(states), rates[number / states])
    });
    let mut machine = machine(states, steps.collect());
    let most = machine.divisor().div_ceil(2);
    for action in &mut machine.actions {
        action.time = random.within(1..=most);
    }
    machine
}

/// Times of one tick, deadlines as late as they may be.
fn machine(states: usize, steps: Vec<(usize, usize, u32)>) -> Machine {
    let action = |(source, sink, period)| Action {
        source,
        sink,
        period,
        time: 1,
        deadline: 1,
    };
    let mut machine = Machine {
        states,
        initial: 0,
        actions: steps.into_iter().map(action).collect(),
    };
    let divisor = machine.divisor();
    for action in &mut machine.actions {
        action.deadline = divisor;
    }
    machine
}
