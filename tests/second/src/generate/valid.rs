//! Sheets that are accepted, about half of which fit.

use super::rates;
use crate::random::Random;
use crate::sheet::{Action, Machine, MOST_ACTIONS, MOST_TICKS};

/// Numbers with many divisors, so that a machine can have several rates.
const HYPERPERIODS: [u32; 24] = [
    1, 6, 8, 12, 24, 30, 36, 40, 48, 60, 60, 72, 90, 96, 120, 120, 180, 200, 240, 360, 420, 720,
    840, 960,
];

pub fn machines(random: &mut Random) -> Vec<Machine> {
    let hyperperiod = random.pick(&HYPERPERIODS);
    let count = random.pick(&[1, 2, 2, 2, 3, 3, 4, 5, 6, 7, 8]);
    // In hundredths of the processor's time, to be shared out among the machines.
    let mut load = random.within(40..=140);
    let short_deadlines = random.pick(&[0, 0, 10, 50]);
    let mut machines = Vec::new();
    for left in (1..=count).rev() {
        let share = random.within(load / (left + 1)..=load / left);
        load -= share;
        let mut machine = machine(random, hyperperiod, count);
        set_times(random, &mut machine, share, short_deadlines);
        machines.push(machine);
    }
    // Shorter deadlines in higher machines fit more often than any other order.
    if random.percent(80) {
        machines.sort_by_key(Machine::divisor);
    }
    machines
}

fn machine(random: &mut Random, hyperperiod: u32, count: u32) -> Machine {
    let states = random.pick(&[1, 1, 1, 2, 2, 3, 3, 4, 5, 8, 16]);
    let most = random.pick(&[4, 4, 4, 4, MOST_ACTIONS - states]);
    let extra = random.place(most + 1);
    let rates = rates(random, hyperperiod, count);
    // A ring through all states, then anything.
    let ring: Vec<_> = (0..states).map(|q| (q, (q + 1) % states)).collect();
    let rest: Vec<_> = (0..extra)
        .map(|_| (random.place(states), random.place(states)))
        .collect();
    let action = |(source, sink)| Action {
        source,
        sink,
        period: random.pick(&rates),
        time: 1,
        deadline: 1,
    };
    Machine {
        states,
        actions: ring.into_iter().chain(rest).map(action).collect(),
        initial: random.place(states),
    }
}

/// One period or several; each machine needs a tick or so before its next instant.
fn rates(random: &mut Random, hyperperiod: u32, count: u32) -> Vec<u32> {
    let mut roomy = rates::divisors(hyperperiod);
    roomy.retain(|&d| d >= count.min(hyperperiod));
    let base = random.pick(&roomy);
    let multiples = rates::divisors(hyperperiod / base);
    let tries = random.pick(&[0, 2, 8]);
    let rates = rates::uneven(random, &multiples, tries);
    rates.into_iter().map(|rate| rate * base).collect()
}

/// Actions that take about the share of the time from one instant to the next.
fn set_times(random: &mut Random, machine: &mut Machine, share: u32, short_deadlines: u32) {
    let divisor = machine.divisor();
    for action in &mut machine.actions {
        action.deadline = if random.percent(short_deadlines) {
            random.within(1..=divisor)
        } else {
            divisor
        };
        let most = (action.deadline * share / 100).clamp(1, MOST_TICKS);
        action.time = random.within(most.div_ceil(2)..=most);
    }
}
