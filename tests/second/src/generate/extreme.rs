//! Sheets at both ends of every size.

use super::rates::divisors;
use crate::random::Random;
use crate::sheet::{Action, Machine, MOST_ACTIONS, MOST_MACHINES, MOST_STATES, MOST_TICKS};

pub fn machines(random: &mut Random) -> Vec<Machine> {
    let count = random.pick(&[1, MOST_MACHINES]);
    let actions = random.pick(&[1, MOST_ACTIONS]);
    let (periods, times) = ticks(random);
    let mut machines = Vec::new();
    for _ in 0..count {
        let states = random.pick(&[1, MOST_STATES]);
        let action = |_| Action {
            source: random.place(states),
            sink: random.place(states),
            period: random.pick(&periods),
            time: random.pick(&times),
            deadline: 1,
        };
        let mut machine = Machine {
            states,
            actions: (0..actions).map(action).collect(),
            initial: random.pick(&[0, states - 1]),
        };
        if random.percent(50) {
            let divisor = machine.divisor();
            machine
                .actions
                .iter_mut()
                .for_each(|a| a.deadline = divisor);
        }
        machines.push(machine);
    }
    machines
}

/// The periods and times to choose from.
fn ticks(random: &mut Random) -> (Vec<u32>, Vec<u32>) {
    match random.within(0..=4) {
        // Much work, seldom.
        0 => (vec![MOST_TICKS], vec![1, 4, 127, MOST_TICKS]),
        // An instant at every tick.
        1 => (vec![1], vec![1, MOST_TICKS]),
        // All powers of two.
        2 => (divisors(MOST_TICKS), vec![1]),
        // Slow powers of two, some work.
        3 => (vec![256, 512, MOST_TICKS], (1..=20).collect()),
        // As many rates as there can be.
        _ => (divisors(random.pick(&[1_001, 1_008, 1_020])), vec![1, 2, 3]),
    }
}
