//! The largest sheets, which just fit: many actions, and long walks from many starts.

use super::border::lighten;
use super::rates::divisors;
use crate::random::Random;
use crate::sheet::{check, Action, Machine, MOST_ACTIONS, MOST_MACHINES};
use crate::verdict::{swift_walk, Verdict};
use crate::write::write;

const HYPERPERIODS: [u32; 4] = [960, 1_000, 1_008, 1_020];
const STATES: usize = 8;

pub fn machines(random: &mut Random) -> Vec<Machine> {
    let hyperperiod = random.pick(&HYPERPERIODS);
    let mut bases = divisors(hyperperiod);
    bases.retain(|&base| base >= MOST_MACHINES);
    let machine = |_| {
        let base = random.pick(&bases);
        machine(random, base, hyperperiod)
    };
    let mut machines: Vec<Machine> = (0..MOST_MACHINES).map(machine).collect();
    machines.sort_by_key(Machine::divisor);
    while let Some(late) = late_machine(&machines) {
        // Its own work first; what is above it only where that is not enough.
        if !lighten(&mut machines[late..=late], 8) {
            lighten(&mut machines[..late], 8);
        }
    }
    machines
}

fn late_machine(machines: &[Machine]) -> Option<usize> {
    let sheet = check(&write(machines)).expect("a valid sheet");
    match swift_walk(&sheet) {
        Verdict::Late(window) => Some(window.machine as usize),
        _ => None,
    }
}

/// Much work may come at any instant of a base; it leads to state 0, which is left once a
/// hyperperiod.
fn machine(random: &mut Random, base: u32, hyperperiod: u32) -> Machine {
    let action = |number| {
        let source = number % STATES;
        let much = source > 0 && random.percent(50);
        Action {
            source,
            sink: if much { 0 } else { random.place(STATES) },
            period: if source > 0 { base } else { hyperperiod },
            time: if much {
                random.within(base / 2..=base)
            } else {
                1
            },
            deadline: base,
        }
    };
    Machine {
        states: STATES,
        initial: 0,
        actions: (0..MOST_ACTIONS).map(action).collect(),
    }
}
