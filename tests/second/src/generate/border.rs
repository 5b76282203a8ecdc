//! Sheets at the border between Fits and Late, where one tick decides.

use super::{uneven, valid};
use crate::random::Random;
use crate::sheet::{hyperperiod, Machine, Sheet, MOST_TICKS};
use crate::verdict::{swift_walk, Verdict};

/// One action's time is the largest that fits, or one more.
pub fn machines(random: &mut Random) -> Vec<Machine> {
    let mut machines = if random.percent(30) {
        valid::machines(random)
    } else {
        uneven::machines(random)
    };
    while !fits(&machines) && lighten(&mut machines, 2) {}
    // The lowest machine is the one that feels all the others.
    let machine = if random.percent(70) {
        machines.len() - 1
    } else {
        random.place(machines.len())
    };
    let action = random.place(machines[machine].actions.len());
    let late = raise(&mut machines, machine, action);
    if random.percent(40) {
        let time = &mut machines[machine].actions[action].time;
        *time = late.saturating_sub(1).max(1);
    }
    machines
}

/// Sets the least time that is late, as far as times go; longer times never help.
fn raise(machines: &mut [Machine], machine: usize, action: usize) -> u32 {
    let (mut low, mut high) = (machines[machine].actions[action].time, MOST_TICKS);
    while low < high {
        let middle = (low + high) / 2;
        machines[machine].actions[action].time = middle;
        if fits(machines) {
            low = middle + 1;
        } else {
            high = middle;
        }
    }
    machines[machine].actions[action].time = high;
    high
}

fn fits(machines: &[Machine]) -> bool {
    let sheet = Sheet {
        machines: machines.to_vec(),
        hyperperiod: hyperperiod(machines).expect("periods divide one hyperperiod"),
    };
    swift_walk(&sheet) == Verdict::Fits
}

/// Takes a half, a third or so off every time; false when nothing was left to take.
pub fn lighten(machines: &mut [Machine], part: u32) -> bool {
    let mut lighter = false;
    for action in machines.iter_mut().flat_map(|m| &mut m.actions) {
        if action.time > 1 {
            lighter = true;
            action.time -= (action.time / part).max(1);
        }
    }
    lighter
}
