//! Legal sequences, straight from their definition.

use crate::sheet::{Instant, Machine};
use std::cmp::Ordering;

/// An action and the instant at which it is triggered.
#[derive(Debug, Clone, Copy, PartialEq, Eq)]
pub struct Pair {
    pub action: usize,
    pub instant: u32,
}

/// Each pair is at an instant of its action, sinks meet sources, instants strictly rise.
pub fn is_legal(machine: &Machine, sequence: &[Pair]) -> bool {
    let action = |pair: &Pair| &machine.actions[pair.action];
    let at_instants = sequence.iter().all(|p| action(p).has_instant(p.instant));
    let connected = sequence.windows(2).all(|two| {
        two[0].instant < two[1].instant && action(&two[0]).sink == action(&two[1]).source
    });
    at_instants && connected
}

/// The total of execution times.
pub fn total(machine: &Machine, sequence: &[Pair]) -> u32 {
    let time = |pair: &Pair| machine.actions[pair.action].time;
    sequence.iter().map(time).sum()
}

/// The order among sequences: pair by pair, smaller instant, then smaller action number.
pub fn compare(left: &[Pair], right: &[Pair]) -> Ordering {
    let key = |pair: &Pair| (pair.instant, pair.action);
    left.iter().map(key).cmp(right.iter().map(key))
}

/// Shows every legal sequence with all instants at least `from` and below `end`.
pub fn each(machine: &Machine, from: u32, end: u32, show: &mut dyn FnMut(&[Pair])) {
    let instants = machine.instants(from, end);
    extend(machine, &instants, &mut Vec::new(), show);
}

fn extend(
    machine: &Machine,
    instants: &[Instant],
    sequence: &mut Vec<Pair>,
    show: &mut dyn FnMut(&[Pair]),
) {
    show(sequence);
    // Only the first pair may have any source.
    let state = sequence
        .last()
        .map(|pair| machine.actions[pair.action].sink);
    for (place, instant) in instants.iter().enumerate() {
        for &(number, action) in &instant.actions {
            if state.is_none_or(|state| state == action.source) {
                sequence.push(Pair {
                    action: number,
                    instant: instant.tick,
                });
                extend(machine, &instants[place + 1..], sequence, show);
                sequence.pop();
            }
        }
    }
}
