//! The critical sequence of a window.

use crate::back::{best, rows, Count, Row};
use crate::legal::{compare, each, total, Pair};
use crate::sheet::Machine;

/// Windows with at most this many instants are answered by comparing whole sequences.
const SMALL: usize = 3;

pub fn critical(machine: &Machine, start: u32, end: u32) -> Vec<Pair> {
    if machine.instants(start, end).len() <= SMALL {
        by_definition(machine, start, end)
    } else {
        by_rows(machine, start, end)
    }
}

/// Of all legal sequences with the largest total, the first in order.
pub fn by_definition(machine: &Machine, start: u32, end: u32) -> Vec<Pair> {
    let mut first = Vec::new();
    each(machine, start, end, &mut |sequence| {
        let (new, old) = (total(machine, sequence), total(machine, &first));
        if new > old || new == old && compare(sequence, &first).is_lt() {
            first = sequence.to_vec();
        }
    });
    first
}

/// Pair by pair, the first that still leaves the bound within reach.
pub fn by_rows(machine: &Machine, start: u32, end: u32) -> Vec<Pair> {
    let rows = rows(machine, Count::Request, start, end);
    follow(machine, Count::Request, start, &rows, None)
}

/// The first sequence in order that reaches the best total, from one state or from any.
pub fn follow(
    machine: &Machine,
    count: Count,
    start: u32,
    rows: &[Row],
    mut state: Option<usize>,
) -> Vec<Pair> {
    let end = start + rows.len() as u32 - 1;
    let mut missing = state.map_or(best(&rows[0]), |state| rows[0][state]);
    let mut sequence = Vec::new();
    for (tick, next) in (start..end).zip(&rows[1..]) {
        if missing == 0 {
            break;
        }
        let taken = machine.actions_at(tick).find(|(_, action)| {
            state.is_none_or(|state| state == action.source)
                && count.gain(action, tick, end) + next[action.sink] == missing
        });
        if let Some((number, action)) = taken {
            sequence.push(Pair {
                action: number,
                instant: tick,
            });
            missing -= count.gain(action, tick, end);
            state = Some(action.sink);
        }
    }
    sequence
}
