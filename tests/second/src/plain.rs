//! The plain reckoner's answer, by listing every total that can be had.

use crate::sheet::Machine;
use std::collections::HashSet;

/// The most instants a window may hold, an instant counted once.
pub const MOST_INSTANTS: usize = 6;

/// The request bound of `[start, end)`, or nothing when the window holds too many instants.
pub fn plain(machine: &Machine, start: u32, end: u32) -> Option<u32> {
    let instants = machine.instants(start, end);
    if instants.len() > MOST_INSTANTS {
        return None;
    }
    // Every (state, total) some legal sequence has come to; no total is thrown away.
    let mut reached: HashSet<(usize, u32)> = (0..machine.states).map(|q| (q, 0)).collect();
    for instant in instants {
        for (state, total) in reached.clone() {
            for (_, action) in &instant.actions {
                if action.source == state {
                    reached.insert((action.sink, total + action.time));
                }
            }
        }
    }
    reached.into_iter().map(|(_, total)| total).max()
}
