//! Request and demand bounds, searched from the end of the window back to its start.
//!
//! For each tick and state the best total of the rest of the window is kept; a tick's totals
//! follow from those of the next tick: wait, or take one action that has an instant now.

use crate::sheet::{Action, Instant, Machine, MOST_STATES};

/// The best total from each state on.
pub type Row = [u32; MOST_STATES];

/// What an action triggered in a window adds to the total.
#[derive(Debug, Clone, Copy, PartialEq, Eq)]
pub enum Count {
    /// Every action in `[s, f)` counts.
    Request,
    /// Over `[s, t]` only those with instant plus deadline at most `t` count.
    Demand,
}

impl Count {
    pub fn gain(self, action: &Action, instant: u32, end: u32) -> u32 {
        match self {
            Count::Request => action.time,
            Count::Demand if instant + action.deadline <= end => action.time,
            // It may still be taken, so that a later one can be.
            Count::Demand => 0,
        }
    }
}

/// The row of a tick, from the row of the next one and the actions with an instant now.
pub fn step<'a>(
    next: &Row,
    actions: impl Iterator<Item = &'a Action>,
    gain: impl Fn(&Action) -> u32,
) -> Row {
    // Waiting is always allowed, so no state has less than at the next tick.
    let mut row = *next;
    for action in actions {
        // The sink's total is the next tick's: instants strictly rise.
        row[action.source] = row[action.source].max(gain(action) + next[action.sink]);
    }
    row
}

/// The rows of the ticks from `start` to `end`, in that order.
pub fn rows(machine: &Machine, count: Count, start: u32, end: u32) -> Vec<Row> {
    let mut rows = vec![[0; MOST_STATES]];
    for tick in (start..end).rev() {
        let actions = machine.actions_at(tick).map(|(_, action)| action);
        let next = rows.last().expect("the row of the end is there");
        rows.push(step(next, actions, |a| count.gain(a, tick, end)));
    }
    rows.reverse();
    rows
}

/// The bound itself: the first pair may have any source state.
pub fn bound(machine: &Machine, count: Count, start: u32, end: u32) -> u32 {
    best(&rows(machine, count, start, end)[0])
}

/// The request bounds of `[start, start + n)` for n from 0 to `longest`, each searched on its own.
pub fn table(machine: &Machine, start: u32, longest: u32) -> Vec<u32> {
    let instants = machine.instants(start, start + longest);
    let mut bounds = vec![0];
    let mut inside = 0;
    for end in start + 1..=start + longest {
        let another = instants.get(inside).is_some_and(|at| at.tick < end);
        inside += usize::from(another);
        // A window that has no instant more has no sequence more.
        let same = bounds[bounds.len() - 1];
        bounds.push(if another {
            request_over(&instants[..inside])
        } else {
            same
        });
    }
    bounds
}

/// The request bound of a window that holds just these instants.
fn request_over(instants: &[Instant]) -> u32 {
    let from_next = |next: Row, at: &Instant| {
        let actions = at.actions.iter().map(|(_, action)| *action);
        step(&next, actions, |action| action.time)
    };
    best(&instants.iter().rev().fold([0; MOST_STATES], from_next))
}

pub fn best(row: &Row) -> u32 {
    row.iter().copied().max().unwrap_or(0)
}
