//! What a sheet says: machines, their actions, and the hyperperiod.

mod check;

pub use check::check;

pub const SHORTEST: usize = 28;
pub const LONGEST: usize = 2_124;
pub const MOST_MACHINES: u32 = 8;
pub const MOST_STATES: usize = 16;
pub const MOST_ACTIONS: usize = 32;
/// The largest period, execution time and hyperperiod.
pub const MOST_TICKS: u32 = 1_024;
pub const MARK: &[u8; 4] = b"SFS1";

/// A numbered refusal and its place.
#[derive(Debug, Clone, Copy, PartialEq, Eq)]
pub struct Refusal {
    pub number: u32,
    pub first: u32,
    pub second: u32,
}

impl Refusal {
    pub const fn new(number: u32) -> Self {
        Self::at(number, 0, 0)
    }

    pub const fn at(number: u32, first: u32, second: u32) -> Self {
        Refusal {
            number,
            first,
            second,
        }
    }
}

#[derive(Debug, Clone, Copy, PartialEq, Eq)]
pub struct Action {
    pub source: usize,
    pub sink: usize,
    pub period: u32,
    pub time: u32,
    pub deadline: u32,
}

impl Action {
    pub fn has_instant(&self, tick: u32) -> bool {
        tick.is_multiple_of(self.period)
    }
}

#[derive(Debug, Clone, PartialEq, Eq)]
pub struct Machine {
    pub states: usize,
    pub initial: usize,
    pub actions: Vec<Action>,
}

impl Machine {
    /// The actions that have an instant at this tick, with their numbers, in order.
    pub fn actions_at(&self, tick: u32) -> impl Iterator<Item = (usize, &Action)> {
        let numbered = self.actions.iter().enumerate();
        numbered.filter(move |(_, action)| action.has_instant(tick))
    }

    /// The machine's instants in `[start, end)`, each with the actions that have it.
    pub fn instants(&self, start: u32, end: u32) -> Vec<Instant<'_>> {
        let instant = |tick| Instant {
            tick,
            actions: self.actions_at(tick).collect(),
        };
        let ticks = (start..end).map(instant);
        ticks.filter(|at| !at.actions.is_empty()).collect()
    }

    /// The greatest number that divides every period of the machine.
    pub fn divisor(&self) -> u32 {
        let divides_all = |d: &u32| self.actions.iter().all(|a| a.period.is_multiple_of(*d));
        (1..=MOST_TICKS).rev().find(divides_all).unwrap_or(1)
    }
}

/// A tick at which actions of a machine may be triggered, with those actions and their numbers.
pub struct Instant<'a> {
    pub tick: u32,
    pub actions: Vec<(usize, &'a Action)>,
}

#[derive(Debug, Clone, PartialEq, Eq)]
pub struct Sheet {
    pub machines: Vec<Machine>,
    pub hyperperiod: u32,
}

/// The least number that is a multiple of every period, if it is at most 1,024.
pub fn hyperperiod(machines: &[Machine]) -> Option<u32> {
    let actions = || machines.iter().flat_map(|machine| &machine.actions);
    let multiple_of_all = |h: &u32| actions().all(|action| h.is_multiple_of(action.period));
    (1..=MOST_TICKS).find(multiple_of_all)
}
