//! One machine's bounds, each reckoned from the back once and then remembered.

use crate::back::{best, step, Count, Row};
use crate::sheet::{Action, Machine, MOST_STATES};

pub struct Remembered {
    /// The actions with an instant at each tick below the hyperperiod.
    actions_at: Vec<Vec<Action>>,
    /// One search for each end of a window, up to the last end asked for.
    requests: Vec<Search>,
    demands: Vec<Search>,
}

/// A search back from one end, as far as it was needed until now.
struct Search {
    row: Row,
    /// Place k has the bound of the window that begins k ticks before the end.
    bounds: Vec<u32>,
}

impl Remembered {
    pub fn new(machine: &Machine, hyperperiod: u32) -> Self {
        let actions = |tick| machine.actions_at(tick).map(|(_, a)| *a).collect();
        Remembered {
            actions_at: (0..hyperperiod).map(actions).collect(),
            requests: Vec::new(),
            demands: Vec::new(),
        }
    }

    pub fn request(&mut self, start: u32, end: u32) -> u32 {
        search(&mut self.requests, end).bound(&self.actions_at, Count::Request, start, end)
    }

    pub fn demand(&mut self, start: u32, end: u32) -> u32 {
        search(&mut self.demands, end).bound(&self.actions_at, Count::Demand, start, end)
    }
}

fn search(searches: &mut Vec<Search>, end: u32) -> &mut Search {
    let end = end as usize;
    while searches.len() <= end {
        searches.push(Search {
            row: [0; MOST_STATES],
            bounds: vec![0],
        });
    }
    &mut searches[end]
}

impl Search {
    fn bound(&mut self, actions_at: &[Vec<Action>], count: Count, start: u32, end: u32) -> u32 {
        let wanted = (end - start) as usize;
        for back in self.bounds.len()..=wanted {
            let tick = end - back as u32;
            let actions = &actions_at[tick as usize % actions_at.len()];
            self.row = step(&self.row, actions.iter(), |a| count.gain(a, tick, end));
            self.bounds.push(best(&self.row));
        }
        self.bounds[wanted]
    }
}
