//! What falls due at the lengths of a walk.

use crate::bounds::LONGEST_WINDOW;
use crate::sheet::{Machine, MOST_TICKS};

/// For each length, the best total whose last deadline is exactly there; 0 between walks.
pub struct Due(Vec<u32>);

impl Due {
    pub fn new() -> Self {
        Due(vec![0; (LONGEST_WINDOW + MOST_TICKS) as usize])
    }

    pub fn note(&mut self, length: u32, total: u32) {
        let best = &mut self.0[length as usize];
        *best = total.max(*best);
    }

    pub fn take(&mut self, length: u32) -> u32 {
        std::mem::take(&mut self.0[length as usize])
    }

    /// Forgets the deadlines that lie past the last length of a walk.
    pub fn clear(&mut self, last: u32, machine: &Machine) {
        let deadlines = machine.actions.iter().map(|action| action.deadline);
        let furthest = last + deadlines.max().unwrap_or(0);
        self.0[last as usize..furthest as usize].fill(0);
    }
}
