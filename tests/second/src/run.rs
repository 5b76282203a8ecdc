//! A run of a sheet, one tick at a time.

use crate::sheet::Sheet;
use std::collections::VecDeque;

/// An action triggered now, and the work it brings.
#[derive(Debug, Clone, Copy, PartialEq, Eq)]
pub struct Trigger {
    pub action: usize,
    pub work: u32,
}

pub struct Run<'a> {
    sheet: &'a Sheet,
    tick: u32,
    states: Vec<usize>,
    /// For each machine its unfinished actions, oldest first.
    unfinished: Vec<VecDeque<Unfinished>>,
}

struct Unfinished {
    /// Instant plus deadline.
    due: u32,
    work: u32,
}

impl<'a> Run<'a> {
    pub fn new(sheet: &'a Sheet) -> Self {
        Run {
            sheet,
            tick: 0,
            states: sheet.machines.iter().map(|m| m.initial).collect(),
            unfinished: sheet.machines.iter().map(|_| VecDeque::new()).collect(),
        }
    }

    pub fn tick(&self) -> u32 {
        self.tick
    }

    /// The actions a machine may trigger at this tick.
    pub fn legal(&self, machine: usize) -> Vec<usize> {
        let now = self.sheet.machines[machine].actions_at(self.tick);
        let next = now.filter(|(_, action)| action.source == self.states[machine]);
        next.map(|(number, _)| number).collect()
    }

    /// One tick; gives the first machine with an action that is late after it.
    pub fn step(&mut self, triggers: &[Option<Trigger>]) -> Option<usize> {
        for (machine, trigger) in triggers.iter().enumerate() {
            if let Some(trigger) = trigger {
                self.trigger(machine, trigger);
            }
        }
        self.work();
        self.tick += 1;
        let late = |queue: &VecDeque<Unfinished>| queue.iter().any(|u| self.tick >= u.due);
        self.unfinished.iter().position(late)
    }

    fn trigger(&mut self, machine: usize, trigger: &Trigger) {
        let action = &self.sheet.machines[machine].actions[trigger.action];
        assert!(self.legal(machine).contains(&trigger.action));
        assert!(trigger.work <= action.time);
        self.states[machine] = action.sink;
        // Without work it is finished at once.
        if trigger.work > 0 {
            self.unfinished[machine].push_back(Unfinished {
                due: self.tick + action.deadline,
                work: trigger.work,
            });
        }
    }

    /// One unit for the highest machine that has any, for its oldest action.
    fn work(&mut self) {
        if let Some(queue) = self.unfinished.iter_mut().find(|q| !q.is_empty()) {
            queue[0].work -= 1;
            if queue[0].work == 0 {
                queue.pop_front();
            }
        }
    }
}
