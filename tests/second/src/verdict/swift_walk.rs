//! The verdict by a walk written for speed: what has an instant when is kept as bits.

use super::due::Due;
use super::ones::ones;
use super::{first_failure, Verdict, MACHINES};
use crate::back::Row;
use crate::bounds::LONGEST_WINDOW;
use crate::sheet::{Action, Machine, Sheet, MOST_STATES};

pub fn swift_walk(sheet: &Sheet) -> Verdict {
    let mut walker = Walker {
        machines: &sheet.machines,
        ticks: ticks(sheet),
        due: Due::new(),
    };
    first_failure(sheet, |machine, start| walker.walk(machine, start))
}

/// Who has an instant at one tick: a bit for each machine, and for each of its actions.
#[derive(Clone, Default)]
struct Tick {
    machines: u8,
    actions: [u32; MACHINES],
}

/// Every tick below the hyperperiod, filled from instant to instant.
fn ticks(sheet: &Sheet) -> Vec<Tick> {
    let mut ticks = vec![Tick::default(); sheet.hyperperiod as usize];
    for (number, machine) in sheet.machines.iter().enumerate() {
        for (place, action) in machine.actions.iter().enumerate() {
            for tick in ticks.iter_mut().step_by(action.period as usize) {
                tick.machines |= 1 << number;
                tick.actions[number] |= 1 << place;
            }
        }
    }
    ticks
}

struct Walker<'a> {
    machines: &'a [Machine],
    /// Those below the hyperperiod; later ones are the same again.
    ticks: Vec<Tick>,
    due: Due,
}

impl Walker<'_> {
    fn walk(&mut self, machine: usize, start: u32) -> Option<Verdict> {
        let (last, found) = self.lengths(machine, start);
        self.due.clear(last, &self.machines[machine]);
        found
    }

    /// The last length looked at, and what it showed.
    fn lengths(&mut self, machine: usize, start: u32) -> (u32, Option<Verdict>) {
        let higher = (1u8 << machine) - 1;
        let mut rows: [Row; MACHINES] = [[0; MOST_STATES]; MACHINES];
        // Request bounds: of each machine, and of all the higher ones together.
        let mut requests = [0; MACHINES];
        let mut above = 0;
        let mut demand = 0;
        // The largest m less the higher requests over m.
        let mut slack = 0;
        let mut place = start as usize;
        for length in 1..=LONGEST_WINDOW {
            let tick = &self.ticks[place];
            place += 1;
            if place == self.ticks.len() {
                place = 0;
            }
            for number in ones((tick.machines & higher).into()) {
                let actions = taken(&self.machines[number], tick.actions[number]);
                let request = take(&mut rows[number], requests[number], actions, |_, _| ());
                above += request - requests[number];
                requests[number] = request;
            }
            let actions = taken(&self.machines[machine], tick.actions[machine]);
            let due = &mut self.due;
            let note = |deadline, total| due.note(length - 1 + deadline, total);
            requests[machine] = take(&mut rows[machine], requests[machine], actions, note);
            if above + requests[machine] <= length {
                return (length, None);
            }
            slack = slack.max(length.saturating_sub(above));
            demand = demand.max(self.due.take(length));
            if demand > slack {
                return (length, Some(Verdict::late(machine, start, length, demand)));
            }
        }
        (LONGEST_WINDOW, Some(Verdict::open(machine, start)))
    }
}

/// Takes one of the actions from each state, notes each total, and gives the new request bound.
fn take<'a>(
    row: &mut Row,
    request: u32,
    actions: impl Iterator<Item = &'a Action>,
    mut note: impl FnMut(u32, u32),
) -> u32 {
    // Totals before this tick: only one action is taken in it.
    let before = *row;
    actions.fold(request, |request, action| {
        let total = before[action.source] + action.time;
        row[action.sink] = total.max(row[action.sink]);
        note(action.deadline, total);
        total.max(request)
    })
}

fn taken(machine: &Machine, bits: u32) -> impl Iterator<Item = &Action> {
    ones(bits).map(|number| &machine.actions[number])
}
