//! The verdict by the plainest walk: every start, every tick, every action tested.

use super::due::Due;
use super::{first_failure, Verdict, MACHINES};
use crate::back::Row;
use crate::bounds::LONGEST_WINDOW;
use crate::sheet::{Machine, Sheet, MOST_STATES};

pub fn plain_walk(sheet: &Sheet) -> Verdict {
    let mut due = Due::new();
    first_failure(sheet, |machine, start| {
        let (last, found) = walk(&sheet.machines[..=machine], start, &mut due);
        due.clear(last, &sheet.machines[machine]);
        found
    })
}

/// Walks the lengths from one start for the last of these machines; the last length looked at,
/// and what it showed.
fn walk(machines: &[Machine], start: u32, due: &mut Due) -> (u32, Option<Verdict>) {
    let machine = machines.len() - 1;
    // For each machine the best total of the sequences so far that end in each state.
    let mut rows: [Row; MACHINES] = [[0; MOST_STATES]; MACHINES];
    let mut requests = [0; MACHINES];
    let mut demand = 0;
    let mut slack = 0;
    for length in 1..=LONGEST_WINDOW {
        let tick = start + length - 1;
        for (number, each) in machines.iter().enumerate() {
            let before = rows[number];
            for action in &each.actions {
                if !action.has_instant(tick) {
                    continue;
                }
                let total = before[action.source] + action.time;
                rows[number][action.sink] = total.max(rows[number][action.sink]);
                requests[number] = total.max(requests[number]);
                if number == machine {
                    // What came before it was due by now: a deadline is at most the divisor.
                    due.note(length - 1 + action.deadline, total);
                }
            }
        }
        let above: u32 = requests[..machine].iter().sum();
        if above + requests[machine] <= length {
            return (length, None);
        }
        // The largest m less the higher requests over m: some m passes when the demand is below.
        slack = slack.max(length.saturating_sub(above));
        demand = demand.max(due.take(length));
        if demand > slack {
            return (length, Some(Verdict::late(machine, start, length, demand)));
        }
    }
    (LONGEST_WINDOW, Some(Verdict::open(machine, start)))
}
