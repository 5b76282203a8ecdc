//! Runs aimed at one window: every machine is brought, without work, to the state from which
//! it can ask for most there, and then does its longest work.

use crate::back::{rows, Count};
use crate::critical::follow;
use crate::legal::Pair;
use crate::random::Random;
use crate::run::{Run, Trigger};
use crate::sheet::{Machine, Sheet};
use crate::verdict::Window;

/// What one machine is to do: pairs without work, then pairs with all of it.
struct Plan {
    way: Vec<usize>,
    work: Vec<Pair>,
}

/// A window anywhere, each machine with a length of its own.
pub fn any_window(sheet: &Sheet, random: &mut Random) -> Option<usize> {
    let start = random.within(0..=sheet.hyperperiod - 1);
    let all = (2 * sheet.hyperperiod).min(600);
    let most = |machine| plan(machine, Count::Request, start, random.within(1..=all), all);
    let plans: Vec<Plan> = sheet.machines.iter().map(most).collect();
    run(sheet, start, &plans)
}

/// The window of a Late: the higher machines' requests against the machine's own demand.
pub fn late_window(
    sheet: &Sheet,
    window: Window,
    attempt: u32,
    random: &mut Random,
) -> Option<usize> {
    let (start, length) = (window.start, window.length);
    let own = window.machine as usize;
    let most = |machine| {
        // A bound may need another sequence for each length, so other lengths are tried too.
        let first = match attempt {
            0 => length,
            _ => random.within(1..=length),
        };
        plan(machine, Count::Request, start, first, length)
    };
    let mut plans: Vec<Plan> = sheet.machines[..own].iter().map(most).collect();
    plans.push(plan(
        &sheet.machines[own],
        Count::Demand,
        start,
        length,
        length,
    ));
    run(sheet, start, &plans)
}

/// The best total over the first ticks, and then the best that is left of all of them.
fn plan(machine: &Machine, count: Count, start: u32, first: u32, all: u32) -> Plan {
    let ways = ways(machine);
    let middle = start + first;
    let totals = rows(machine, count, start, middle);
    let reached = (0..machine.states).filter(|&q| ways[q].is_some());
    let best = reached.max_by_key(|&q| totals[0][q]);
    let state = best.unwrap_or(machine.initial);
    let mut work = follow(machine, count, start, &totals, Some(state));
    let sink = |pair: &Pair| machine.actions[pair.action].sink;
    let end = work.last().map_or(state, sink);
    let rest = rows(machine, count, middle, start + all);
    work.extend(follow(machine, count, middle, &rest, Some(end)));
    Plan {
        way: ways[state].clone().unwrap_or_default(),
        work,
    }
}

/// For each state the actions that lead there from the initial one, if any do.
fn ways(machine: &Machine) -> Vec<Option<Vec<usize>>> {
    let mut ways = vec![None; machine.states];
    ways[machine.initial] = Some(Vec::new());
    let mut open = vec![machine.initial];
    while let Some(state) = open.pop() {
        for (number, action) in machine.actions.iter().enumerate() {
            if action.source == state && ways[action.sink].is_none() {
                let mut way = ways[state].clone().unwrap_or_default();
                way.push(number);
                ways[action.sink] = Some(way);
                open.push(action.sink);
            }
        }
    }
    ways
}

/// The first machine that is late when all plans are carried out.
fn run(sheet: &Sheet, start: u32, plans: &[Plan]) -> Option<usize> {
    let mut run = Run::new(sheet);
    // Every action has an instant at each multiple of the hyperperiod: one step of the way there.
    let steps = plans.iter().map(|plan| plan.way.len()).max().unwrap_or(0);
    for step in 0..steps {
        let idle = |&action: &usize| Trigger { action, work: 0 };
        let triggers = plans.iter().map(|plan| plan.way.get(step).map(idle));
        run.step(&triggers.collect::<Vec<_>>());
        while !run.tick().is_multiple_of(sheet.hyperperiod) {
            run.step(&[]);
        }
    }
    let last = plans.iter().filter_map(|plan| plan.work.last());
    let end = last.map(|pair| pair.instant).max().unwrap_or(start);
    // Ticks count from here on; no deadline is longer than the hyperperiod.
    (0..=end + sheet.hyperperiod).find_map(|tick| {
        let triggers = plans.iter().zip(&sheet.machines).map(|(plan, machine)| {
            let pair = plan.work.iter().find(|pair| pair.instant == tick)?;
            Some(Trigger {
                action: pair.action,
                work: machine.actions[pair.action].time,
            })
        });
        run.step(&triggers.collect::<Vec<_>>())
    })
}
