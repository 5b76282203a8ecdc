//! Questions that meet both ends of every window rule.

use crate::bounds::{LAST_TICK, LONGEST_WINDOW};
use crate::plain::MOST_INSTANTS;
use crate::question::{Kind, Question};
use crate::random::Random;
use crate::sheet::{Machine, Sheet, MOST_STATES};

/// About as many steps as a plain reckoner may take for one question.
const MOST_STEPS: u64 = 1_000_000;

/// A question of this kind about a sheet, or about bytes that are refused.
pub fn question(random: &mut Random, kind: Kind, sheet: Option<&Sheet>) -> Question {
    loop {
        let question = any_question(random, kind, sheet);
        let asked = sheet.and_then(|sheet| sheet.machines.get(question.machine as usize));
        // A reckoner without a table would take for ever where the branching is widest.
        if kind != Kind::Plain || !asked.is_some_and(|machine| is_wide(machine, &question)) {
            return question;
        }
    }
}

fn any_question(random: &mut Random, kind: Kind, sheet: Option<&Sheet>) -> Question {
    let machine = machine(random, sheet.map_or(2, |sheet| sheet.machines.len() as u32));
    let asked = sheet.and_then(|sheet| sheet.machines.get(machine as usize));
    let hyperperiod = sheet.map_or(100, |sheet| sheet.hyperperiod);
    let (start, end) = window(random, hyperperiod, asked.map_or(1, Machine::divisor));
    let last = match kind {
        // A table is asked for by its longest length; wrapping makes an end before the start huge.
        Kind::Table => end.wrapping_sub(start),
        _ => end,
    };
    Question {
        kind,
        machine,
        start,
        last,
    }
}

fn machine(random: &mut Random, count: u32) -> u32 {
    match random.within(0..=14) {
        0 => random.pick(&[count, count + 1, 8, 255, 256, 1 << 31, u32::MAX]),
        _ => random.within(0..=count - 1),
    }
}

/// Windows of every length; the divisor is the least time from one instant to the next.
fn window(random: &mut Random, hyperperiod: u32, divisor: u32) -> (u32, u32) {
    let start = random.within(0..=2 * hyperperiod);
    let least = random.within(0..=8 * divisor).min(LONGEST_WINDOW);
    match random.within(0..=11) {
        0 => edge(random),
        1 => (start, start + random.within(0..=LONGEST_WINDOW)),
        2 => (start, start + LONGEST_WINDOW + random.within(0..=1)),
        3 => (LAST_TICK - start, LAST_TICK - start / 2),
        4 => (start, start.saturating_sub(random.within(0..=2))),
        5..=8 => (start, start + least),
        _ => (start, start + random.within(0..=40)),
    }
}

/// Windows just inside and just outside a rule, and those that go wrong in 32 bits.
fn edge(random: &mut Random) -> (u32, u32) {
    random.pick(&[
        (1, 0),
        (7, 3),
        (0, 0),
        (0, 1),
        (0, LONGEST_WINDOW),
        (0, LONGEST_WINDOW + 1),
        (LAST_TICK - LONGEST_WINDOW, LAST_TICK),
        (LAST_TICK - LONGEST_WINDOW - 1, LAST_TICK),
        (LAST_TICK, LAST_TICK),
        (LAST_TICK, LAST_TICK + 1),
        (LAST_TICK + 1, LAST_TICK + 1),
        (LAST_TICK - 1, LAST_TICK + 1),
        (0, u32::MAX),
        (u32::MAX, u32::MAX),
        (u32::MAX, 0),
        (u32::MAX, 1),
        (u32::MAX - 1, u32::MAX),
    ])
}

/// Whether following each legal sequence of the window by itself takes too many steps.
fn is_wide(machine: &Machine, question: &Question) -> bool {
    let (start, end) = (question.start, question.last);
    // Refused, and so no work at all.
    if end < start || end - start > LONGEST_WINDOW {
        return false;
    }
    let instants = machine.instants(start, end);
    if instants.len() > MOST_INSTANTS {
        return false;
    }
    // For each state, the legal sequences that begin there.
    let mut sequences = [1u64; MOST_STATES];
    for instant in instants.iter().rev() {
        let later = sequences;
        for (_, action) in &instant.actions {
            sequences[action.source] += later[action.sink];
        }
    }
    let a_sequence = u64::from(end - start).max(machine.actions.len() as u64);
    sequences.iter().sum::<u64>() * a_sequence > MOST_STEPS
}
