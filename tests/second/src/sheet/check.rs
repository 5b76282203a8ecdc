//! The bytes of a sheet, and refusals 1 to 9 in their order, each over the entire sheet.

use super::{hyperperiod, Action, Machine, Refusal, Sheet};
use super::{LONGEST, MARK, MOST_ACTIONS, MOST_MACHINES, MOST_STATES, MOST_TICKS, SHORTEST};

const TRAILER: usize = 12;
const ENTRY: usize = 8;
const ACTION: usize = 8;

/// Reads a sheet, or gives the first of refusals 1 to 9 that applies.
pub fn check(bytes: &[u8]) -> Result<Sheet, Refusal> {
    let entries = entries(bytes)?;
    check_entries(&entries)?;
    let end_of_actions = bytes.len() - TRAILER - ENTRY * entries.len();
    check_offsets(&entries, end_of_actions)?;
    let machines = read_machines(bytes, &entries);
    check_ranges(&machines)?;
    check_deadlines(&machines)?;
    let hyperperiod = hyperperiod(&machines).ok_or(Refusal::new(9))?;
    Ok(Sheet {
        machines,
        hyperperiod,
    })
}

/// A machine entry as it stands in the sheet.
struct Entry {
    states: u8,
    initial: u8,
    actions: u8,
    zero: u8,
    offset: u32,
}

/// Rules 1 to 4: the trailer, and with it where the entries are.
fn entries(bytes: &[u8]) -> Result<Vec<Entry>, Refusal> {
    let length = bytes.len();
    if !(SHORTEST..=LONGEST).contains(&length) {
        return Err(Refusal::new(1));
    }
    if !bytes.ends_with(MARK) {
        return Err(Refusal::new(2));
    }
    let machines = word(&bytes[length - 8..]);
    if machines == 0 || machines > MOST_MACHINES {
        return Err(Refusal::new(3));
    }
    let after_actions = TRAILER + ENTRY * machines as usize;
    let offset = word(&bytes[length - TRAILER..]);
    // As a sum it also refuses entries that would begin before the sheet does.
    if offset as u64 + after_actions as u64 != length as u64 {
        return Err(Refusal::new(4));
    }
    let places = bytes[offset as usize..length - TRAILER].chunks_exact(ENTRY);
    Ok(places.map(read_entry).collect())
}

fn read_entry(bytes: &[u8]) -> Entry {
    Entry {
        states: bytes[0],
        initial: bytes[1],
        actions: bytes[2],
        zero: bytes[3],
        offset: word(&bytes[4..]),
    }
}

/// Rule 5.
fn check_entries(entries: &[Entry]) -> Result<(), Refusal> {
    let in_range = |e: &Entry| {
        (1..=MOST_STATES).contains(&e.states.into())
            && e.initial < e.states
            && (1..=MOST_ACTIONS).contains(&e.actions.into())
            && e.zero == 0
    };
    match entries.iter().position(|e| !in_range(e)) {
        Some(machine) => Err(Refusal::at(5, machine as u32, 0)),
        None => Ok(()),
    }
}

/// Rule 6: every entry's offset, then the end of the actions.
fn check_offsets(entries: &[Entry], end_of_actions: usize) -> Result<(), Refusal> {
    let mut right = 0;
    for (machine, entry) in entries.iter().enumerate() {
        if entry.offset as usize != right {
            return Err(Refusal::at(6, machine as u32, 0));
        }
        right += ACTION * entry.actions as usize;
    }
    if right != end_of_actions {
        return Err(Refusal::at(6, entries.len() as u32, 0));
    }
    Ok(())
}

/// The machines, once rule 6 has shown that their actions are inside the sheet.
fn read_machines(bytes: &[u8], entries: &[Entry]) -> Vec<Machine> {
    let mut actions = bytes.chunks_exact(ACTION).map(read_action);
    let machine = |entry: &Entry| Machine {
        states: entry.states.into(),
        initial: entry.initial.into(),
        actions: actions.by_ref().take(entry.actions.into()).collect(),
    };
    entries.iter().map(machine).collect()
}

fn read_action(bytes: &[u8]) -> Action {
    Action {
        source: bytes[0].into(),
        sink: bytes[1].into(),
        period: half(&bytes[2..]),
        time: half(&bytes[4..]),
        deadline: half(&bytes[6..]),
    }
}

/// Rule 7, over the entire sheet before rule 8 looks at any action.
fn check_ranges(machines: &[Machine]) -> Result<(), Refusal> {
    for (number, machine) in machines.iter().enumerate() {
        refuse_first(7, number, machine, |action| {
            action.source >= machine.states
                || action.sink >= machine.states
                || !(1..=MOST_TICKS).contains(&action.period)
                || !(1..=MOST_TICKS).contains(&action.time)
                || action.deadline == 0
        })?;
    }
    Ok(())
}

/// Rule 8; the divisor is that of all the machine's actions, also of later ones.
fn check_deadlines(machines: &[Machine]) -> Result<(), Refusal> {
    for (number, machine) in machines.iter().enumerate() {
        let divisor = machine.divisor();
        refuse_first(8, number, machine, |action| action.deadline > divisor)?;
    }
    Ok(())
}

/// Refuses at the machine's first action that has the fault.
fn refuse_first(
    rule: u32,
    number: usize,
    machine: &Machine,
    fault: impl Fn(&Action) -> bool,
) -> Result<(), Refusal> {
    match machine.actions.iter().position(fault) {
        Some(action) => Err(Refusal::at(rule, number as u32, action as u32)),
        None => Ok(()),
    }
}

fn half(bytes: &[u8]) -> u32 {
    u16::from_le_bytes([bytes[0], bytes[1]]).into()
}

fn word(bytes: &[u8]) -> u32 {
    u32::from_le_bytes([bytes[0], bytes[1], bytes[2], bytes[3]])
}
