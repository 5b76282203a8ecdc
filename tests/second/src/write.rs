//! Lays machines out as a sheet, faults and all: the check must be able to meet them.

use crate::sheet::{Action, Machine, MARK};

pub fn write(machines: &[Machine]) -> Vec<u8> {
    let mut bytes = Vec::new();
    let mut entries = Vec::new();
    for machine in machines {
        let sizes = [machine.states, machine.initial, machine.actions.len(), 0];
        entries.extend(sizes.map(|size| size as u8));
        entries.extend((bytes.len() as u32).to_le_bytes());
        for action in &machine.actions {
            bytes.extend(write_action(action));
        }
    }
    let offset = bytes.len() as u32;
    bytes.extend(entries);
    bytes.extend(offset.to_le_bytes());
    bytes.extend((machines.len() as u32).to_le_bytes());
    bytes.extend(MARK);
    bytes
}

fn write_action(action: &Action) -> Vec<u8> {
    let mut bytes = vec![action.source as u8, action.sink as u8];
    for number in [action.period, action.time, action.deadline] {
        bytes.extend((number as u16).to_le_bytes());
    }
    bytes
}
