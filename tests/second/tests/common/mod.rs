//! Sheets to test with.
#![allow(dead_code)]

use second::sheet::{check, Action, Machine, Refusal, Sheet};
use second::write::write;

/// The bytes of the sheet PAIR.
pub const PAIR: [u8; 68] = [
    0x00, 0x00, 0x28, 0x00, 0x0E, 0x00, 0x28, 0x00, 0x00, 0x01, 0x28, 0x00, 0x05, 0x00, 0x14, 0x00,
    0x02, 0x00, 0x64, 0x00, 0x06, 0x00, 0x14, 0x00, 0x01, 0x02, 0x28, 0x00, 0x02, 0x00, 0x14, 0x00,
    0x01, 0x02, 0x64, 0x00, 0x03, 0x00, 0x14, 0x00, 0x01, 0x00, 0x01, 0x00, 0x00, 0x00, 0x00, 0x00,
    0x03, 0x00, 0x04, 0x00, 0x08, 0x00, 0x00, 0x00, 0x28, 0x00, 0x00, 0x00, 0x02, 0x00, 0x00, 0x00,
    0x53, 0x46, 0x53, 0x31,
];

/// Source, sink, period, time, deadline.
pub type Row = (usize, usize, u32, u32, u32);

/// A machine that begins in state 0.
pub fn machine(states: usize, rows: &[Row]) -> Machine {
    let action = |&(source, sink, period, time, deadline): &Row| Action {
        source,
        sink,
        period,
        time,
        deadline,
    };
    Machine {
        states,
        initial: 0,
        actions: rows.iter().map(action).collect(),
    }
}

pub fn sheet(machines: &[Machine]) -> Sheet {
    check(&write(machines)).expect("the sheet is accepted")
}

pub fn pair() -> Sheet {
    check(&PAIR).expect("PAIR is accepted")
}

/// PAIR with some bytes changed.
pub fn pair_with(changes: &[(usize, u8)]) -> Vec<u8> {
    let mut bytes = PAIR.to_vec();
    for &(place, byte) in changes {
        bytes[place] = byte;
    }
    bytes
}

/// The longest sheet: eight machines of 32 actions with an instant at every tick.
pub fn longest() -> Vec<u8> {
    let machine = machine(1, &[(0, 0, 1, 1, 1); 32]);
    write(&vec![machine; 8])
}

pub fn refused(bytes: &[u8]) -> (u32, u32, u32) {
    place(check(bytes).expect_err("the sheet is refused"))
}

pub fn place(refusal: Refusal) -> (u32, u32, u32) {
    (refusal.number, refusal.first, refusal.second)
}
