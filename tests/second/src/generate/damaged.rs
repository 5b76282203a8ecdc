//! Sheets with one fault or several, so that the order of the rules matters.

use super::layout::Layout;
use super::valid;
use crate::random::Random;
use crate::sheet::{LONGEST, MOST_ACTIONS, MOST_STATES, MOST_TICKS, SHORTEST};

pub fn sheet(random: &mut Random) -> Vec<u8> {
    let mut sheet = Layout::new(valid::machines(random));
    for _ in 0..random.pick(&[1, 1, 1, 2, 3, 4]) {
        let fault = random.pick(&FAULTS);
        fault(&mut sheet, random);
    }
    // Last, because it moves what the other faults would look for.
    if random.percent(15) {
        change_length(&mut sheet.bytes, random);
    }
    sheet.bytes
}

const FAULTS: [fn(&mut Layout, &mut Random); 14] = [
    flip_bits,
    spoil_mark,
    spoil_count,
    recount,
    spoil_trailer_offset,
    spoil_entry,
    spoil_offset,
    swap_offsets,
    spoil_action_count,
    spoil_action,
    spoil_deadline,
    spoil_period,
    spoil_period,
    stretch,
];

/// Numbers around which 32-bit sums go wrong.
const HUGE: [u32; 6] = [
    u32::MAX,
    u32::MAX - 7,
    u32::MAX - 11,
    0x8000_0000,
    0x2000_0000,
    0x2000_0001,
];

fn flip_bits(sheet: &mut Layout, random: &mut Random) {
    for _ in 0..random.pick(&[1, 1, 2, 8]) {
        let place = random.place(sheet.bytes.len());
        sheet.bytes[place] ^= 1 << random.place(8);
    }
}

fn spoil_mark(sheet: &mut Layout, random: &mut Random) {
    let place = sheet.before_end(1 + random.place(4));
    sheet.bytes[place] = random.within(0..=255) as u8;
}

fn spoil_count(sheet: &mut Layout, random: &mut Random) {
    let right = sheet.machines.len() as u32;
    let count = match random.within(0..=3) {
        0 => random.pick(&HUGE),
        1 => random.pick(&[0, 9]),
        // Right in its lowest byte only.
        2 => right | 1 << random.within(8..=31),
        _ => random.within(0..=9),
    };
    sheet.put_word(sheet.before_end(8), count);
}

/// Another number of machines, with a trailer's offset that goes with it.
fn recount(sheet: &mut Layout, random: &mut Random) {
    let count = random.within(1..=8);
    let length = sheet.bytes.len() as u32;
    sheet.put_word(sheet.before_end(8), count);
    // Wraps when the entries would begin before the sheet.
    sheet.put_word(sheet.before_end(12), length.wrapping_sub(12 + 8 * count));
}

fn spoil_trailer_offset(sheet: &mut Layout, random: &mut Random) {
    let right = sheet.entry(0) as u32;
    sheet.put_word(sheet.before_end(12), beside(random, right));
}

fn spoil_entry(sheet: &mut Layout, random: &mut Random) {
    let machine = sheet.any_machine(random);
    let states = sheet.machines[machine].states as u8;
    let (byte, value) = match random.within(0..=3) {
        0 => (0, random.pick(&[0, MOST_STATES as u8 + 1, 255])),
        1 => (1, random.pick(&[states, states + 1, 255])),
        2 => (2, random.pick(&[0, MOST_ACTIONS as u8 + 1, 255])),
        _ => (3, random.pick(&[1, 128, 255])),
    };
    let place = sheet.entry(machine) + byte;
    sheet.bytes[place] = value;
}

fn spoil_offset(sheet: &mut Layout, random: &mut Random) {
    let machine = sheet.any_machine(random);
    let right = sheet.offset(machine) as u32;
    sheet.put_word(sheet.entry(machine) + 4, beside(random, right));
}

fn swap_offsets(sheet: &mut Layout, random: &mut Random) {
    let one = sheet.entry(sheet.any_machine(random)) + 4;
    let other = sheet.entry(sheet.any_machine(random)) + 4;
    for byte in 0..4 {
        sheet.bytes.swap(one + byte, other + byte);
    }
}

/// Later offsets stay, or follow so that only the end of the actions is wrong.
fn spoil_action_count(sheet: &mut Layout, random: &mut Random) {
    let machine = sheet.any_machine(random);
    let right = sheet.machines[machine].actions.len();
    let count = 1 + random.place(MOST_ACTIONS);
    let place = sheet.entry(machine) + 2;
    sheet.bytes[place] = count as u8;
    if random.percent(50) {
        for later in machine + 1..sheet.machines.len() {
            let moved = sheet.offset(later) + 8 * count - 8 * right;
            sheet.put_word(sheet.entry(later) + 4, moved as u32);
        }
    }
}

fn spoil_action(sheet: &mut Layout, random: &mut Random) {
    let (machine, action) = sheet.any_action(random);
    let place = sheet.action(machine, action);
    let states = sheet.machines[machine].states as u8;
    let ticks = random.pick(&[0, MOST_TICKS as u16 + 1, u16::MAX]);
    match random.within(0..=4) {
        0 => sheet.bytes[place] = random.pick(&[states, 255]),
        1 => sheet.bytes[place + 1] = random.pick(&[states, 255]),
        2 => sheet.put_half(place + 2, ticks),
        3 => sheet.put_half(place + 4, ticks),
        _ => sheet.put_half(place + 6, 0),
    }
}

fn spoil_deadline(sheet: &mut Layout, random: &mut Random) {
    let (machine, action) = sheet.any_action(random);
    let divisor = sheet.machines[machine].divisor() as u16;
    let deadline = random.pick(&[divisor + 1, divisor + 1, 2 * divisor, u16::MAX]);
    sheet.put_half(sheet.action(machine, action) + 6, deadline);
}

/// Any period in range, mostly with deadlines that suit every divisor: only H is in danger.
fn spoil_period(sheet: &mut Layout, random: &mut Random) {
    let (machine, action) = sheet.any_action(random);
    let any = random.within(1..=MOST_TICKS);
    let period = random.pick(&[3, 7, 512, 1_021, MOST_TICKS, any]);
    sheet.put_half(sheet.action(machine, action) + 2, period as u16);
    if random.percent(80) {
        for action in 0..sheet.machines[machine].actions.len() {
            sheet.put_half(sheet.action(machine, action) + 6, 1);
        }
    }
}

/// Periods whose least common multiple is just above what H may be, or just not.
fn stretch(sheet: &mut Layout, random: &mut Random) {
    let periods = random.pick(&[
        [25, 41],
        [27, 38],
        [32, 33],
        [64, 17],
        [31, 33],
        [512, 1_024],
    ]);
    for machine in 0..sheet.machines.len() {
        for action in 0..sheet.machines[machine].actions.len() {
            let place = sheet.action(machine, action);
            sheet.put_half(place + 2, random.pick(&periods));
            sheet.put_half(place + 6, 1);
        }
    }
}

fn change_length(bytes: &mut Vec<u8>, random: &mut Random) {
    let length = bytes.len();
    let kept = match random.within(0..=5) {
        // Its last bytes go.
        0 => {
            bytes.truncate(random.place(length));
            return;
        }
        // Its first bytes go: any number, or until it is just too short.
        1 => random.place(length),
        2 => SHORTEST - 1,
        // Bytes come before it: a few, or all there is room for, or just too many.
        3 => length + 1 + random.place(16),
        4 => LONGEST.max(length),
        _ => random.pick(&[0, LONGEST + 1, LONGEST + 1, 4_096]),
    };
    bytes.reverse();
    bytes.resize(kept, 0);
    bytes.reverse();
}

/// A number beside the right one, or one that only wrapping sums take for it.
fn beside(random: &mut Random, right: u32) -> u32 {
    match random.within(0..=3) {
        0 => right.wrapping_add(random.pick(&[1, 8])),
        1 => right.wrapping_sub(random.pick(&[1, 8])),
        2 => right.wrapping_add(random.pick(&[0x8000_0000, 0x2000_0000, 0x0001_0000])),
        _ => random.pick(&HUGE),
    }
}
