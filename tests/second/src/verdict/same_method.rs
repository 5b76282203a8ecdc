//! The verdict by the method of the proved one, so that their speeds can be compared.
//!
//! The sheet's bytes are read where they stand. Which actions have an instant at a tick is found
//! once, by remainders; what is due is reckoned only at a length that could fail.

use super::ones::ones;
use super::{first_failure, Verdict, MACHINES};
use crate::back::Row;
use crate::bounds::LONGEST_WINDOW;
use crate::sheet::{Machine, Sheet, MOST_STATES};

/// The verdict of a sheet, given its bytes and what they were found to say.
pub fn same_method(bytes: &[u8], sheet: &Sheet) -> Verdict {
    let walker = Walker::new(bytes, sheet);
    first_failure(sheet, |machine, start| walker.walk(machine, start))
}

struct Walker<'a> {
    bytes: &'a [u8],
    entries: Vec<Entry>,
    /// For each machine and tick below the hyperperiod a bit for each action with an instant.
    masks: Vec<Vec<u32>>,
    /// For each tick the lowest machine with an instant, or the number of machines.
    lowest: Vec<usize>,
}

struct Entry {
    states: usize,
    /// Where its first action stands.
    first: usize,
}

/// A machine in a walk: the best total for each state, and the best of all.
#[derive(Clone, Copy)]
struct Line {
    row: Row,
    top: u32,
}

const IDLE: Line = Line {
    row: [0; MOST_STATES],
    top: 0,
};

/// The machines of a walk, the request bounds above the last of them, and its own last instant.
struct Level {
    lines: [Line; MACHINES],
    above: u32,
    last: Last,
}

/// A machine's last instant so far: the row before it, its actions, the ticks before it.
struct Last {
    row: Row,
    mask: u32,
    ticks: u32,
}

impl<'a> Walker<'a> {
    fn new(bytes: &'a [u8], sheet: &Sheet) -> Self {
        let mut first = 0;
        let entry = |machine: &Machine| {
            let entry = Entry {
                states: machine.states,
                first,
            };
            first += 8 * machine.actions.len();
            entry
        };
        let entries = sheet.machines.iter().map(entry).collect();
        let machines = sheet.machines.iter();
        let masks: Vec<Vec<u32>> = machines
            .map(|machine| masks(machine, sheet.hyperperiod))
            .collect();
        let lowest = |tick: u32| {
            let found = masks.iter().position(|machine| machine[tick as usize] != 0);
            found.unwrap_or(masks.len())
        };
        Walker {
            bytes,
            entries,
            lowest: (0..sheet.hyperperiod).map(lowest).collect(),
            masks,
        }
    }

    fn walk(&self, machine: usize, start: u32) -> Option<Verdict> {
        let mut level = Level {
            lines: [IDLE; MACHINES],
            above: 0,
            last: Last {
                row: IDLE.row,
                mask: 0,
                ticks: 0,
            },
        };
        let mut slack = 0;
        let mut place = start as usize;
        for length in 1..=LONGEST_WINDOW {
            if self.lowest[place] <= machine {
                self.move_level(&mut level, machine, place, length - 1);
            }
            place += 1;
            if place == self.lowest.len() {
                place = 0;
            }
            let own = level.lines[machine].top;
            if level.above + own <= length {
                return None;
            }
            slack = slack.max(length.saturating_sub(level.above));
            if slack < own {
                let demand = self.due_within(machine, &level.last, length);
                if slack < demand {
                    return Some(Verdict::late(machine, start, length, demand));
                }
            }
        }
        Some(Verdict::open(machine, start))
    }

    /// Moves the machine and those above it over a tick, so many ticks from the start.
    fn move_level(&self, level: &mut Level, machine: usize, place: usize, ticks: u32) {
        let (higher, lower) = level.lines.split_at_mut(machine);
        level.above = 0;
        for (number, line) in higher.iter_mut().enumerate() {
            self.move_line(number, self.masks[number][place], line);
            level.above += line.top;
        }
        let mask = self.masks[machine][place];
        if mask != 0 {
            let row = lower[0].row;
            level.last = Last { row, mask, ticks };
            self.move_line(machine, mask, &mut lower[0]);
        }
    }

    fn move_line(&self, machine: usize, mask: u32, line: &mut Line) {
        if mask == 0 {
            return;
        }
        let entry = &self.entries[machine];
        let before = line.row;
        for at in places(mask, entry.first) {
            let sink = usize::from(self.bytes[at + 1]);
            line.row[sink] = line.row[sink].max(self.brought(at, &before));
        }
        line.top = top(&line.row, entry.states);
    }

    /// The most that is due within a length; the deadlines of earlier instants have passed.
    fn due_within(&self, machine: usize, last: &Last, length: u32) -> u32 {
        let entry = &self.entries[machine];
        let most = top(&last.row, entry.states);
        let due = |at: &usize| last.ticks + self.half(at + 6) <= length;
        let actions = places(last.mask, entry.first).filter(due);
        actions.fold(most, |most, at| most.max(self.brought(at, &last.row)))
    }

    /// What the action at a place brings to its sink.
    fn brought(&self, at: usize, row: &Row) -> u32 {
        row[usize::from(self.bytes[at])] + self.half(at + 4)
    }

    fn half(&self, at: usize) -> u32 {
        u16::from_le_bytes([self.bytes[at], self.bytes[at + 1]]).into()
    }
}

fn masks(machine: &Machine, hyperperiod: u32) -> Vec<u32> {
    // Every instant is a multiple of the divisor, so most ticks need no look at the actions.
    let divisor = machine.divisor();
    let mask = |tick| match tick % divisor {
        0 => mask(machine, tick),
        _ => 0,
    };
    (0..hyperperiod).map(mask).collect()
}

fn mask(machine: &Machine, tick: u32) -> u32 {
    let bits = machine.actions_at(tick).map(|(number, _)| 1 << number);
    bits.fold(0, |mask, bit| mask | bit)
}

/// Where the actions of a mask stand.
fn places(mask: u32, first: usize) -> impl Iterator<Item = usize> {
    ones(mask).map(move |number| first + 8 * number)
}

fn top(row: &Row, states: usize) -> u32 {
    row[..states].iter().copied().max().unwrap_or(0)
}
