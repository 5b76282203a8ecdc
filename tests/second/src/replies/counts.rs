//! How often each reply came up, so that a comparison shows what it has compared.

use super::Case;
use crate::call::{Call, Reply};
use std::fmt;

const CALLS: [&str; 7] = [
    "check", "request", "demand", "table", "critical", "plain", "judge",
];
/// Numbers of replies, 0 included.
const NUMBERS: usize = 15;

/// Whether a call can have a reply with this number. Open, 13, is not among them: no accepted
/// sheet gives it.
fn can_come(number: usize, call: &str) -> bool {
    match number {
        0..=9 => true,
        10 | 11 => !["check", "judge"].contains(&call),
        12 => ["table", "critical"].contains(&call),
        14 => call == "plain",
        _ => false,
    }
}

type Test = fn(&Case, &Call, &Reply) -> bool;

/// What else has to come up, each with the replies that count for it.
const OTHERS: [(&str, Test); 10] = [
    ("Fits", |_, call, reply| is_verdict(call, reply, 0)),
    ("Late", |_, call, reply| is_verdict(call, reply, 4)),
    ("Late at a start above 0", |_, call, reply| {
        is_verdict(call, reply, 4) && reply.values[1] > 0
    }),
    ("5 at a machine above 0", |_, _, reply| {
        reply.number == 5 && reply.values[0] > 0
    }),
    ("6 at a machine", |case, _, reply| {
        reply.number == 6 && reply.values[0] != machine_count(case)
    }),
    ("6 at the number of machines", |case, _, reply| {
        reply.number == 6 && reply.values[0] == machine_count(case)
    }),
    ("7 at an action above 0", |_, _, reply| {
        reply.number == 7 && reply.values[1] > 0
    }),
    ("8 at an action above 0", |_, _, reply| {
        reply.number == 8 && reply.values[1] > 0
    }),
    ("all lent words written", |_, call, reply| {
        reply.number == 0 && call.lent().is_some_and(|lent| lent == written(reply))
    }),
    ("lent words left over", |_, call, reply| {
        reply.number == 0 && call.lent().is_some_and(|lent| lent > written(reply))
    }),
];

fn is_verdict(call: &Call, reply: &Reply, values: usize) -> bool {
    *call == Call::Judge && reply.number == 0 && reply.values.len() == values
}

fn written(reply: &Reply) -> u32 {
    reply.written.len() as u32
}

/// What the trailer of a refused sheet says.
fn machine_count(case: &Case) -> u32 {
    let place = case.bytes.len() - 8;
    u32::from(case.bytes[place])
}

#[derive(Default)]
pub struct Counts {
    /// For each number, how often each call gave it.
    replies: [[u64; CALLS.len()]; NUMBERS],
    others: [u64; OTHERS.len()],
}

impl Counts {
    pub fn add(&mut self, case: &Case, call: &Call, reply: &Reply) {
        for (times, name) in self.replies[reply.number as usize].iter_mut().zip(CALLS) {
            *times += u64::from(name == call.name());
        }
        for (times, (_, counts)) in self.others.iter_mut().zip(OTHERS) {
            *times += u64::from(counts(case, call, reply));
        }
    }

    /// What can come up and never did.
    pub fn missing(&self) -> Vec<String> {
        let mut missing = Vec::new();
        for (number, row) in self.replies.iter().enumerate() {
            for (times, name) in row.iter().zip(CALLS) {
                if *times == 0 && can_come(number, name) {
                    missing.push(format!("{number} by {name}"));
                }
            }
        }
        for (times, (name, _)) in self.others.iter().zip(OTHERS) {
            if *times == 0 {
                missing.push(name.to_string());
            }
        }
        missing
    }
}

impl fmt::Display for Counts {
    fn fmt(&self, out: &mut fmt::Formatter) -> fmt::Result {
        write!(out, "reply")?;
        for name in CALLS {
            write!(out, "{name:>9}")?;
        }
        for (number, row) in self.replies.iter().enumerate() {
            write!(out, "\n{number:>5}")?;
            for times in row {
                write!(out, "{times:>9}")?;
            }
        }
        writeln!(out)?;
        for (times, (name, _)) in self.others.iter().zip(OTHERS) {
            writeln!(out, "{name}: {times}")?;
        }
        Ok(())
    }
}
