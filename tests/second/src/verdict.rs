//! The verdict, in the words of its definition; three walks beside it give the same.

mod due;
mod ones;
mod plain_walk;
mod remembered;
mod same_method;
mod swift_walk;

pub use plain_walk::plain_walk;
pub use same_method::same_method;
pub use swift_walk::swift_walk;

use crate::bounds::LONGEST_WINDOW;
use crate::sheet::{Sheet, MOST_MACHINES};
use remembered::Remembered;

const MACHINES: usize = MOST_MACHINES as usize;

#[derive(Debug, Clone, Copy, PartialEq, Eq)]
pub enum Verdict {
    Fits,
    Late(Window),
    Open { machine: u32, start: u32 },
}

/// The first machine and start with a failing length, the smallest such length, the demand.
#[derive(Debug, Clone, Copy, PartialEq, Eq)]
pub struct Window {
    pub machine: u32,
    pub start: u32,
    pub length: u32,
    pub demand: u32,
}

impl Verdict {
    fn late(machine: usize, start: u32, length: u32, demand: u32) -> Self {
        Verdict::Late(Window {
            machine: machine as u32,
            start,
            length,
            demand,
        })
    }

    fn open(machine: usize, start: u32) -> Self {
        let machine = machine as u32;
        Verdict::Open { machine, start }
    }
}

/// Machines in order, for each the starts in order; the first that does not pass decides.
fn first_failure(sheet: &Sheet, mut judge: impl FnMut(usize, u32) -> Option<Verdict>) -> Verdict {
    for machine in 0..sheet.machines.len() {
        for start in 0..sheet.hyperperiod {
            if let Some(verdict) = judge(machine, start) {
                return verdict;
            }
        }
    }
    Verdict::Fits
}

pub fn verdict(sheet: &Sheet) -> Verdict {
    let remember = |machine| Remembered::new(machine, sheet.hyperperiod);
    let mut bounds: Vec<Remembered> = sheet.machines.iter().map(remember).collect();
    first_failure(sheet, |machine, start| judge(&mut bounds, machine, start))
}

/// Nothing when a closing length comes before any failing length.
fn judge(bounds: &mut [Remembered], machine: usize, start: u32) -> Option<Verdict> {
    // For each m, the request bounds of the higher machines over [start, start + m).
    let mut higher = vec![0];
    for length in 1..=LONGEST_WINDOW {
        let end = start + length;
        let above: u32 = bounds[..machine]
            .iter_mut()
            .map(|b| b.request(start, end))
            .sum();
        if above + bounds[machine].request(start, end) <= length {
            return None;
        }
        higher.push(above);
        let demand = bounds[machine].demand(start, end);
        let passes = (0..=length).any(|m| demand + higher[m as usize] <= m);
        if !passes {
            return Some(Verdict::late(machine, start, length, demand));
        }
    }
    Some(Verdict::open(machine, start))
}
