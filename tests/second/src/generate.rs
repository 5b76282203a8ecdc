//! Sheets to compare programs with, and how they spread over replies and verdicts.

pub mod border;
pub mod calls;
pub mod damaged;
pub mod extreme;
pub mod heavy;
mod layout;
pub mod questions;
mod rates;
pub mod uneven;
pub mod valid;
pub mod words;

use crate::random::Random;
use crate::sheet::check;
use crate::verdict::{swift_walk, Verdict};
use crate::write::write;

/// A sheet of any sort.
pub fn sheet(random: &mut Random) -> Vec<u8> {
    match random.within(1..=100) {
        1..=33 => write(&valid::machines(random)),
        34..=51 => write(&border::machines(random)),
        52..=54 => write(&extreme::machines(random)),
        _ => damaged::sheet(random),
    }
}

/// Counts of replies and verdicts over so many sheets, one a line.
pub fn statistics(seed: u64, count: u32) -> String {
    let mut random = Random::new(seed);
    let mut replies = [0; 10];
    let (mut fits, mut late, mut late_after_0, mut open) = (0, 0, 0, 0);
    for _ in 0..count {
        let sheet = match check(&sheet(&mut random)) {
            Ok(sheet) => sheet,
            Err(refusal) => {
                replies[refusal.number as usize] += 1;
                continue;
            }
        };
        replies[0] += 1;
        match swift_walk(&sheet) {
            Verdict::Fits => fits += 1,
            Verdict::Late(window) => {
                late += 1;
                late_after_0 += u32::from(window.start > 0);
            }
            Verdict::Open { .. } => open += 1,
        }
    }
    let lines = replies.iter().enumerate();
    let replies: String = lines
        .map(|(n, times)| format!("reply {n}: {times}\n"))
        .collect();
    format!(
        "{replies}fits: {fits}\nlate: {late}, {late_after_0} at a start above 0\nopen: {open}\n"
    )
}
