//! The calls that one sheet gets: all seven, the five about a window several times.

use super::questions::question;
use crate::call::Call;
use crate::question::{Answer, Kind, Question};
use crate::random::Random;
use crate::sheet::{Refusal, Sheet};
use crate::stream::MOST_LENT;

/// Questions of each kind about a sheet that is accepted.
const OF_EACH_KIND: u32 = 4;

pub fn calls(random: &mut Random, checked: &Result<Sheet, Refusal>) -> Vec<Call> {
    let sheet = checked.as_ref().ok();
    // A refused sheet has one reply, whatever is asked about it.
    let of_each_kind = if sheet.is_some() { OF_EACH_KIND } else { 1 };
    let mut calls = vec![Call::Check, Call::Judge];
    for kind in Kind::ALL {
        for _ in 0..of_each_kind {
            let question = question(random, kind, sheet);
            let lent = if kind.writes() {
                lent(random, needed(sheet, &question))
            } else {
                0
            };
            calls.push(Call::Ask(question, lent));
        }
    }
    calls
}

/// How many words the answer takes, or some number where it is refused.
fn needed(sheet: Option<&Sheet>, question: &Question) -> u32 {
    if question.kind == Kind::Table {
        return question.last.saturating_add(1);
    }
    match sheet.map(|sheet| question.answer(sheet, usize::MAX)) {
        Some(Ok(Answer::Pairs(pairs))) => 2 * pairs.len() as u32,
        _ => 2,
    }
}

/// As many words as are needed, or one too few, or none, or some more, or all there are.
fn lent(random: &mut Random, needed: u32) -> u32 {
    let lent = match random.within(0..=7) {
        0 | 1 => needed.saturating_sub(1),
        2 => 0,
        3 => MOST_LENT,
        4 | 5 => needed,
        _ => needed.saturating_add(random.within(1..=8)),
    };
    lent.min(MOST_LENT)
}
