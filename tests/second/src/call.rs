//! A call of the library as a value, and the reply that document 01 gives it.

use crate::legal::Pair;
use crate::question::{Answer, Question};
use crate::sheet::{Refusal, Sheet};
use crate::verdict::{verdict, Verdict, Window};

/// The number of the verdict Open; every other proper result has 0.
const OPEN: u32 = 13;

#[derive(Debug, Clone, Copy, PartialEq, Eq)]
pub enum Call {
    Check,
    /// A question about a window, and the words lent for its answer.
    Ask(Question, u32),
    Judge,
}

/// What a call gives: a number, its values, and the words that it writes.
#[derive(Debug, Clone, PartialEq, Eq)]
pub struct Reply {
    pub number: u32,
    pub values: Vec<u32>,
    pub written: Vec<u32>,
}

impl Call {
    pub fn name(&self) -> &'static str {
        match self {
            Call::Check => "check",
            Call::Ask(question, _) => question.kind.name(),
            Call::Judge => "judge",
        }
    }

    /// How many words are lent, for a call that writes any.
    pub fn lent(&self) -> Option<u32> {
        match self {
            Call::Ask(question, lent) if question.kind.writes() => Some(*lent),
            _ => None,
        }
    }

    /// The reply about a sheet, or about bytes that are refused.
    pub fn reply(&self, checked: &Result<Sheet, Refusal>) -> Reply {
        let sheet = match checked {
            Ok(sheet) => sheet,
            Err(refusal) => return Reply::refused(refusal),
        };
        match self {
            Call::Check => {
                let machines = sheet.machines.len() as u32;
                Reply::values(&[machines, sheet.hyperperiod])
            }
            Call::Ask(question, lent) => match question.answer(sheet, *lent as usize) {
                Ok(answer) => Reply::answered(answer),
                Err(refusal) => Reply::refused(&refusal),
            },
            Call::Judge => Reply::judged(verdict(sheet)),
        }
    }
}

impl Reply {
    fn new(number: u32, values: &[u32], written: Vec<u32>) -> Self {
        Reply {
            number,
            values: values.to_vec(),
            written,
        }
    }

    fn values(values: &[u32]) -> Self {
        Reply::new(0, values, Vec::new())
    }

    fn refused(refusal: &Refusal) -> Self {
        let place = [refusal.first, refusal.second];
        Reply::new(refusal.number, &place, Vec::new())
    }

    fn answered(answer: Answer) -> Self {
        match answer {
            Answer::Figure(figure) => Reply::values(&[figure]),
            Answer::Table(words) => Reply::new(0, &[], words),
            Answer::Pairs(pairs) => {
                let words = |pair: &Pair| [pair.action as u32, pair.instant];
                let written = pairs.iter().flat_map(words).collect();
                Reply::new(0, &[pairs.len() as u32], written)
            }
        }
    }

    fn judged(verdict: Verdict) -> Self {
        match verdict {
            Verdict::Fits => Reply::values(&[]),
            Verdict::Late(Window {
                machine,
                start,
                length,
                demand,
            }) => Reply::values(&[machine, start, length, demand]),
            Verdict::Open { machine, start } => Reply::new(OPEN, &[machine, start], Vec::new()),
        }
    }
}
