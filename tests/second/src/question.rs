//! A question about one machine and one window, and its answer.

use crate::bounds;
use crate::legal::Pair;
use crate::sheet::{Refusal, Sheet};

/// The most bytes that a word of a question may have.
pub const LONGEST_WORD: usize = 64;

#[derive(Debug, Clone, Copy, PartialEq, Eq)]
pub enum Kind {
    Request,
    Demand,
    Table,
    Critical,
    Plain,
}

impl Kind {
    pub const ALL: [Kind; 5] = [
        Kind::Request,
        Kind::Demand,
        Kind::Table,
        Kind::Critical,
        Kind::Plain,
    ];

    pub fn name(self) -> &'static str {
        match self {
            Kind::Request => "request",
            Kind::Demand => "demand",
            Kind::Table => "table",
            Kind::Critical => "critical",
            Kind::Plain => "plain",
        }
    }

    /// Whether words are lent for the answer.
    pub fn writes(self) -> bool {
        matches!(self, Kind::Table | Kind::Critical)
    }
}

#[derive(Debug, Clone, Copy, PartialEq, Eq)]
pub struct Question {
    pub kind: Kind,
    pub machine: u32,
    pub start: u32,
    /// Where the window ends; for a table, its longest length.
    pub last: u32,
}

#[derive(Debug, Clone, PartialEq, Eq)]
pub enum Answer {
    Figure(u32),
    Table(Vec<u32>),
    Pairs(Vec<Pair>),
}

impl Question {
    /// Reads a name and three numbers, nothing more and nothing less.
    pub fn read(words: &[String]) -> Option<Question> {
        let [name, numbers @ ..] = words else {
            return None;
        };
        let kind = Kind::ALL.into_iter().find(|kind| kind.name() == name)?;
        let [machine, start, last] = numbers else {
            return None;
        };
        Some(Question {
            kind,
            machine: number(machine)?,
            start: number(start)?,
            last: number(last)?,
        })
    }

    pub fn answer(&self, sheet: &Sheet, lent_words: usize) -> Result<Answer, Refusal> {
        let (machine, start, last) = (self.machine, self.start, self.last);
        match self.kind {
            Kind::Request => bounds::request(sheet, machine, start, last).map(Answer::Figure),
            Kind::Demand => bounds::demand(sheet, machine, start, last).map(Answer::Figure),
            Kind::Plain => bounds::plain(sheet, machine, start, last).map(Answer::Figure),
            Kind::Table => {
                bounds::table(sheet, machine, start, last, lent_words).map(Answer::Table)
            }
            Kind::Critical => {
                bounds::critical(sheet, machine, start, last, lent_words).map(Answer::Pairs)
            }
        }
    }
}

/// Decimal digits only: the standard reading would let a plus sign through.
fn number(word: &str) -> Option<u32> {
    let right_length = (1..=LONGEST_WORD).contains(&word.len());
    let all_digits = word.bytes().all(|b| b.is_ascii_digit());
    (right_length && all_digits)
        .then(|| word.parse().ok())
        .flatten()
}
