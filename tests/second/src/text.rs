//! What the programs print on both their streams, and the status that goes with it.

use crate::bounds::{request, LONGEST_WINDOW};
use crate::legal::Pair;
use crate::question::{Answer, Question};
use crate::reason;
use crate::sheet::{check, Refusal, Sheet, LONGEST};
use crate::verdict::{verdict, Verdict, Window};

/// One byte more than the longest sheet: enough to see that a longer one is too long.
pub const MOST_READ: usize = LONGEST + 1;

pub const FIT_USAGE: &str = "usage: fit < SHEET\n";
pub const ASK_USAGE: &str = "usage: ask request|demand|critical|plain MACHINE START END < SHEET
       ask table MACHINE START LENGTH < SHEET
";

/// What a program leaves: standard output, standard error and its status.
#[derive(Debug, Clone, PartialEq, Eq)]
pub struct Printed {
    pub output: String,
    pub error: String,
    pub status: u8,
}

impl Printed {
    pub const FITS_OR_ANSWER: u8 = 0;
    pub const LATE_OR_OPEN: u8 = 1;
    pub const REFUSED: u8 = 2;
    pub const ANYTHING_ELSE: u8 = 3;

    fn answer(status: u8, output: String) -> Printed {
        let error = String::new();
        Printed {
            output,
            error,
            status,
        }
    }

    /// The refusal in numbers, and beside it in words.
    fn refused(program: &str, refusal: Refusal) -> Printed {
        let Refusal {
            number,
            first,
            second,
        } = refusal;
        Printed {
            output: format!("REFUSED {number} {first} {second}\n"),
            error: format!(
                "{program}: refused under {number}: {}\n",
                reason::words(refusal)
            ),
            status: Printed::REFUSED,
        }
    }

    /// No answer at all, and why.
    pub fn nothing(error: &str) -> Printed {
        Printed {
            output: String::new(),
            error: error.to_string(),
            status: Printed::ANYTHING_ELSE,
        }
    }
}

/// What `fit` prints for what it read.
pub fn fit(bytes: &[u8]) -> Printed {
    match check(most_read(bytes)) {
        Ok(sheet) => fit_sheet(&sheet),
        Err(refusal) => Printed::refused("fit", refusal),
    }
}

fn fit_sheet(sheet: &Sheet) -> Printed {
    let mut text = format!("H {}\n", sheet.hyperperiod);
    for (number, machine) in sheet.machines.iter().enumerate() {
        // The hyperperiod is shorter than the longest window, so this is never refused.
        let bound = request(sheet, number as u32, 0, sheet.hyperperiod).unwrap_or_default();
        let (states, actions) = (machine.states, machine.actions.len());
        text += &format!("M {number} {states} {actions} {bound}\n");
    }
    let verdict = verdict(sheet);
    let status = match verdict {
        Verdict::Fits => Printed::FITS_OR_ANSWER,
        Verdict::Late(_) | Verdict::Open { .. } => Printed::LATE_OR_OPEN,
    };
    Printed::answer(status, text + &verdict_line(&verdict))
}

pub fn verdict_line(verdict: &Verdict) -> String {
    match verdict {
        Verdict::Fits => "FITS\n".to_string(),
        Verdict::Late(Window {
            machine,
            start,
            length,
            demand,
        }) => format!("LATE {machine} {start} {length} {demand}\n"),
        Verdict::Open { machine, start } => format!("OPEN {machine} {start}\n"),
    }
}

/// What `ask` prints for a question and what it read.
pub fn ask(bytes: &[u8], question: &Question) -> Printed {
    // Room for the longest table and the longest critical sequence.
    let lent_words = 2 * LONGEST_WINDOW as usize + 1;
    match check(most_read(bytes)).and_then(|sheet| question.answer(&sheet, lent_words)) {
        Ok(answer) => Printed::answer(Printed::FITS_OR_ANSWER, answer_lines(&answer)),
        Err(refusal) => Printed::refused("ask", refusal),
    }
}

fn most_read(bytes: &[u8]) -> &[u8] {
    &bytes[..bytes.len().min(MOST_READ)]
}

fn answer_lines(answer: &Answer) -> String {
    match answer {
        Answer::Figure(figure) => format!("{figure}\n"),
        Answer::Table(words) => words.iter().map(|word| format!("{word}\n")).collect(),
        Answer::Pairs(pairs) => {
            let line = |pair: &Pair| format!("{} {}\n", pair.action, pair.instant);
            let lines: String = pairs.iter().map(line).collect();
            format!("{}\n{lines}", pairs.len())
        }
    }
}

/// Bytes as two digits each.
pub fn hexadecimal(bytes: &[u8]) -> String {
    bytes.iter().map(|byte| format!("{byte:02X}")).collect()
}
