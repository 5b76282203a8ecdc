//! What another program prints beside what this one does, on sheets of every sort.

use crate::generate::{self, words::words};
use crate::process;
use crate::question::Question;
use crate::random::Random;
use crate::sheet::check;
use crate::text::{self, Printed};
use std::collections::BTreeMap;
use std::process::Command;

/// Runs `fit` on so many sheets: how often each end came up, or the first difference, or which end
/// never came. `run` is the command that runs a program by its name and gives it a status.
pub fn fit(run: &str, seed: u64, count: u32) -> Result<String, String> {
    let mut random = Random::new(seed);
    let mut ends = Ends::default();
    for _ in 0..count {
        let sheet = generate::sheet(&mut random);
        let mine = text::fit(&sheet);
        same(run, "fit", &[], &sheet, &mine)?;
        ends.add(&mine);
    }
    let refusals = (1..=9).map(|number| format!("REFUSED {number}"));
    ends.all(refusals.chain(["FITS", "LATE"].map(String::from)))?;
    Ok(format!(
        "{count} sheets, the same streams and status: {ends}\n"
    ))
}

/// Runs `ask` on so many questions, right and wrong, in the same way.
pub fn ask(run: &str, seed: u64, count: u32) -> Result<String, String> {
    let mut random = Random::new(seed);
    let mut ends = Ends::default();
    for _ in 0..count {
        let sheet = generate::sheet(&mut random);
        let words = words(&mut random, check(&sheet).as_ref().ok());
        let mine = match Question::read(&words) {
            Some(question) => text::ask(&sheet, &question),
            None => Printed::nothing(text::ASK_USAGE),
        };
        same(run, "ask", &words, &sheet, &mine)?;
        ends.add(&mine);
    }
    let must = ["REFUSED 10", "REFUSED 11", "REFUSED 14", "answer", "usage"];
    ends.all(must.map(String::from))?;
    Ok(format!(
        "{count} questions, the same streams and status: {ends}\n"
    ))
}

/// How often a program ended in each way.
#[derive(Default)]
struct Ends(BTreeMap<String, u32>);

impl Ends {
    fn add(&mut self, printed: &Printed) {
        let last = printed.output.lines().last().unwrap_or("usage");
        let mut words = last.split(' ');
        let end = match (words.next(), words.next()) {
            (Some("REFUSED"), Some(number)) => format!("REFUSED {number}"),
            (Some(word), _) if word.starts_with(char::is_alphabetic) => word.to_string(),
            _ => "answer".to_string(),
        };
        *self.0.entry(end).or_default() += 1;
    }

    /// An error where one of these never came.
    fn all(&self, ends: impl IntoIterator<Item = String>) -> Result<(), String> {
        match ends.into_iter().find(|end| !self.0.contains_key(end)) {
            Some(end) => Err(format!("never seen: {end}")),
            None => Ok(()),
        }
    }
}

impl std::fmt::Display for Ends {
    fn fmt(&self, out: &mut std::fmt::Formatter) -> std::fmt::Result {
        let ends: Vec<String> = self
            .0
            .iter()
            .map(|(end, times)| format!("{times} {end}"))
            .collect();
        out.write_str(&ends.join(", "))
    }
}

/// An error where the program prints something else, on either stream, or has another status.
fn same(
    run: &str,
    program: &str,
    words: &[String],
    sheet: &[u8],
    mine: &Printed,
) -> Result<(), String> {
    let theirs = process::output(Command::new(run).arg(program).args(words), sheet.to_vec())
        .map_err(|error| format!("{run}: {error}"))?;
    let status = theirs.status.code() == Some(mine.status.into());
    let output = theirs.stdout == mine.output.as_bytes();
    if status && output && theirs.stderr == mine.error.as_bytes() {
        return Ok(());
    }
    Err(format!(
        "{program} {words:?} gives\n{theirs:?}\nand not\n{mine:?}\nfor the sheet {}",
        text::hexadecimal(sheet)
    ))
}
