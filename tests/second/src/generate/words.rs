//! The words of a question as `ask` gets them: right ones, and ones that are no question.

use super::questions::question;
use crate::question::{Kind, LONGEST_WORD};
use crate::random::Random;
use crate::sheet::Sheet;

/// Words that are no number, or one only at first sight.
const NO_NUMBERS: [&str; 16] = [
    "",
    "+1",
    "-1",
    " 1",
    "1 ",
    "1_000",
    "1.0",
    "0x10",
    "1e3",
    "x",
    "1x",
    "\u{FF11}",
    "4294967296",
    "4294967297",
    "18446744073709551616",
    "99999999999999999999",
];

const NO_NAMES: [&str; 8] = [
    "", "Request", "reques", "requests", " request", "check", "judge", "1",
];

/// A question about a sheet in words, one in three of them changed.
pub fn words(random: &mut Random, sheet: Option<&Sheet>) -> Vec<String> {
    let kind = random.pick(&Kind::ALL);
    let question = question(random, kind, sheet);
    let numbers = [question.machine, question.start, question.last];
    let mut words = vec![kind.name().to_string()];
    words.extend(numbers.map(|number| number.to_string()));
    if random.percent(33) {
        change(random, &mut words);
    }
    words
}

fn change(random: &mut Random, words: &mut Vec<String>) {
    let place = 1 + random.place(3);
    match random.within(0..=6) {
        0 => words[0] = random.pick(&NO_NAMES).to_string(),
        1 => words.truncate(random.place(4)),
        2 => words.push(random.pick(&["", "0", "request"]).to_string()),
        3 => {
            words[place] = random
                .pick(&["4294967295", "04294967295", "000"])
                .to_string()
        }
        4 => words[place] = padded(random, &words[place]),
        _ => words[place] = random.pick(&NO_NUMBERS).to_string(),
    }
}

/// With leading zeros: as many as a word may have, or too many.
fn padded(random: &mut Random, word: &str) -> String {
    let length = random.pick(&[12, LONGEST_WORD - 1, LONGEST_WORD, LONGEST_WORD + 1, 400]);
    format!("{word:0>length$}")
}
