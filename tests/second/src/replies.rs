//! Another program's reply to every call beside this one's, byte for byte, through a stream.

pub mod counts;

use crate::call::Call;
use crate::generate;
use crate::process;
use crate::random::Random;
use crate::sheet::{check, Refusal, Sheet};
use crate::stream::{put, put_words, reply_bytes};
use crate::text::hexadecimal;
use counts::Counts;
use std::io::{BufReader, Read};
use std::process::Command;

/// Sheets for one run of the program, so that a long comparison takes little memory.
const SHEETS_A_RUN: u32 = 200;

/// The bytes of a sheet, what they say, and the calls about them.
pub struct Case {
    pub bytes: Vec<u8>,
    pub checked: Result<Sheet, Refusal>,
    pub calls: Vec<Call>,
}

/// How often each reply came up, or the first difference, or which reply never came.
pub fn compare(program: impl Fn() -> Command, seed: u64, count: u32) -> Result<String, String> {
    let mut random = Random::new(seed);
    let mut counts = Counts::default();
    let mut left = count;
    while left > 0 {
        let sheets = left.min(SHEETS_A_RUN);
        let cases: Vec<Case> = (0..sheets).map(|_| case(&mut random)).collect();
        compare_run(program(), &cases, &mut counts)
            .map_err(|difference| format!("seed {seed}, {left} sheets to go: {difference}"))?;
        left -= sheets;
    }
    match counts.missing().as_slice() {
        [] => Ok(format!("{count} sheets, the same replies\n{counts}")),
        missing => Err(format!("{counts}never seen: {}", missing.join(", "))),
    }
}

pub fn case(random: &mut Random) -> Case {
    let bytes = generate::sheet(random);
    let checked = check(&bytes);
    let calls = generate::calls::calls(random, &checked);
    Case {
        bytes,
        checked,
        calls,
    }
}

/// One run of the program on all calls of these cases.
fn compare_run(mut program: Command, cases: &[Case], counts: &mut Counts) -> Result<(), String> {
    let compare = |replies| compare_replies(cases, BufReader::new(replies), counts);
    let run = process::run(&mut program, stream(cases), compare);
    let (compared, ended) = run.map_err(|error| error.to_string())?;
    compared?;
    if ended.success() {
        Ok(())
    } else {
        Err(format!("the program ended with {ended}"))
    }
}

/// All calls of these cases, as a program reads them.
pub fn stream(cases: &[Case]) -> Vec<u8> {
    let calls: usize = cases.iter().map(|case| case.calls.len()).sum();
    let mut stream = Vec::new();
    put_words(&mut stream, &[calls as u32]);
    for case in cases {
        for call in &case.calls {
            put(&mut stream, call, &case.bytes);
        }
    }
    stream
}

/// Reads a reply for each call, and nothing after them.
pub fn compare_replies(
    cases: &[Case],
    mut replies: impl Read,
    counts: &mut Counts,
) -> Result<(), String> {
    for case in cases {
        for call in &case.calls {
            let reply = call.reply(&case.checked);
            counts.add(case, call, &reply);
            let mine = reply_bytes(call, &reply);
            let mut theirs = Vec::new();
            let mut as_many = replies.by_ref().take(mine.len() as u64);
            let read = as_many.read_to_end(&mut theirs);
            read.map_err(|error| error.to_string())?;
            if theirs != mine {
                return Err(difference(case, call, &theirs, &mine));
            }
        }
    }
    match replies.read(&mut [0]) {
        Ok(0) => Ok(()),
        _ => Err("more replies than calls".to_string()),
    }
}

fn difference(case: &Case, call: &Call, theirs: &[u8], mine: &[u8]) -> String {
    let sheet = hexadecimal(&case.bytes);
    let (theirs, mine) = (words(theirs), words(mine));
    let place = theirs
        .iter()
        .zip(&mine)
        .position(|(one, other)| one != other);
    let place = place.unwrap_or(theirs.len().min(mine.len()));
    format!(
        "{call:?}\nabout the sheet {sheet}\nis answered by {theirs:?}\nand not by {mine:?}\n\
         from word {place} on"
    )
}

/// Whole words; an answer that breaks off inside one is told by its length.
fn words(bytes: &[u8]) -> Vec<u32> {
    let word = |four: &[u8]| u32::from_le_bytes([four[0], four[1], four[2], four[3]]);
    bytes.chunks_exact(4).map(word).collect()
}
