//! The program: `fit` and `ask` read a sheet on standard input, the others make their own.

use second::question::Question;
use second::text::Printed;
use second::{benchmark, compare, generate, replies, simulate, stream, text};
use std::io::{self, BufReader, BufWriter, Read, Write};
use std::process::{Command, ExitCode};

const USAGE: &str = "usage: second fit
       second ask QUESTION MACHINE START END
       second answer
       second compare fit|ask RUN SEED COUNT
       second replies RUN SEED COUNT
       second sheets SEED COUNT
       second simulate SEED COUNT
       second benchmark PROGRAM SHEET...";

fn main() -> ExitCode {
    // A word that is no text at all becomes one that is no number and no name.
    let words = std::env::args_os().skip(1);
    let words: Vec<String> = words.map(|w| w.to_string_lossy().into()).collect();
    match words.first().map(String::as_str) {
        Some("fit") => leave("fit", fit(&words[1..])),
        Some("ask") => leave("ask", ask(&words[1..])),
        _ => leave_answer(answer(&words)),
    }
}

fn leave_answer(answer: Option<Result<String, String>>) -> ExitCode {
    match answer {
        Some(Ok(text)) => {
            print!("{text}");
            ExitCode::SUCCESS
        }
        Some(Err(difference)) => {
            eprintln!("{difference}");
            ExitCode::FAILURE
        }
        None => {
            eprintln!("{USAGE}");
            ExitCode::FAILURE
        }
    }
}

fn leave(program: &str, printed: Printed) -> ExitCode {
    eprint!("{}", printed.error);
    let mut output = io::stdout();
    let written = output.write_all(printed.output.as_bytes());
    if written.and_then(|()| output.flush()).is_ok() {
        return ExitCode::from(printed.status);
    }
    eprintln!("{program}: cannot write standard output");
    ExitCode::from(Printed::ANYTHING_ELSE)
}

fn fit(words: &[String]) -> Printed {
    if !words.is_empty() {
        return Printed::nothing(text::FIT_USAGE);
    }
    match sheet() {
        Ok(bytes) => text::fit(&bytes),
        Err(_) => Printed::nothing("fit: cannot read standard input\n"),
    }
}

fn ask(words: &[String]) -> Printed {
    let Some(question) = Question::read(words) else {
        return Printed::nothing(text::ASK_USAGE);
    };
    match sheet() {
        Ok(bytes) => text::ask(&bytes, &question),
        Err(_) => Printed::nothing("ask: cannot read standard input\n"),
    }
}

fn answer(words: &[String]) -> Option<Result<String, String>> {
    let names: Vec<&str> = words.iter().map(String::as_str).collect();
    let answer = match names[..] {
        ["answer"] => answer_stream(),
        ["benchmark", program, ref files @ ..] => benchmark::table(program, files),
        [ref name @ .., seed, count] => seeded(name, seed.parse().ok()?, count.parse().ok()?)?,
        _ => return None,
    };
    Some(answer)
}

/// What is made from a seed, so many times.
fn seeded(name: &[&str], seed: u64, count: u32) -> Option<Result<String, String>> {
    let answer = match name {
        ["compare", "fit", run] => compare::fit(run, seed, count),
        ["compare", "ask", run] => compare::ask(run, seed, count),
        ["replies", run] => replies::compare(|| replies_by(run), seed, count),
        ["sheets"] => Ok(generate::statistics(seed, count)),
        ["simulate"] => simulate::report(seed, count),
        _ => return None,
    };
    Some(answer)
}

/// The program that answers a stream of questions.
fn replies_by(run: &str) -> Command {
    let mut program = Command::new(run);
    program.arg("replies");
    program
}

/// The sheet on standard input, as much of it as is ever looked at.
fn sheet() -> io::Result<Vec<u8>> {
    let mut bytes = Vec::new();
    let mut input = io::stdin().lock().take(text::MOST_READ as u64);
    input.read_to_end(&mut bytes).map(|_| bytes)
}

/// Replies to the calls on standard input, on standard output.
fn answer_stream() -> Result<String, String> {
    let (calls, replies) = (io::stdin().lock(), io::stdout().lock());
    match stream::answer(BufReader::new(calls), BufWriter::new(replies)) {
        Ok(()) => Ok(String::new()),
        Err(error) => Err(error.to_string()),
    }
}
