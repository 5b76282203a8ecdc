//! How long a verdict takes: another program's beside walks of this one's, on the same sheets.
//!
//! The other program is timed through a stream, on as many calls of judge as of check: the time of
//! the second is taken off that of the first, and what is left is the time of its walk. The walks
//! of this program are timed on the sheet after its check.

use crate::call::Call;
use crate::generate::heavy;
use crate::process;
use crate::random::Random;
use crate::sheet::{check, Sheet};
use crate::stream::{put, put_words, reply_bytes};
use crate::text::verdict_line;
use crate::verdict::{plain_walk, same_method, swift_walk, verdict, Verdict};
use crate::write::write;
use std::hint::black_box;
use std::io::Read;
use std::process::Command;
use std::time::{Duration, Instant};

/// Every contender is timed once in each round, one after the other.
const ROUNDS: usize = 25;
/// So long at least is what is timed at once.
const LEAST: Duration = Duration::from_millis(60);
/// The first five, as they come.
const SEEDS: [u64; 5] = [1, 2, 3, 4, 5];

/// What a reader of the table has to know about its figures.
const NOTES: &str = "
The least of 25 times, in turns, since another process can only lengthen one. Proved: as many
calls of judge as of check through a stream, the time of check taken off. The walks in Rust are
timed after the check. The shorter the walks, the more of the time goes into finding the instants
once, and the smaller is the gain over the plain walk.
";

/// A table of least times for these files of sheets, and for seeded heavy sheets.
pub fn table(program: &str, files: &[&str]) -> Result<String, String> {
    let mut table = String::from(
        "| sheet | verdict | proved | same method in Rust | swift walk | plain walk | \
         proved / same method | proved / plain walk |\n|---|---|---|---|---|---|---|---|\n",
    );
    for file in files {
        let bytes = std::fs::read(file).map_err(|error| format!("{file}: {error}"))?;
        table += &line(program, file, &bytes)?;
    }
    for seed in SEEDS {
        let bytes = write(&heavy::machines(&mut Random::new(seed)));
        table += &line(program, &format!("heavy, seed {seed}"), &bytes)?;
    }
    Ok(table + NOTES)
}

fn line(program: &str, name: &str, bytes: &[u8]) -> Result<String, String> {
    let sheet = check(bytes).map_err(|refusal| format!("{name}: {refusal:?}"))?;
    let [proved, same, swift, plain] = least_times(program, bytes, &sheet)?;
    let milliseconds = |time: f64| format!("{:.3} ms", 1_000.0 * time);
    Ok(format!(
        "| {name} | {} | {} | {} | {} | {} | {:.2} | {:.3} |\n",
        verdict_line(&verdict(&sheet)).trim_end(),
        milliseconds(proved),
        milliseconds(same),
        milliseconds(swift),
        milliseconds(plain),
        proved / same,
        proved / plain,
    ))
}

/// The least times of one verdict, in seconds: proved, same method, swift walk, plain walk.
fn least_times(program: &str, bytes: &[u8], sheet: &Sheet) -> Result<[f64; 4], String> {
    let judge = |count| run_time(program, &Call::Judge, bytes, count);
    let check = |count| run_time(program, &Call::Check, bytes, count);
    let same = |count| walk_time(count, || same_method(black_box(bytes), sheet));
    let swift = |count| walk_time(count, || swift_walk(black_box(sheet)));
    let plain = |count| walk_time(count, || plain_walk(black_box(sheet)));
    let judged = enough(judge)?;
    let walked = [enough(same)?, enough(swift)?, enough(plain)?];
    let mut least = [Duration::MAX; 5];
    for _ in 0..ROUNDS {
        let times = [
            judge(judged)?,
            check(judged)?,
            same(walked[0])?,
            swift(walked[1])?,
            plain(walked[2])?,
        ];
        least = std::array::from_fn(|k| least[k].min(times[k]));
    }
    let [judge, check, same, swift, plain] = least;
    Ok([
        each(judge.saturating_sub(check), judged),
        each(same, walked[0]),
        each(swift, walked[1]),
        each(plain, walked[2]),
    ])
}

fn each(time: Duration, count: u32) -> f64 {
    time.as_secs_f64() / f64::from(count)
}

/// How often something must be done for a time that can be trusted.
fn enough(time: impl Fn(u32) -> Result<Duration, String>) -> Result<u32, String> {
    let mut count = 1;
    while time(count)? < LEAST {
        count *= 2;
    }
    Ok(count)
}

fn walk_time(count: u32, walk: impl Fn() -> Verdict) -> Result<Duration, String> {
    let begun = Instant::now();
    for _ in 0..count {
        black_box(walk());
    }
    Ok(begun.elapsed())
}

/// The time of one run of the program on so many calls, whose replies must be right.
fn run_time(program: &str, call: &Call, bytes: &[u8], count: u32) -> Result<Duration, String> {
    let right = reply_bytes(call, &call.reply(&check(bytes))).repeat(count as usize);
    let mut stream = Vec::new();
    put_words(&mut stream, &[count]);
    for _ in 0..count {
        put(&mut stream, call, bytes);
    }
    let begun = Instant::now();
    let run = process::run(&mut Command::new(program), stream, |mut output| {
        let mut replies = Vec::new();
        output.read_to_end(&mut replies).map(|_| replies)
    });
    let time = begun.elapsed();
    let (replies, _) = run.map_err(|error| error.to_string())?;
    if replies.map_err(|error| error.to_string())? == right {
        Ok(time)
    } else {
        Err(format!("wrong replies to {}", call.name()))
    }
}
