//! Calls and replies through a stream of little-endian words.
//!
//! The number of calls comes first. A call has six words (number, machine, start, last, lent words,
//! size of the sheet) and then the sheet. A reply has six (number, count of values, four values) and
//! for a call that writes the lent words after it, with guard words on both sides.

use crate::call::{Call, Reply};
use crate::question::{Kind, Question};
use crate::sheet::check;
use std::io::{self, Read, Write};

/// The most words that a call may lend: the longest critical sequence, and some more.
pub const MOST_LENT: u32 = 4_112;
/// The most bytes that a sheet may have here, right or wrong.
pub const MOST_BYTES: u32 = 4_096;
/// Words on each side of the lent ones, to see that nothing is written there.
const GUARD: u32 = 8;
/// What word 0 of the memory holds before a call; each next word holds one more.
const FIRST_WORD: u32 = 4_000_000_000;
const VALUES: usize = 4;
const JUDGE: u32 = 1 + Kind::ALL.len() as u32;

/// Puts a call about a sheet on the stream.
pub fn put(stream: &mut Vec<u8>, call: &Call, sheet: &[u8]) {
    let size = sheet.len() as u32;
    let words = match call {
        Call::Check => [0, 0, 0, 0, 0, size],
        Call::Ask(question, lent) => {
            let Question {
                machine,
                start,
                last,
                ..
            } = *question;
            [1 + question.kind as u32, machine, start, last, *lent, size]
        }
        Call::Judge => [JUDGE, 0, 0, 0, 0, size],
    };
    put_words(stream, &words);
    stream.extend(sheet);
}

/// The next call and its sheet; nothing where the stream is over or breaks a limit.
fn take(stream: &mut impl Read) -> Option<(Call, Vec<u8>)> {
    let mut words = [0; 6];
    for word in &mut words {
        *word = take_word(stream)?;
    }
    let [number, machine, start, last, lent, size] = words;
    if lent > MOST_LENT || size > MOST_BYTES {
        return None;
    }
    let call = match number {
        0 => Call::Check,
        JUDGE => Call::Judge,
        _ => {
            let kind = *Kind::ALL.get(number as usize - 1)?;
            let question = Question {
                kind,
                machine,
                start,
                last,
            };
            Call::Ask(question, lent)
        }
    };
    let mut sheet = vec![0; size as usize];
    stream.read_exact(&mut sheet).ok()?;
    Some((call, sheet))
}

/// A reply as it stands on the stream.
pub fn reply_bytes(call: &Call, reply: &Reply) -> Vec<u8> {
    let mut values = [0; VALUES];
    values[..reply.values.len()].copy_from_slice(&reply.values);
    let mut bytes = Vec::new();
    put_words(&mut bytes, &[reply.number, reply.values.len() as u32]);
    put_words(&mut bytes, &values);
    if let Some(lent) = call.lent() {
        let mut memory: Vec<u32> = (0..lent + 2 * GUARD).map(|k| FIRST_WORD + k).collect();
        let written = GUARD as usize..GUARD as usize + reply.written.len();
        memory[written].copy_from_slice(&reply.written);
        put_words(&mut bytes, &memory);
    }
    bytes
}

/// Replies to the calls of a stream, as far as it goes.
pub fn answer(mut stream: impl Read, mut replies: impl Write) -> io::Result<()> {
    let count = take_word(&mut stream).unwrap_or(0);
    for _ in 0..count {
        let Some((call, sheet)) = take(&mut stream) else {
            break;
        };
        replies.write_all(&reply_bytes(&call, &call.reply(&check(&sheet))))?;
    }
    replies.flush()
}

pub fn put_words(bytes: &mut Vec<u8>, words: &[u32]) {
    bytes.extend(words.iter().flat_map(|word| word.to_le_bytes()));
}

fn take_word(stream: &mut impl Read) -> Option<u32> {
    let mut bytes = [0; 4];
    stream.read_exact(&mut bytes).ok()?;
    Some(u32::from_le_bytes(bytes))
}
