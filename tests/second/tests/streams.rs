//! Calls and replies through a stream, and a comparison that sees every wrong word.

mod common;

use common::PAIR;
use second::call::Call;
use second::compare;
use second::question::{Kind, Question};
use second::replies::counts::Counts;
use second::replies::{self, compare_replies, stream, Case};
use second::sheet::check;
use second::stream::answer;
use std::process::Command;

const FIRST_WORD: u32 = 4_000_000_000;

fn ask(kind: Kind, start: u32, last: u32, lent: u32) -> Call {
    let question = Question {
        kind,
        machine: 1,
        start,
        last,
    };
    Call::Ask(question, lent)
}

/// These calls about PAIR.
fn about_pair(calls: &[Call]) -> Vec<Case> {
    vec![Case {
        bytes: PAIR.to_vec(),
        checked: check(&PAIR),
        calls: calls.to_vec(),
    }]
}

fn answers(stream: &[u8]) -> Vec<u8> {
    let mut replies = Vec::new();
    answer(stream, &mut replies).expect("memory takes every byte");
    replies
}

fn words(bytes: &[u8]) -> Vec<u32> {
    let word = |four: &[u8]| u32::from_le_bytes(four.try_into().expect("four bytes"));
    bytes.chunks(4).map(word).collect()
}

fn same(cases: &[Case], replies: &[u8]) -> bool {
    compare_replies(cases, replies, &mut Counts::default()).is_ok()
}

/// What word k of the memory is before a call.
fn untouched(words: std::ops::Range<u32>) -> Vec<u32> {
    words.map(|k| FIRST_WORD + k).collect()
}

#[test]
fn each_call_has_its_words() {
    let replies = |call| words(&answers(&stream(&about_pair(&[call]))));
    assert_eq!(replies(Call::Check), [0, 2, 2, 200, 0, 0]);
    assert_eq!(replies(Call::Judge), [0, 0, 0, 0, 0, 0]);
    assert_eq!(replies(ask(Kind::Request, 80, 101, 0)), [0, 1, 8, 0, 0, 0]);
    assert_eq!(replies(ask(Kind::Demand, 0, 120, 0)), [0, 1, 19, 0, 0, 0]);
    assert_eq!(replies(ask(Kind::Plain, 0, 101, 0)), [0, 1, 19, 0, 0, 0]);
    assert_eq!(replies(ask(Kind::Plain, 3, 2, 0)), [11, 2, 0, 0, 0, 0]);
    let table = [
        vec![0; 6],
        untouched(0..8),
        vec![0, 0, 6],
        untouched(11..20),
    ]
    .concat();
    assert_eq!(replies(ask(Kind::Table, 99, 2, 4)), table);
    let pairs = [
        vec![0, 1, 2, 0, 0, 0],
        untouched(0..8),
        vec![0, 80, 3, 100],
        untouched(12..21),
    ];
    assert_eq!(replies(ask(Kind::Critical, 80, 101, 5)), pairs.concat());
    let refused = [vec![12, 2, 0, 0, 0, 0], untouched(0..19)].concat();
    assert_eq!(replies(ask(Kind::Critical, 80, 101, 3)), refused);
}

#[test]
fn every_wrong_byte_is_seen() {
    let cases = about_pair(&[
        Call::Check,
        ask(Kind::Request, 0, 41, 0),
        ask(Kind::Table, 80, 21, 24),
        ask(Kind::Table, 80, 21, 21),
        ask(Kind::Critical, 0, 101, 9),
        Call::Judge,
    ]);
    let right = answers(&stream(&cases));
    assert!(same(&cases, &right));
    for place in 0..right.len() {
        let mut wrong = right.clone();
        wrong[place] ^= 1;
        assert!(!same(&cases, &wrong), "byte {place}");
    }
    assert!(!same(&cases, &right[..right.len() - 1]));
    assert!(!same(&cases, &[&right[..], &[0]].concat()));
}

#[test]
fn a_wrong_value_lent_word_or_guard_word_is_shown() {
    let cases = about_pair(&[ask(Kind::Table, 99, 2, 4)]);
    let right = answers(&stream(&cases));
    // The number, a value, a guard word, a table's word, the word after it, the last guard word.
    for (word, name) in [
        (0, "0"),
        (2, "2"),
        (6, "6"),
        (15, "15"),
        (17, "17"),
        (25, "25"),
    ] {
        let mut wrong = right.clone();
        wrong[4 * word + 1] ^= 1;
        let compared = compare_replies(&cases, &wrong[..], &mut Counts::default());
        let difference = compared.expect_err("a word is wrong");
        assert!(
            difference.contains(&format!("from word {name} on")),
            "{difference}"
        );
        assert!(difference.contains("00002800"), "{difference}");
    }
}

#[test]
fn a_broken_stream_is_answered_as_far_as_it_goes() {
    let whole = stream(&about_pair(&[Call::Check, Call::Check]));
    let first = 6 * 4;
    assert_eq!(answers(&whole).len(), 2 * first);
    assert_eq!(answers(&whole[..whole.len() - 1]).len(), first);
    assert_eq!(answers(&[]).len(), 0);
    // The second call begins after the count, the first call and its sheet.
    let second = 4 + 6 * 4 + PAIR.len();
    for (word, wrong) in [(0, 7u32), (0, u32::MAX), (4, 4_113), (5, 4_097)] {
        let mut broken = whole.clone();
        broken[second + 4 * word..][..4].copy_from_slice(&wrong.to_le_bytes());
        assert_eq!(answers(&broken).len(), first, "{wrong}");
    }
}

fn this_program() -> Command {
    let mut program = Command::new(env!("CARGO_BIN_EXE_second"));
    program.arg("answer");
    program
}

#[test]
fn a_program_is_compared_on_every_reply() {
    let counts = replies::compare(this_program, 41, 1_000).expect("the two are one program");
    assert!(
        counts.starts_with("1000 sheets, the same replies\n"),
        "{counts}"
    );
    // So few sheets cannot show every reply.
    let missing = replies::compare(this_program, 41, 3).expect_err("most replies never came");
    assert!(missing.contains("never seen: "), "{missing}");
}

#[test]
fn a_program_that_says_nothing_differs() {
    assert!(compare::fit("true", 42, 3).is_err());
    assert!(compare::ask("true", 42, 3).is_err());
    assert!(replies::compare(|| Command::new("true"), 42, 3).is_err());
    assert!(replies::compare(|| Command::new("no-such-program"), 42, 3).is_err());
}
