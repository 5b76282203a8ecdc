//! What `fit` and `ask` print, and their status.

mod common;

use common::{longest, pair_with, PAIR};
use second::question::Question;
use second::text::{self, Printed};

fn fit(bytes: &[u8]) -> String {
    text::fit(bytes).output
}

fn question(words: &str) -> Option<Question> {
    let words: Vec<String> = words.split(' ').map(String::from).collect();
    Question::read(&words)
}

fn answer_about(bytes: &[u8], words: &str) -> Printed {
    text::ask(bytes, &question(words).expect(words))
}

fn answer(words: &str) -> String {
    answer_about(&PAIR, words).output
}

#[test]
fn fit_of_pair() {
    assert_eq!(fit(&PAIR), "H 200\nM 0 1 1 70\nM 1 3 4 26\nFITS\n");
    let heavier = "H 200\nM 0 1 1 75\nM 1 3 4 26\nLATE 1 0 20 6\n";
    assert_eq!(fit(&pair_with(&[(4, 15)])), heavier);
}

#[test]
fn fit_of_a_refused_sheet() {
    assert_eq!(fit(&pair_with(&[(67, 0x30)])), "REFUSED 2 0 0\n");
    assert_eq!(fit(&pair_with(&[(14, 21)])), "REFUSED 8 1 0\n");
    assert_eq!(fit(&[]), "REFUSED 1 0 0\n");
}

#[test]
fn fit_sees_that_a_sheet_is_too_long() {
    let mut bytes = longest();
    assert!(fit(&bytes).starts_with("H 1\nM 0 1 32 1\n"));
    bytes.push(0);
    assert_eq!(fit(&bytes), "REFUSED 1 0 0\n");
    bytes.extend(longest());
    assert_eq!(fit(&bytes), "REFUSED 1 0 0\n");
}

#[test]
fn answers() {
    assert_eq!(answer("request 1 80 101"), "8\n");
    assert_eq!(answer("demand 1 0 20"), "6\n");
    assert_eq!(answer("plain 1 0 101"), "19\n");
    assert_eq!(answer("table 1 99 3"), "0\n0\n6\n6\n");
    assert_eq!(answer("table 1 0 0"), "0\n");
    assert_eq!(answer("table 1 0 2048").lines().count(), 2_049);
    assert_eq!(answer("critical 1 80 101"), "2\n0 80\n3 100\n");
    assert_eq!(answer("critical 1 1 40"), "0\n");
    assert_eq!(answer("request 001 0080 0000000000000101"), "8\n");
    assert_eq!(answer("request 1 0 4294967295"), "REFUSED 11 0 0\n");
    assert_eq!(answer(&format!("request 1 80 {:0>64}", 101)), "8\n");
}

#[test]
fn refusals() {
    assert_eq!(answer("request 2 5 4"), "REFUSED 10 0 0\n");
    assert_eq!(answer("demand 1 5 4"), "REFUSED 11 0 0\n");
    assert_eq!(answer("table 1 4294967295 1"), "REFUSED 11 0 0\n");
    assert_eq!(answer("plain 0 0 241"), "REFUSED 14 0 0\n");
    let refused = answer_about(&pair_with(&[(14, 21)]), "request 9 5 4");
    assert_eq!(refused.output, "REFUSED 8 1 0\n");
}

#[test]
fn words_for_refusals() {
    let why = |printed: Printed| (printed.status, printed.error);
    let refused = |words: &str| (2, format!("{words}\n"));
    let fit = |bytes: &[u8]| why(text::fit(bytes));
    let one = "fit: refused under 1: the length is below 28 or above 2,124";
    assert_eq!(fit(&[]), refused(one));
    let five =
        "fit: refused under 5: an entry has its states, initial state, actions or zero byte \
                out of range, at machine 1";
    assert_eq!(fit(&pair_with(&[(51, 1)])), refused(five));
    let eight = "fit: refused under 8: a deadline is above the divisor of the machine's periods, \
                 at machine 1, action 0";
    assert_eq!(fit(&pair_with(&[(14, 21)])), refused(eight));
    let fourteen = "ask: refused under 14: the window holds more than 6 instants, for the plain \
                    reckoner";
    assert_eq!(why(answer_about(&PAIR, "plain 0 0 241")), refused(fourteen));
}

#[test]
fn statuses() {
    assert_eq!(text::fit(&PAIR).status, 0);
    assert_eq!(text::fit(&pair_with(&[(4, 15)])).status, 1);
    assert_eq!(text::fit(&[]).status, 2);
    assert_eq!(answer_about(&PAIR, "critical 1 1 40").status, 0);
    let accepted = text::fit(&PAIR);
    assert_eq!(accepted.error, "");
}

#[test]
fn misuse() {
    for words in [
        "",
        "request",
        "request 1 0",
        "request 1 0 1 2",
        "requests 1 0 1",
        "verdict 1 0 1",
        "request 1 0 +1",
        "request 1 0 -1",
        "request 1  1",
        "request x 0 1",
        "request 1 0 4294967296",
        "request 1 0 99999999999999999999",
        "request 1 0 0x10",
    ] {
        assert_eq!(question(words), None, "{words}");
    }
    assert_eq!(question(&format!("request 1 80 {:0>65}", 101)), None);
    assert_eq!(Question::read(&[]), None);
    let usage = Printed::nothing(text::ASK_USAGE);
    assert_eq!((usage.output, usage.status), (String::new(), 3));
}
