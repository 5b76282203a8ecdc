//! The generated sheets and questions reach every reply, and every sort of place.

use second::generate::{self, calls::calls, heavy, valid};
use second::random::Random;
use second::sheet::{check, Refusal, LONGEST};
use second::verdict::{swift_walk, Verdict};
use second::write::write;
use std::collections::HashMap;

#[test]
fn sheets_reach_every_reply_and_place() {
    let mut random = Random::new(21);
    let mut replies: HashMap<u32, u32> = HashMap::new();
    let mut refusals = Vec::new();
    let (mut fits, mut late, mut late_after_0) = (0, 0, 0);
    for _ in 0..4_000 {
        let reply = check(&generate::sheet(&mut random));
        let number = reply.as_ref().map_or_else(|refusal| refusal.number, |_| 0);
        *replies.entry(number).or_default() += 1;
        match reply.map(|sheet| swift_walk(&sheet)) {
            Ok(Verdict::Fits) => fits += 1,
            Ok(Verdict::Late(window)) if window.start > 0 => late_after_0 += 1,
            Ok(_) => late += 1,
            Err(refusal) => refusals.push(refusal),
        }
    }
    for number in 0..=9 {
        assert!(
            replies.get(&number).is_some_and(|&times| times >= 20),
            "reply {number}"
        );
    }
    assert!(fits >= 700 && late >= 700 && late_after_0 >= 50);
    for wanted in [5, 6, 7, 8] {
        let seen = |first, second| refusals.contains(&Refusal::at(wanted, first, second));
        assert!(
            seen(0, 0) && seen(1, 0) && seen(2, 0),
            "first places of {wanted}"
        );
        assert!(
            wanted < 7 || seen(0, 1) && seen(1, 1),
            "second places of {wanted}"
        );
    }
}

#[test]
fn calls_reach_every_refusal() {
    let mut random = Random::new(22);
    let mut replies: HashMap<u32, u32> = HashMap::new();
    for _ in 0..150 {
        let sheet = check(&write(&valid::machines(&mut random))).expect("a valid sheet");
        let checked = Ok(sheet);
        for call in calls(&mut random, &checked) {
            *replies.entry(call.reply(&checked).number).or_default() += 1;
        }
    }
    for number in [0, 10, 11, 12, 14] {
        assert!(
            replies.get(&number).is_some_and(|&times| times >= 20),
            "reply {number}"
        );
    }
    assert_eq!(replies.len(), 5);
}

#[test]
fn heavy_sheets_are_the_largest_and_fit() {
    let machines = heavy::machines(&mut Random::new(25));
    let bytes = write(&machines);
    assert_eq!(bytes.len(), LONGEST);
    assert_eq!(check(&bytes).map(|s| swift_walk(&s)), Ok(Verdict::Fits));
}

#[test]
fn the_same_seed_gives_the_same_sheets() {
    let sheets = |seed| {
        let mut random = Random::new(seed);
        (0..50)
            .map(|_| generate::sheet(&mut random))
            .collect::<Vec<_>>()
    };
    assert_eq!(sheets(23), sheets(23));
    assert_ne!(sheets(23), sheets(24));
}
