//! Refusals 1 to 9: each rule at its edges, the order of the rules, the first place.

mod common;

use common::{longest, machine, pair_with, refused, sheet, Row, PAIR};
use second::sheet::{check, MOST_TICKS};
use second::write::write;

/// A sheet of one machine with one state.
fn one(rows: &[Row]) -> Vec<u8> {
    write(&[machine(1, rows)])
}

/// A sheet of machines with one state and one action each.
fn each(rows: &[Row]) -> Vec<u8> {
    let machines: Vec<_> = rows.iter().map(|&row| machine(1, &[row])).collect();
    write(&machines)
}

#[test]
fn pair_says_what_its_table_says() {
    let pair = check(&PAIR).expect("PAIR is accepted");
    let second = [
        (0, 1, 40, 5, 20),
        (2, 0, 100, 6, 20),
        (1, 2, 40, 2, 20),
        (1, 2, 100, 3, 20),
    ];
    let machines = vec![machine(1, &[(0, 0, 40, 14, 40)]), machine(3, &second)];
    assert_eq!(pair.machines, machines);
    assert_eq!(pair.hyperperiod, 200);
    assert_eq!(write(&machines), PAIR);
}

#[test]
fn length() {
    let shortest = one(&[(0, 0, 1, 1, 1)]);
    assert_eq!(shortest.len(), 28);
    assert!(check(&shortest).is_ok());
    assert_eq!(refused(&[]), (1, 0, 0));
    assert_eq!(refused(&[0; 3]), (1, 0, 0));
    assert_eq!(refused(&shortest[1..]), (1, 0, 0));
    let mut longest = longest();
    assert_eq!(longest.len(), 2_124);
    assert!(check(&longest).is_ok());
    longest.insert(0, 0);
    assert_eq!(refused(&longest), (1, 0, 0));
    assert_eq!(refused(&[0; 2_125]), (1, 0, 0));
    assert_eq!(refused(&[0; 2_124]), (2, 0, 0));
    assert_eq!(refused(&[0; 28]), (2, 0, 0));
}

#[test]
fn mark() {
    for place in 64..68 {
        assert_eq!(refused(&pair_with(&[(place, 0x30)])), (2, 0, 0));
    }
    // Before the machine count.
    assert_eq!(refused(&pair_with(&[(60, 0), (67, 0x32)])), (2, 0, 0));
}

#[test]
fn machine_count() {
    for count in [0, 9, 255] {
        assert_eq!(refused(&pair_with(&[(60, count)])), (3, 0, 0));
    }
    // Eight times these counts is 0 in 32 bits, or that of a right count.
    assert_eq!(refused(&pair_with(&[(60, 0), (63, 0x20)])), (3, 0, 0));
    assert_eq!(refused(&pair_with(&[(63, 0x20)])), (3, 0, 0));
}

#[test]
fn trailer_offset() {
    for count in [1, 3, 8] {
        assert_eq!(refused(&pair_with(&[(60, count)])), (4, 0, 0));
    }
    assert_eq!(refused(&pair_with(&[(56, 0x27)])), (4, 0, 0));
    assert_eq!(refused(&pair_with(&[(59, 0x80)])), (4, 0, 0));
    // Twelve and eight times 8 exceed 28 bytes; a difference cut off at 0 would be the offset.
    let mut short = one(&[(0, 0, 1, 1, 1)]);
    short[16..24].copy_from_slice(&[0, 0, 0, 0, 8, 0, 0, 0]);
    assert_eq!(refused(&short), (4, 0, 0));
    // In 32 bits this offset and 12 and 64 make 28.
    short[16..20].copy_from_slice(&(28u32.wrapping_sub(76)).to_le_bytes());
    assert_eq!(refused(&short), (4, 0, 0));
}

#[test]
fn entries() {
    // Places of machine 0's entry: states 40, initial 41, actions 42, zero byte 43.
    for (place, byte) in [(40, 0), (40, 17), (41, 1), (42, 0), (42, 33), (43, 1)] {
        assert_eq!(refused(&pair_with(&[(place, byte)])), (5, 0, 0));
        let later = if place == 41 { 3 } else { byte };
        assert_eq!(refused(&pair_with(&[(place + 8, later)])), (5, 1, 0));
    }
    assert!(check(&pair_with(&[(48, 16), (49, 15)])).is_ok());
    // A wrong offset in an earlier entry does not come first.
    assert_eq!(refused(&pair_with(&[(44, 9), (48, 0)])), (5, 1, 0));
}

#[test]
fn offsets() {
    assert_eq!(refused(&pair_with(&[(44, 8)])), (6, 0, 0));
    assert_eq!(refused(&pair_with(&[(52, 7)])), (6, 1, 0));
    assert_eq!(refused(&pair_with(&[(55, 0x80)])), (6, 1, 0));
    assert_eq!(refused(&pair_with(&[(44, 8), (52, 0)])), (6, 0, 0));
    // One action too few or too many, all offsets right.
    assert_eq!(refused(&pair_with(&[(50, 3)])), (6, 2, 0));
    assert_eq!(refused(&pair_with(&[(50, 5)])), (6, 2, 0));
    // Both faults: the entries come first.
    assert_eq!(refused(&pair_with(&[(42, 2), (44, 1)])), (6, 0, 0));
    assert_eq!(refused(&pair_with(&[(42, 2)])), (6, 1, 0));
    // A byte to spare between the actions and the entries.
    let mut spare = PAIR.to_vec();
    spare.insert(40, 0);
    spare[57] = 41;
    assert_eq!(refused(&spare), (6, 2, 0));
}

#[test]
fn ranges() {
    for row in [
        (1, 0, 2, 1, 1),
        (0, 1, 2, 1, 1),
        (0, 0, 0, 1, 1),
        (0, 0, 1_025, 1, 1),
        (0, 0, 2, 0, 1),
        (0, 0, 2, 1_025, 1),
        (0, 0, 2, 1, 0),
    ] {
        assert_eq!(refused(&one(&[row])), (7, 0, 0));
        assert_eq!(refused(&one(&[(0, 0, 2, 1, 1), row])), (7, 0, 1));
        assert_eq!(refused(&each(&[(0, 0, 2, 1, 1), row])), (7, 1, 0));
    }
    assert!(check(&one(&[(0, 0, 1_024, 1_024, 1_024)])).is_ok());
    // Over the entire sheet before any deadline is held against a divisor.
    assert_eq!(
        refused(&each(&[(0, 0, 2, 1, 3), (0, 0, 2, 0, 1)])),
        (7, 1, 0)
    );
}

#[test]
fn deadlines() {
    assert_eq!(refused(&pair_with(&[(14, 21)])), (8, 1, 0));
    // A machine's own divisor, not the sheet's.
    assert_eq!(
        sheet(&[
            machine(1, &[(0, 0, 4, 1, 4)]),
            machine(1, &[(0, 0, 6, 1, 6)])
        ])
        .hyperperiod,
        12
    );
    // Of all its actions, also of those after the offender.
    assert_eq!(
        refused(&one(&[(0, 0, 4, 1, 4), (0, 0, 6, 1, 2)])),
        (8, 0, 0)
    );
    assert!(check(&one(&[(0, 0, 4, 1, 2), (0, 0, 6, 1, 2)])).is_ok());
    let first = machine(1, &[(0, 0, 2, 1, 2)]);
    let later = machine(1, &[(0, 0, 2, 1, 3), (0, 0, 2, 1, 4)]);
    assert_eq!(refused(&write(&[first, later])), (8, 1, 0));
    // Before the hyperperiod.
    assert_eq!(
        refused(&each(&[(0, 0, 1_024, 1, 1), (0, 0, 3, 1, 4)])),
        (8, 1, 0)
    );
}

#[test]
fn hyperperiod() {
    assert_eq!(
        refused(&each(&[(0, 0, 1_024, 1, 1), (0, 0, 3, 1, 1)])),
        (9, 0, 0)
    );
    assert_eq!(
        refused(&one(&[(0, 0, 1_024, 1, 1), (0, 0, 3, 1, 1)])),
        (9, 0, 0)
    );
    // The least common multiple, not the product.
    let bytes = each(&[(0, 0, 32, 1, 1), (0, 0, 64, 1, 1)]);
    assert_eq!(check(&bytes).map(|sheet| sheet.hyperperiod), Ok(64));
    let bytes = one(&[(0, 0, 1_024, 1, 1), (0, 0, 512, 1, 1)]);
    assert_eq!(check(&bytes).map(|sheet| sheet.hyperperiod), Ok(MOST_TICKS));
    // 205 times 5 is just above.
    assert_eq!(
        refused(&each(&[(0, 0, 205, 1, 1), (0, 0, 25, 1, 1)])),
        (9, 0, 0)
    );
    // A multiple of very many periods.
    let rows: Vec<Row> = (993..=1_024).map(|period| (0, 0, period, 1, 1)).collect();
    assert_eq!(refused(&one(&rows)), (9, 0, 0));
}
