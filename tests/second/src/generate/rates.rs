//! Periods for generated machines.

use crate::random::Random;

pub fn divisors(number: u32) -> Vec<u32> {
    let divides = |d: &u32| number.is_multiple_of(*d);
    (1..=number).filter(divides).collect()
}

/// Some of the choices, none of which divides another: then time 0 need not be the worst start.
pub fn uneven(random: &mut Random, choices: &[u32], tries: u32) -> Vec<u32> {
    let mut rates = vec![random.pick(choices)];
    for _ in 0..tries {
        let next = random.pick(choices);
        let apart = |&rate: &u32| !next.is_multiple_of(rate) && !rate.is_multiple_of(next);
        if rates.iter().all(apart) {
            rates.push(next);
        }
    }
    rates
}
