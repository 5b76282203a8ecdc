//! A refusal in words: why, and where.

use crate::sheet::Refusal;

pub fn words(refusal: Refusal) -> String {
    let Refusal { first, second, .. } = refusal;
    let place = match refusal.number {
        5 | 6 => format!(", at machine {first}"),
        7 | 8 => format!(", at machine {first}, action {second}"),
        _ => String::new(),
    };
    format!("{}{place}", why(refusal.number))
}

fn why(number: u32) -> &'static str {
    match number {
        1 => "the length is below 28 or above 2,124",
        2 => "the last four bytes are not SFS1",
        3 => "the machine count is 0 or above 8",
        4 => "the entries and the trailer exceed the length, or the trailer's offset is wrong",
        5 => "an entry has its states, initial state, actions or zero byte out of range",
        6 => {
            "an entry's offset is wrong or, if there is no such machine, \
             the actions do not end at the entries"
        }
        7 => "an action has a state, period or time out of range, or deadline 0",
        8 => "a deadline is above the divisor of the machine's periods",
        9 => "the hyperperiod H is above 1,024",
        10 => "the machine asked for is not in the sheet",
        11 => "the window runs backwards, is longer than 2,048 or ends after 1,000,000",
        12 => "the lent output is too short",
        14 => "the window holds more than 6 instants, for the plain reckoner",
        _ => "",
    }
}
