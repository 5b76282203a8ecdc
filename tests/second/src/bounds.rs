//! The five questions about one machine, with refusals 10, 11, 14 and 12 in that order.

use crate::back::{self, bound, Count};
use crate::critical;
use crate::legal::Pair;
use crate::plain;
use crate::sheet::{Machine, Refusal, Sheet};

/// The most ticks from the start of a window to its end.
pub const LONGEST_WINDOW: u32 = 2_048;
/// The last tick at which a window may end.
pub const LAST_TICK: u32 = 1_000_000;

/// The request bound of `[start, end)`.
pub fn request(sheet: &Sheet, machine: u32, start: u32, end: u32) -> Result<u32, Refusal> {
    let machine = asked(sheet, machine, start, end.into())?;
    Ok(bound(machine, Count::Request, start, end))
}

/// The demand bound of `[start, end]`.
pub fn demand(sheet: &Sheet, machine: u32, start: u32, end: u32) -> Result<u32, Refusal> {
    let machine = asked(sheet, machine, start, end.into())?;
    Ok(bound(machine, Count::Demand, start, end))
}

/// The request bounds of `[start, start + n)` for n from 0 to `longest`, one word each.
pub fn table(
    sheet: &Sheet,
    machine: u32,
    start: u32,
    longest: u32,
    lent_words: usize,
) -> Result<Vec<u32>, Refusal> {
    let machine = asked(sheet, machine, start, start as u64 + longest as u64)?;
    if (longest as usize) + 1 > lent_words {
        return Err(Refusal::new(12));
    }
    Ok(back::table(machine, start, longest))
}

/// The critical sequence of `[start, end)`, two words a pair.
pub fn critical(
    sheet: &Sheet,
    machine: u32,
    start: u32,
    end: u32,
    lent_words: usize,
) -> Result<Vec<Pair>, Refusal> {
    let machine = asked(sheet, machine, start, end.into())?;
    let pairs = critical::critical(machine, start, end);
    if 2 * pairs.len() > lent_words {
        return Err(Refusal::new(12));
    }
    Ok(pairs)
}

/// The plain reckoner's request bound of `[start, end)`.
pub fn plain(sheet: &Sheet, machine: u32, start: u32, end: u32) -> Result<u32, Refusal> {
    let machine = asked(sheet, machine, start, end.into())?;
    plain::plain(machine, start, end).ok_or(Refusal::new(14))
}

/// The machine asked for (else 10), if the window keeps the rules (else 11).
fn asked(sheet: &Sheet, machine: u32, start: u32, end: u64) -> Result<&Machine, Refusal> {
    let machine = sheet
        .machines
        .get(machine as usize)
        .ok_or(Refusal::new(10))?;
    let start = u64::from(start);
    let kept = start <= end && end - start <= LONGEST_WINDOW.into() && end <= LAST_TICK.into();
    if kept {
        Ok(machine)
    } else {
        Err(Refusal::new(11))
    }
}
