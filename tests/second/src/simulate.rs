//! Runs of generated sheets: none may be late on a sheet that fits.

mod aim;

use crate::generate::{border, valid};
use crate::random::Random;
use crate::run::{Run, Trigger};
use crate::sheet::{check, Machine, Sheet};
use crate::text::hexadecimal;
use crate::verdict::{verdict, Verdict, Window};
use crate::write::write;

const RANDOM_RUNS: u32 = 8;
const AIMED_RUNS: u32 = 24;

/// What was seen of the sheets until now.
#[derive(Default)]
struct Seen {
    fits: u32,
    late: u32,
    /// Late sheets seen late in the runs that fitting sheets have to stand.
    same_runs: u32,
    /// Late sheets seen late in runs aimed at the window that the verdict names.
    aimed_runs: u32,
}

/// Runs so many sheets and says what was seen; a late run of a fitting sheet is an error.
pub fn report(seed: u64, count: u32) -> Result<String, String> {
    let mut random = Random::new(seed);
    let mut seen = Seen::default();
    for _ in 0..count {
        let machines = machines(&mut random);
        let sheet = check(&write(&machines)).expect("a valid sheet was made");
        let late_machine = late_machine(&sheet, &mut random);
        match (verdict(&sheet), late_machine) {
            (Verdict::Fits, None) => seen.fits += 1,
            (Verdict::Fits, Some(machine)) => {
                let sheet = hexadecimal(&write(&machines));
                return Err(format!("machine {machine} is late though it fits: {sheet}"));
            }
            (Verdict::Late(window), machine) => {
                seen.late += 1;
                seen.same_runs += u32::from(machine.is_some());
                seen.aimed_runs += u32::from(can_be_late(&sheet, window, &mut random));
            }
            (Verdict::Open { .. }, _) => {}
        }
    }
    seen.text()
}

impl Seen {
    /// An error where no sheet fits, or none that does not was seen late: then nothing is shown.
    fn text(&self) -> Result<String, String> {
        let runs = self.fits * (RANDOM_RUNS + AIMED_RUNS);
        let text = format!(
            "fits: {} sheets, {runs} runs, none late\n\
             late: {} sheets, {} late in such runs, {} in runs aimed at the window\n",
            self.fits, self.late, self.same_runs, self.aimed_runs
        );
        if self.fits > 0 && self.same_runs > 0 {
            Ok(text)
        } else {
            Err(format!("{text}too few sheets to show anything"))
        }
    }
}

fn machines(random: &mut Random) -> Vec<Machine> {
    if random.percent(50) {
        valid::machines(random)
    } else {
        border::machines(random)
    }
}

/// Looks for a late machine in runs of every sort.
pub fn late_machine(sheet: &Sheet, random: &mut Random) -> Option<usize> {
    let random_run = (0..RANDOM_RUNS).find_map(|_| random_run(sheet, random));
    random_run.or_else(|| (0..AIMED_RUNS).find_map(|_| aim::any_window(sheet, random)))
}

/// Looks for a late machine in runs aimed at the window that the verdict names.
pub fn can_be_late(sheet: &Sheet, window: Window, random: &mut Random) -> bool {
    (0..AIMED_RUNS).any(|attempt| aim::late_window(sheet, window, attempt, random).is_some())
}

/// How a run's machines behave.
#[derive(Clone, Copy)]
struct Habit {
    /// How often of a hundred times a possible trigger is skipped.
    skips: u32,
    /// How often of a hundred times the work is cut short.
    cuts: u32,
    /// Whether the dearest action is preferred to the others.
    dearest: bool,
}

fn random_run(sheet: &Sheet, random: &mut Random) -> Option<usize> {
    let habit = Habit {
        skips: random.pick(&[0, 0, 10, 50]),
        cuts: random.pick(&[0, 0, 10, 100]),
        dearest: random.percent(30),
    };
    let ticks = (4 * sheet.hyperperiod).clamp(200, 2_000);
    let mut run = Run::new(sheet);
    (0..ticks).find_map(|_| {
        let machines = 0..sheet.machines.len();
        let triggers: Vec<_> = machines
            .map(|machine| choose(sheet, &run, machine, habit, random))
            .collect();
        run.step(&triggers)
    })
}

fn choose(
    sheet: &Sheet,
    run: &Run,
    machine: usize,
    habit: Habit,
    random: &mut Random,
) -> Option<Trigger> {
    let legal = run.legal(machine);
    if legal.is_empty() || random.percent(habit.skips) {
        return None;
    }
    let time = |action: &usize| sheet.machines[machine].actions[*action].time;
    let action = match legal.iter().copied().max_by_key(time) {
        Some(dearest) if habit.dearest => dearest,
        _ => random.pick(&legal),
    };
    let cut = random.percent(habit.cuts);
    let least = if cut { 0 } else { time(&action) };
    Some(Trigger {
        action,
        work: random.within(least..=time(&action)),
    })
}
