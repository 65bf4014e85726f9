// The budgets for comparing runs: on random states and loaded jobs, on small states that play leads
// to, on jobs that go on for ever and on ones that end at a limit.

use crate::choices::{first_state, small_plays};
use crate::dice::{Counts, Dice, Thrown};
use crate::machine::{run, Ending};
use crate::nested::nested_jobs;
use crate::shapes::{asking_job, counted_run, endless_jobs, limited_jobs};
use crate::shapes::{printed_job, state_at_name, timed_runs};
use crate::spelling::{read_state, Spelled, LONGEST};
use crate::tree::State;

/// What a state is shown to: the name of its group, its bytes, and the budgets to run it with.
pub type Runner<'runner> = &'runner mut dyn FnMut(&'static str, &[u8], &[u16]);

/// The largest budget.
pub const MOST_STEPS: u16 = 65_535;

/// The budget of a random state that does not end sooner.
const MODEST: u16 = 250;

/// Shows states and budgets to the visitor. Each round adds as many random ones again.
pub fn every_run(thrown: impl Into<Thrown>, seed: u64, rounds: usize, visit: Runner) {
    let mut dice = Dice::new(thrown, seed);
    made_by_hand(&mut dice, visit);
    if dice.counts() == Counts::All {
        made_with_counts(&dice, visit);
    }
    for _ in 0..rounds {
        random_runs(&mut dice, visit);
        small_states(&mut dice, visit);
    }
}

/// Jobs that go on for ever, states that end at a limit or are blocked at last, and long states.
fn made_by_hand(dice: &mut Dice, visit: Runner) {
    for (_, job) in endless_jobs() {
        let state = dice.started(job).encode();
        let budgets: Vec<u16> = (0..40).chain([100, 1_000, MOST_STEPS]).collect();
        visit("runs without an end", &state, &budgets);
    }
    let first = dice.started(printed_job());
    let limited = limited_jobs().into_iter().map(|(_, job)| job);
    let nested = nested_jobs().into_iter().map(|(_, job)| job);
    let limited: Vec<State> = limited.chain(nested).map(|job| dice.started(job)).collect();
    let mut show = |state: &State| {
        let budgets = budgets(dice, state, MOST_STEPS);
        visit("runs to an end", &state.encode(), &budgets);
    };
    show(&first);
    for next in 4_094..=4_096 {
        show(&state_at_name(next));
    }
    for state in &limited {
        show(state);
    }
    for (_, state) in timed_runs() {
        visit("long states", &state.encode(), &[0, 1, 20]);
    }
}

/// A job that goes on for ever and hands over several names, and a long state.
fn made_with_counts(dice: &Dice, visit: Runner) {
    let state = dice.started(asking_job()).encode();
    let budgets: Vec<u16> = (0..40).chain([100, 1_000, MOST_STEPS]).collect();
    visit("runs without an end", &state, &budgets);
    let (_, state) = counted_run();
    visit("long states", &state.encode(), &[0, 1, 20]);
}

/// Random states and loaded jobs, some of them close to the limits of names and nesting.
fn random_runs(dice: &mut Dice, visit: Runner) {
    for turn in 0..4_000 {
        let state = first_state(dice, turn);
        if read_state(&state.encode()).is_ok() {
            let budgets = budgets(dice, &state, MODEST);
            visit("random runs", &state.encode(), &budgets);
        }
    }
}

/// Small states on the way of a play.
fn small_states(dice: &mut Dice, visit: Runner) {
    small_plays(dice, &mut |dice, state| {
        if dice.one_in(8) {
            let budgets = budgets(dice, state, MODEST);
            visit("runs of small states", &state.encode(), &budgets);
        }
    });
}

/// 0, 1 and a small budget. If the run ends before so many steps: the count of its steps, one fewer
/// and the largest budget; else so many.
fn budgets(dice: &mut Dice, state: &State, most: u16) -> Vec<u16> {
    let ended = run(&state.encode(), most, &mut vec![0; LONGEST]);
    let ended = ended.expect("the state is accepted");
    let mut budgets = vec![0, 1, dice.between(2, 30) as u16];
    if ended.ending == Ending::Spent {
        budgets.push(most);
    } else {
        budgets.extend([ended.steps.saturating_sub(1), ended.steps, MOST_STEPS]);
    }
    budgets.sort();
    budgets.dedup();
    budgets
}
