// Stored cases of the partners of a place.

use crate::cabinets::{all_choices, cabinet_jobs, twin_jobs};
use crate::cases::{bare, every_case, loaded};
use crate::comparison::{Answer, Call};
use crate::dice::{Counts, Dice, Thrown};
use crate::machine::{advance, lowest_choice, NO_PARTNER};
use crate::partners::stands;
use crate::refusal::CANNOT_ACT;
use crate::sample::Sample;
use crate::shapes::*;
use crate::spelling::{read_state, Spelled, LONGEST};
use crate::stored::Stored;
use crate::stored_nested::nested_cases;
use crate::tree::{Element, Kind, Process, State};
use crate::waiting::{crowd, each_alone, some_scenes, Waited};
use std::collections::BTreeSet;

/// The seed of the samples.
const SEED: u64 = 1;

/// The samples have inputs of at most so many bytes, and are taken from so many scenes.
const SAMPLED: usize = 160;
const SAMPLED_REFUSED: usize = 130;
const SCENES: usize = 4_000;

/// The partners of a place of a state.
fn case(state: &State, place: u16) -> Stored {
    Stored::new(Call::Partners(place), &state.encode(), 0)
}

/// All cases: those made by hand, samples, and a few long ones.
pub fn partner_cases() -> Vec<Stored> {
    let mut cases = by_hand();
    cases.extend(each_that_waits());
    cases.extend(sampled_scenes());
    cases.extend(sampled_refusals());
    cases.extend(long_ones());
    cases.extend(of_the_cabinet());
    cases.extend(nested_cases(|call| matches!(call, Call::Partners(_))));
    cases
}

/// Cases that expect what is wrong in one number: the lowest partner, how many there are, the refusal, and that of a state
/// that is too deep. The program that makes the calls again has to notice every one of them.
pub fn partner_controls(cases: &[Stored]) -> Vec<Stored> {
    let wrong = |is_wanted: fn(&Stored) -> bool, change: fn(&mut Stored)| {
        let case = cases.iter().find(|case| is_wanted(case));
        let mut case = case.expect("there is such a case").clone();
        change(&mut case);
        case
    };
    let has_one = |case: &Stored| case.due.is_ok_and(|outcome| outcome.count == 1);
    vec![
        wrong(has_one, |case| case.outcome().lowest += 1),
        wrong(has_one, |case| case.outcome().count += 1),
        wrong(Stored::is_refused, |case| {
            case.due = case.due.map_err(|number| number + 1)
        }),
        wrong(Stored::is_refused_nested, |case| {
            case.expect(Err(u32::from(CANNOT_ACT)))
        }),
    ]
}

/// Every place, and two past the end, of the states of the printed session from a bare root, and of what steps by each
/// of rules 29 to 34.
fn by_hand() -> Vec<Stored> {
    let mut cases = Vec::new();
    let mut at_every_place = |state: &State| {
        let count = stands(state).len() as u16;
        for place in (0..=count).chain([NO_PARTNER]) {
            cases.push(case(state, place));
        }
    };
    let mut state = bare(printed_job());
    while let Some((place, partner)) = lowest_choice(&state) {
        at_every_place(&state);
        let stepped = advance(&state, place, partner);
        state = stepped.expect("the session goes on").1;
    }
    at_every_place(&state);
    // One that waits beside, so that there is something to count.
    let null = || Process::Null;
    let processes = [
        again(Kind::InternalInput, &[1], null()),
        null(),
        parallel(null(), null()),
        restriction(null()),
        in_ambient(0, null()),
    ];
    let output = || ambient(0, vec![blocked(Kind::ParentOutput, &[1, 0])]);
    for process in processes {
        at_every_place(&root(2, vec![Element::Process(process), output()]));
    }
    cases
}

/// What tells one answer from another: the refusal, or how many there are, if not more than this.
fn sort(answer: Answer, most: u32) -> Result<u32, u32> {
    answer.map(|outcome| outcome.count.min(most))
}

/// Each thing that can wait, with no partner, with one and with more: the action's own place.
fn each_that_waits() -> Vec<Stored> {
    let mut cases = Vec::new();
    let mut seen = BTreeSet::new();
    let mut dice = Dice::new(Counts::All, SEED);
    each_alone(&mut dice, &mut |waiting, waited| {
        let case = case(&waited.state, waited.place());
        let is_short = waited.state.encode().len() <= SAMPLED;
        if is_short && seen.insert((waited.kind as u8, waiting, sort(case.due, 2))) {
            cases.push(case);
        }
    });
    cases
}

/// Of the scenes with an action of one kind and with as many partners one.
fn sampled_scenes() -> Vec<Stored> {
    let mut cases = Vec::new();
    let mut seen = BTreeSet::new();
    let mut dice = Dice::new(Counts::All, SEED);
    some_scenes(&mut dice, SCENES, &mut |waited| {
        let case = case(&waited.state, waited.place());
        let is_short = waited.state.encode().len() <= 2 * SAMPLED;
        if is_short && seen.insert((waited.kind as u8, sort(case.due, 8))) {
            cases.push(case);
        }
    });
    cases
}

/// A few inputs that are no accepted state, of every number.
fn sampled_refusals() -> Vec<Stored> {
    let mut cases = Vec::new();
    let mut sample = Sample::empty();
    let mut turn = 0;
    every_case(Thrown::bare(Counts::All), SEED, 1, &mut |_, input| {
        let is_wanted = input.len() <= SAMPLED_REFUSED && input.first() == Some(&0x11);
        let Some(number) = read_state(input).err().filter(|_| is_wanted) else {
            return;
        };
        if sample.takes(number, 1) {
            // A place that cannot act, and one past the end, are not judged before these.
            let place = [0, 1, 40, NO_PARTNER][turn % 4];
            turn += 1;
            cases.push(Stored::new(Call::Partners(place), input, 0));
        }
    });
    cases
}

/// Thousands of partners, none and one among many, and states that are as long as may be and longer.
fn long_ones() -> Vec<Stored> {
    let mut cases = Vec::new();
    let mut show = |waited: &Waited| cases.push(case(&waited.state, waited.place()));
    let all = |_, _| true;
    show(&crowd(Kind::ParentOutput, LONGEST, 1, true, all));
    show(&crowd(Kind::Accept, 20_000, 1, false, all));
    show(&crowd(Kind::Release, 12_000, 7, false, all));
    for kind in Kind::ALL {
        show(&crowd(kind, 1_500, 7, false, |_, _| false));
        let last = |index, count| index + 1 == count;
        show(&crowd(kind, 1_500, 7, true, last));
    }
    let too_long = timed_states(LONGEST + 1, SEED).swap_remove(0).1;
    cases.push(case(&too_long, 0));
    cases
}

/// The places that meet, or nearly do, on the way of the jobs in which the cabinet takes part.
fn of_the_cabinet() -> Vec<Stored> {
    let mut cases = Vec::new();
    let mut seen = BTreeSet::new();
    let jobs = cabinet_jobs().into_iter().chain(twin_jobs());
    for (name, job) in jobs {
        let mut state = loaded(job);
        for _ in 0..LOOKED_AT {
            for (place, partner) in all_choices(&state) {
                let kind = acting_kind(&state, place).filter(|_| partner == NO_PARTNER);
                if let Some(kind) = kind {
                    let case = case(&state, place);
                    if seen.insert((name, kind as u8, sort(case.due, 2))) {
                        cases.push(case);
                    }
                }
            }
            let Some((place, partner)) = lowest_choice(&state) else {
                break;
            };
            let stepped = advance(&state, place, partner);
            state = stepped.expect("the job goes on").1;
        }
    }
    cases
}

/// The kind of the action that can act at the place, if it is one.
fn acting_kind(state: &State, place: u16) -> Option<Kind> {
    match stands(state)[usize::from(place)].element {
        Element::Process(Process::Action(action, _)) => Some(action.kind),
        _ => None,
    }
}

/// How many states of a job are looked at.
const LOOKED_AT: usize = 40;
