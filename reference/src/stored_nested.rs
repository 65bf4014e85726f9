// Stored cases of states that nest around the limits.

use crate::choices::limits;
use crate::comparison::{second, Call};
use crate::deepest::{deepest_job, deepest_meeting, deepest_states};
use crate::machine::advance_at_any_depth;
use crate::nested::{chosen_states, every_nested, nested_jobs, ANY_NESTING};
use crate::spelling::{
    read_nested_with_pairs, read_state, Spelled, LISTED_NESTING, LONGEST, NESTING,
};
use crate::stored::{kind, Stored};
use std::collections::BTreeSet;

/// The seed of the states.
const SEED: u64 = 1;

/// The states have at most so many bytes.
const SHORT: usize = 110;

/// The call with a buffer that leaves the answer as it is, with none, one or two bytes behind the result.
fn case(call: Call, input: &[u8], turn: usize) -> Stored {
    let mut spare = vec![0; LONGEST];
    let result = match (call, second(call, input, &mut spare)) {
        (Call::Weight | Call::Partners(_), _) => return Stored::new(call, input, 0),
        (Call::Run(_), _) | (_, Err(_)) => input.len() + 30,
        (_, Ok(outcome)) => outcome.result as usize,
    };
    Stored::new(call, input, result + turn % 3)
}

/// The cases of the calls that are wanted: of the states of each nesting one for each answer, a few that are read
/// and listed, jobs that are loaded and written, steps and runs whose results are as deep as may be and one level deeper, and
/// what the calls go deepest in.
pub fn nested_cases(is_wanted: fn(Call) -> bool) -> Vec<Stored> {
    let mut cases = Vec::new();
    let mut seen = BTreeSet::new();
    let mut spare = vec![0; LONGEST];
    every_nested(SEED, 0, &mut |group, input, calls| {
        if input.len() > SHORT || input.first() != Some(&0x11) {
            return;
        }
        let state = read_nested_with_pairs(input, ANY_NESTING);
        let nesting = state.map_or(0, |state| state.nesting());
        for call in calls.iter().copied().chain([Call::Sweep]) {
            let answer = kind(second(call, input, &mut spare));
            let sort = answer.is_ok().then_some(group);
            if is_wanted(call) && seen.insert((sort, call.name(), nesting, answer)) {
                cases.push(case(call, input, cases.len()));
                // What is refused is refused into no room too.
                if call == Call::List && answer.is_err() && nesting > NESTING {
                    cases.push(Stored::new(call, input, 0));
                }
            }
        }
    });
    for state in chosen_states() {
        for call in [Call::Weight, Call::List] {
            if is_wanted(call) {
                cases.push(case(call, &state, cases.len()));
            }
        }
    }
    let mut seen = BTreeSet::new();
    for (nesting, job) in nested_jobs() {
        if nesting <= NESTING + 2 && seen.insert(nesting) {
            for (call, input) in [
                (Call::Load, job.encode()),
                (Call::Write(job.free), job.process.encode()),
            ] {
                if is_wanted(call) {
                    cases.push(case(call, &input, cases.len()));
                }
            }
        }
    }
    let mut seen = BTreeSet::new();
    limits(&mut |_, input, choices| {
        if input.len() > SHORT {
            return;
        }
        let state = read_state(input).expect("these states are good");
        for (place, partner) in choices {
            let Ok((rule, next)) = advance_at_any_depth(&state, *place, *partner) else {
                continue;
            };
            let nesting = next.nesting();
            let is_near = nesting >= NESTING && matches!(rule, 34 | 39..=42);
            if is_near && seen.insert((rule, nesting)) {
                for call in [Call::Step(*place, *partner), Call::Run(9)] {
                    if is_wanted(call) {
                        cases.push(case(call, input, cases.len()));
                    }
                }
            }
        }
    });
    for (call, input) in deepest_calls() {
        if is_wanted(call) {
            cases.push(case(call, &input, cases.len()));
        }
    }
    cases
}

/// Calls on what they go deepest in; the partners of a place and the sweep go as deep in what is weighed.
fn deepest_calls() -> Vec<(Call, Vec<u8>)> {
    let job = deepest_job();
    let mut calls = vec![
        (Call::Load, job.encode()),
        (Call::Write(job.free), job.process.encode()),
    ];
    for state in deepest_states(NESTING) {
        calls.push((Call::Weight, state.encode()));
    }
    for state in deepest_states(LISTED_NESTING) {
        calls.push((Call::List, state.encode()));
    }
    let (state, (place, partner)) = deepest_meeting();
    for call in [Call::Step(place, partner), Call::Run(1)] {
        calls.push((call, state.encode()));
    }
    calls
}
