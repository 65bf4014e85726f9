// Stored cases of sweeps.

use crate::cases::{every_case, loaded};
use crate::comparison::{second, Call};
use crate::dice::{Counts, Dice, Thrown};
use crate::machine::{advance, lowest_choice};
use crate::refusal::RESULT_TOO_LONG;
use crate::sample::Sample;
use crate::spelling::{read_state, Spelled, LONGEST, NESTING};
use crate::stored::{Stored, BLANK};
use crate::stored_nested::nested_cases;
use crate::sweeping::BOX;
use crate::throwaways::*;
use crate::tree::State;
use crate::uses::Use;
use std::collections::BTreeSet;

/// The seed of the samples.
const SEED: u64 = 1;

/// The cases made by hand and the samples have inputs of at most so many bytes; some are taken from so many thrown states.
const SHORT: usize = 80;
const SAMPLED: usize = 100;
const SAMPLED_REFUSED: usize = 130;
const THROWN: usize = 4_000;

/// A sweep of the bytes, with so many more in the output buffer than are left.
fn case(state: &[u8], more: usize) -> Stored {
    let mut spare = vec![0; LONGEST];
    let left =
        second(Call::Sweep, state, &mut spare).map_or(state.len(), |left| left.result as usize);
    Stored::new(Call::Sweep, state, left + more)
}

/// All cases: a name in each part, ambients in each other, the states of a job, samples, and a few long ones.
pub fn sweep_cases() -> Vec<Stored> {
    let mut cases = each_part();
    cases.extend(nested());
    cases.extend(of_a_job());
    cases.extend(sampled_throws());
    cases.extend(sampled_refusals());
    cases.extend(lengths());
    cases.extend(long_ones());
    cases.extend(nested_cases(|call| call == Call::Sweep));
    cases
}

/// Cases that expect what is wrong: a length that is one too great, a byte, the refusal, and that of a state that is too
/// deep. The program that makes the calls again has to notice every one of them.
pub fn sweep_controls(cases: &[Stored]) -> Vec<Stored> {
    let wrong = |is_wanted: fn(&Stored) -> bool, change: fn(&mut Stored)| {
        let case = cases.iter().find(|case| is_wanted(case));
        let mut case = case.expect("there is such a case").clone();
        change(&mut case);
        case
    };
    vec![
        wrong(Stored::leaves_room, |case| case.result.push(BLANK)),
        wrong(Stored::leaves_room, |case| {
            *case.result.last_mut().expect("there is a result") ^= 1
        }),
        wrong(Stored::is_refused, |case| {
            case.due = case.due.map_err(|number| number + 1)
        }),
        wrong(Stored::is_refused_nested, |case| {
            case.expect(Err(u32::from(RESULT_TOO_LONG)))
        }),
    ]
}

/// Of each part of a process in which a name can stand, and of each way in which that can be put in a state, one where
/// the name keeps the ambient, and of some one where another does not; all names of one part; and a few as deep as may be.
fn each_part() -> Vec<Stored> {
    let mut cases = Vec::new();
    let mut seen = BTreeSet::new();
    let mut deep = Sample::empty();
    let uses = Use::all();
    each_use(&mut |part, standing, littered| {
        let index = uses.iter().position(|of| *of == part).expect("a use");
        let goes = littered.state != littered.left;
        let turn = index + standing as usize;
        let is_wanted = match standing {
            Standing::Directly => !goes || index % 4 == 0,
            _ => turn.is_multiple_of(12) || !goes && index % 50 == 0,
        };
        let is_whole_row = (part, standing) == (Use::Ambient, Standing::Directly);
        let bytes = littered.state.encode();
        // Of those that differ only in how they are laid out a short one will do.
        let is_wanted = is_wanted && (bytes.len() <= SHORT || standing == Standing::Deepest);
        let is_deep = standing == Standing::Directly && littered.state.nesting() + 1 >= NESTING;
        if is_whole_row
            || is_wanted && seen.insert((index, standing, goes))
            || is_deep && deep.takes(goes, 1)
        {
            cases.push(case(&bytes, turn % 3));
        }
    });
    let mut turn = 0;
    each_variable(&mut |littered| {
        if turn % 29 == 0 {
            cases.push(case(&littered.state.encode(), turn % 3));
        }
        turn += 1;
    });
    cases
}

/// Ambients in each other, one, some and as many as may be, all of them, none and some blocked: where all go, and where one
/// stays for each reason, the outermost or another.
fn nested() -> Vec<Stored> {
    let mut cases = Vec::new();
    let mut seen = BTreeSet::new();
    each_nest(&mut |stay, littered| {
        let (nesting, left) = (littered.state.nesting(), littered.left.nesting());
        if ![1, 3, NESTING].contains(&nesting) {
            return;
        }
        let bytes = littered.state.encode();
        let [open, shut] = [0x40, 0x41].map(|tag| bytes[7..].contains(&tag));
        if seen.insert((stay, nesting, left.min(2), open, shut)) {
            cases.push(case(&bytes, cases.len() % 3));
        }
    });
    cases
}

/// Some of the states on the way of the job whose announcements leave throwaway ambients, and the last.
fn of_a_job() -> Vec<Stored> {
    let mut cases = Vec::new();
    let mut state = loaded(announced_reels());
    let mut turn = 0;
    while let Some((place, partner)) = lowest_choice(&state) {
        if turn % 6 == 0 {
            cases.push(case(&state.encode(), 1));
        }
        turn += 1;
        state = advance(&state, place, partner).expect("the job goes on").1;
    }
    cases.push(case(&state.encode(), 1));
    cases
}

/// Of the thrown states of which as many ambients go some.
fn sampled_throws() -> Vec<Stored> {
    let mut cases = Vec::new();
    let mut sample = Sample::empty();
    let mut dice = Dice::new(Counts::All, SEED);
    for _ in 0..THROWN {
        let state: State = thrown_state(&mut dice);
        let bytes = state.encode();
        if bytes.len() > SAMPLED {
            continue;
        }
        let case = case(&bytes, cases.len() % 3);
        let removed = case
            .due
            .map(|left| (bytes.len() - left.result as usize) / BOX);
        if sample.takes(removed, 1) {
            cases.push(case);
        }
    }
    cases
}

/// A few inputs that are no accepted state, of every number, into buffers that are as long, too short, or longer.
fn sampled_refusals() -> Vec<Stored> {
    let mut cases = Vec::new();
    let mut sample = Sample::empty();
    every_case(Thrown::bare(Counts::All), SEED, 1, &mut |_, input| {
        let is_wanted = input.len() <= SAMPLED_REFUSED && input.first() == Some(&0x11);
        let Some(number) = read_state(input).err().filter(|_| is_wanted) else {
            return;
        };
        if sample.takes(number, 1) {
            let length = input.len();
            let room = [length, 0, length / 2, length + 9][cases.len() % 4];
            cases.push(Stored::new(Call::Sweep, input, room));
        }
    });
    cases
}

/// Buffers of every length that makes a difference: of what is left, of the state, and around them; also for a state with a
/// blocked pair and an ambient that would go.
fn lengths() -> Vec<Stored> {
    let mut cases = Vec::new();
    let mut dice = Dice::new(Counts::All, SEED + 1);
    for wanted in [Some(0), Some(1), Some(3), None] {
        let state = std::iter::repeat_with(|| thrown_state(&mut dice).encode()).find(|bytes| {
            let mut spare = vec![0; LONGEST];
            let left = second(Call::Sweep, bytes, &mut spare);
            let removed = left.map(|left| (bytes.len() - left.result as usize) / BOX);
            let is_found = match wanted {
                Some(count) => removed == Ok(count),
                None => removed == Err(7),
            };
            is_found && (40..SAMPLED).contains(&bytes.len())
        });
        let state = state.expect("there is no end of them");
        let left = state.len() - BOX * wanted.unwrap_or(0);
        let mut rooms = BTreeSet::from([0, 1, left / 2, 40_000]);
        for length in [left, state.len()] {
            rooms.extend([length - 1, length, length + 1]);
        }
        for room in rooms {
            cases.push(Stored::new(Call::Sweep, &state, room));
        }
    }
    cases
}

/// Names that are used as often as fills a byte, hundreds of ambients in columns, a state as long as may be that is left
/// as it is, and one that is longer.
fn long_ones() -> Vec<Stored> {
    let mut cases = Vec::new();
    for count in [255, 256] {
        cases.push(case(&used_often(count).encode(), 1));
    }
    let columns = timed_sweeps(1_500).swap_remove(1).1;
    cases.push(case(&columns.encode(), 1));
    cases.push(case(&behind_actions(LONGEST).encode(), 0));
    cases.push(case(&too_long(LONGEST + 1).encode(), 0));
    cases
}
