// Compares two sides call by call: what they answer, and every byte of the lent buffers.

use crate::cabinets::every_cabinet;
use crate::cases::every_case;
use crate::choices::every_choice;
use crate::dice::{Counts, Thrown};
use crate::machine::{acting_places, element_at, paths, Turn, NO_PARTNER};
use crate::mixed_up::every_planted;
use crate::nested::{every_nested, ANY_NESTING};
use crate::partners::{partners, stands, Partners};
use crate::processes::every_process;
use crate::refusal::{BOX_AND_CHANNEL, RESULT_TOO_LONG, TOO_DEEP};
use crate::runs::every_run;
use crate::spelling::{comes_to_count, read_nested_with_pairs, read_state, read_state_with_pairs};
use crate::spelling::{Form, Spelled, LOADING, LONGEST, NESTING};
use crate::sweeping::{sweep, BOX};
use crate::throwaways::every_throwaway;
use crate::tree::{Action, Element, Process};
use crate::waiting::every_waiting;
use crate::{machine, proved};
use std::collections::{BTreeMap, BTreeSet, HashSet};
use std::fmt;
use std::hash::{DefaultHasher, Hash, Hasher};
use std::hint::black_box;

/// How many differences are shown in full, in all and of one group, and how many bytes of each.
const SHOWN: usize = 20;
const SHOWN_OF_GROUP: usize = 4;
const SHOWN_BYTES: usize = 400;

/// Bytes on both sides of a lent buffer, where nothing may be written.
pub const MARGIN: usize = 16;

/// Every so many turns every length around the result's is tried, from so many bytes below to so
/// many above, and a very long one.
const WIDE_TURNS: usize = 8;
const WIDE: usize = 8;
pub const VERY_LONG: usize = 70_000;

/// A run of more steps than this is not made into so many buffers.
const MANY_STEPS: u16 = 2_000;

/// At least so many accepted sweeps are made in a round, and so many that remove something.
pub const LEAST_SWEEPS: usize = 200_000;
pub const LEAST_CLEARING: usize = 80_000;

/// At least so many listings of states that nest deeper than a result may are accepted in a round, and so many are refused
/// with 5 and with 7.
pub const LEAST_LISTED: usize = 25_000;
pub const LEAST_TOO_DEEP: usize = 2_000;
pub const LEAST_WITH_PAIR: usize = 5_000;

/// At least so many different jobs are loaded, and in a round so many loadings are accepted and so many refused with 15.
pub const LEAST_JOBS: usize = 500_000;
pub const LEAST_LOADED: usize = 500_000;
pub const LEAST_MIXED_UP: usize = 500_000;

/// A call on an input. A step has a place, and a partner's place or 65,535; a run has a budget; the
/// writing of a job has the count of free names, its input is the process; the partners are those of a place.
#[derive(Clone, Copy, Debug, PartialEq, Eq)]
pub enum Call {
    Weight,
    Load,
    List,
    Step(u16, u16),
    Run(u16),
    Write(u16),
    Partners(u16),
    Sweep,
}

impl Call {
    /// The name of the call without its choice, budget or count.
    pub fn name(self) -> &'static str {
        match self {
            Call::Weight => "weight",
            Call::Load => "load",
            Call::List => "list",
            Call::Step(..) => "step",
            Call::Run(_) => "run",
            Call::Write(_) => "write",
            Call::Partners(_) => "partners",
            Call::Sweep => "sweep",
        }
    }

    /// What the input of the call is read as.
    pub fn form(self) -> Form {
        match self {
            Call::Load => Form::Job,
            Call::List => Form::Listed,
            Call::Write(free) => Form::Process(free),
            _ => Form::State,
        }
    }
}

impl fmt::Display for Call {
    fn fmt(&self, out: &mut fmt::Formatter) -> fmt::Result {
        match self {
            Call::Step(place, NO_PARTNER) => write!(out, "step {place} -"),
            Call::Step(place, partner) => write!(out, "step {place} {partner}"),
            Call::Run(budget) => write!(out, "run {budget}"),
            Call::Write(free) => write!(out, "write {free}"),
            Call::Partners(place) => write!(out, "partners {place}"),
            _ => write!(out, "{}", self.name()),
        }
    }
}

/// What an accepted call gives: the rule of a step, the ending and the count of steps of a run, the lowest
/// partner and the count of partners, all of them 0 for any other call, and the length of the result or the
/// weight.
#[derive(Clone, Copy, Debug, Default, PartialEq, Eq)]
pub struct Outcome {
    pub rule: u32,
    pub ending: u32,
    pub steps: u32,
    pub lowest: u32,
    pub count: u32,
    pub result: u32,
}

impl Outcome {
    /// Of a call that only gives a result.
    pub(crate) fn plain(result: u32) -> Outcome {
        Outcome {
            result,
            ..Outcome::default()
        }
    }

    pub(crate) fn stepped([rule, result]: [u32; 2]) -> Outcome {
        Outcome {
            rule,
            ..Outcome::plain(result)
        }
    }

    pub(crate) fn ran([ending, steps, result]: [u32; 3]) -> Outcome {
        Outcome {
            ending,
            steps,
            ..Outcome::plain(result)
        }
    }

    /// Of the partners of a place; there is no result.
    fn found([lowest, count]: [u32; 2]) -> Outcome {
        Outcome {
            lowest,
            count,
            ..Outcome::plain(0)
        }
    }
}

/// An outcome or a refusal.
pub type Answer = Result<Outcome, u32>;

/// Makes a call on an input and an output buffer, which weight and partners leave alone.
pub type Side = fn(Call, &[u8], &mut [u8]) -> Answer;

/// The second implementation.
pub fn second(call: Call, input: &[u8], out: &mut [u8]) -> Answer {
    let plain = |length: usize| Outcome::plain(length as u32);
    let outcome = match call {
        Call::Weight => machine::weigh(input).map(Outcome::plain),
        Call::Load => machine::load(input, out).map(plain),
        Call::List => machine::list(input, out).map(plain),
        Call::Step(place, partner) => {
            let stepped = machine::step(input, place, partner, out);
            stepped.map(|(rule, length)| Outcome::stepped([u32::from(rule), length as u32]))
        }
        Call::Run(budget) => machine::run(input, budget, out).map(|run| {
            let ending = u32::from(run.ending.number());
            Outcome::ran([ending, u32::from(run.steps), run.length as u32])
        }),
        Call::Write(free) => machine::write_job(free, input, out).map(plain),
        Call::Partners(place) => partners(input, place)
            .map(|Partners { lowest, count }| Outcome::found([lowest, count].map(u32::from))),
        Call::Sweep => sweep(input, out).map(plain),
    };
    outcome.map_err(u32::from)
}

/// The proved library, which has to be linked.
pub fn proved(call: Call, input: &[u8], out: &mut [u8]) -> Answer {
    match call {
        Call::Weight => proved::weigh(input).map(Outcome::plain),
        Call::Load => proved::load(input, out).map(Outcome::plain),
        Call::List => proved::list(input, out).map(Outcome::plain),
        Call::Step(place, partner) => {
            proved::step(input, place, partner, out).map(Outcome::stepped)
        }
        Call::Run(budget) => proved::run(input, budget, out).map(Outcome::ran),
        Call::Write(free) => proved::write_job(free, input, out).map(Outcome::plain),
        Call::Partners(place) => proved::partners(input, place).map(Outcome::found),
        Call::Sweep => proved::sweep(input, out).map(Outcome::plain),
    }
}

/// What an input is shown to: the name of its group, its bytes, and the calls to make on it.
pub type Caller<'caller> = &'caller mut dyn FnMut(&'static str, &[u8], &[Call]);

/// Shows every case, every choice, every run and every process to the visitor, with the calls to make
/// on them. The partners are asked for in all of these that may be states.
pub fn every_call(thrown: impl Into<Thrown>, seed: u64, rounds: usize, visit: Caller) {
    let thrown = thrown.into();
    let mut turn = 0;
    every_case(thrown, seed, rounds, &mut |group, input| {
        // Most of these are refused whatever the choice is.
        let place = (turn % 7) as u16;
        let partner = match turn % 3 {
            0 => (turn % 11) as u16,
            _ => NO_PARTNER,
        };
        let step = Call::Step(place, partner);
        let run = short_run(input, turn);
        let others = [Call::Weight, Call::Load, Call::List, step, run];
        visit(group, input, &with_partners(&others, input, turn));
        turn += 1;
    });
    every_choice(thrown, seed, rounds, &mut |group, state, choices| {
        let steps = choices.iter();
        let steps = steps.map(|(place, partner)| Call::Step(*place, *partner));
        let others = [Call::List, short_run(state, turn)];
        let calls: Vec<Call> = others.into_iter().chain(steps).collect();
        visit(group, state, &with_partners(&calls, state, turn));
        turn += 1;
    });
    every_run(thrown, seed, rounds, &mut |group, state, budgets| {
        let calls: Vec<Call> = budgets.iter().map(|budget| Call::Run(*budget)).collect();
        visit(group, state, &with_partners(&calls, state, turn));
        turn += 1;
    });
    every_process(thrown, seed, rounds, &mut |group, process, counts| {
        let calls: Vec<Call> = counts.iter().map(|free| Call::Write(*free)).collect();
        visit(group, process, &calls);
    });
}

/// The calls, and behind them the partners of the places that are asked for.
fn with_partners(calls: &[Call], input: &[u8], turn: usize) -> Vec<Call> {
    let places = asked_places(input, turn).into_iter();
    let calls = calls.iter().copied();
    calls.chain(places.map(Call::Partners)).collect()
}

/// A state with at most so many places is asked for the partners of each of them.
const FEW_PLACES: usize = 12;

/// The places whose partners are asked for: in a small state all, and some past the end; in another the
/// lowest, the middle and the highest that can act, one that differs from turn to turn, the last and the one
/// behind it; in what is no state one, or none if it cannot be one.
pub fn asked_places(input: &[u8], turn: usize) -> Vec<u16> {
    let past = [NO_PARTNER - 1, NO_PARTNER];
    let Ok(state) = read_state(input) else {
        let place = match turn % 9 {
            8 => NO_PARTNER,
            place => place as u16,
        };
        let is_asked = looks_like_state(input, turn);
        return is_asked.then_some(place).into_iter().collect();
    };
    let count = stands(&state).len();
    if count <= FEW_PLACES {
        return (0..count as u16 + 2).chain(past).collect();
    }
    let acting = acting_places(&state);
    let ends = [acting.first(), acting.get(acting.len() / 2), acting.last()];
    let others = [turn % count, count - 1, count].map(|place| place as u16);
    let places = ends.into_iter().flatten().copied().chain(others);
    let places: BTreeSet<u16> = places.chain([past[turn % 2]]).collect();
    places.into_iter().collect()
}

/// Whether the input begins as a state does; every so many turns any will do.
fn looks_like_state(input: &[u8], turn: usize) -> bool {
    input.first() == Some(&0x11) || turn.is_multiple_of(WIDE_TURNS)
}

/// The calls, and a sweep behind them if another of them reads a state and the input may be one.
fn with_sweep(calls: &[Call], input: &[u8], turn: usize) -> Vec<Call> {
    let mut calls = calls.to_vec();
    let reads_state = |call: &Call| matches!(call.form(), Form::State | Form::Listed);
    let reads_state = calls.iter().any(reads_state);
    if reads_state && looks_like_state(input, turn) && !calls.contains(&Call::Sweep) {
        calls.push(Call::Sweep);
    }
    calls
}

/// A run of a few steps, of fewer on a long state.
fn short_run(input: &[u8], turn: usize) -> Call {
    let budgets = if input.len() < 2_000 {
        [0, 1, 4, 9]
    } else {
        [0, 1, 1, 2]
    };
    Call::Run(budgets[turn % 4])
}

/// What was counted for a group of inputs, or for one of the calls.
#[derive(Default)]
pub struct Tally {
    pub inputs: usize,
    pub calls: usize,
    pub differences: usize,
    /// How often each number was due; 0 is acceptance.
    pub numbers: BTreeMap<u32, usize>,
    /// How often each rule was due.
    pub rules: BTreeMap<u32, usize>,
    /// How often each ending of a run was due: 0 blocked, 1 spent, or a limit's number.
    pub endings: BTreeMap<u32, usize>,
}

impl Tally {
    fn count(&mut self, call: Call, due: Answer, differences: usize) {
        self.calls += 1;
        self.differences += differences;
        *self.numbers.entry(due.err().unwrap_or(0)).or_default() += 1;
        match (call, due) {
            (Call::Step(..), Ok(outcome)) => *self.rules.entry(outcome.rule).or_default() += 1,
            (Call::Run(_), Ok(outcome)) => *self.endings.entry(outcome.ending).or_default() += 1,
            _ => {}
        }
    }
}

impl fmt::Display for Tally {
    fn fmt(&self, out: &mut fmt::Formatter) -> fmt::Result {
        write!(
            out,
            "{} inputs, {} calls, {} differences; answers {}",
            self.inputs,
            self.calls,
            self.differences,
            joined(&self.numbers)
        )?;
        if !self.rules.is_empty() {
            write!(out, "; rules {}", joined(&self.rules))?;
        }
        if !self.endings.is_empty() {
            write!(out, "; endings {}", joined(&self.endings))?;
        }
        Ok(())
    }
}

/// How many calls of a step there were, and how many of them had to do with actions of a spelled count.
#[derive(Default)]
pub struct Steps {
    pub calls: usize,
    /// On a state that holds such an action.
    pub on_states: usize,
    /// At a place where such an action stands, or with a partner's place where one stands.
    pub at_actions: usize,
}

impl fmt::Display for Steps {
    fn fmt(&self, out: &mut fmt::Formatter) -> fmt::Result {
        write!(
            out,
            "{} calls of a step, {} on a state with an action of a count other than 1, {} of them where one stands",
            self.calls, self.on_states, self.at_actions
        )
    }
}

/// What was counted of the calls for the partners of a place.
#[derive(Default)]
pub struct Asked {
    pub calls: usize,
    /// How many of them were to find none, one, or more.
    pub none: usize,
    pub one: usize,
    pub more: usize,
    /// How many of these were to find more than 1,000.
    pub thousands: usize,
    pub largest: u32,
    /// How often each refusal was due.
    pub refusals: BTreeMap<u32, usize>,
}

impl Asked {
    fn count(&mut self, due: Answer) {
        self.calls += 1;
        match due {
            Err(number) => *self.refusals.entry(number).or_default() += 1,
            Ok(outcome) => {
                match outcome.count {
                    0 => self.none += 1,
                    1 => self.one += 1,
                    _ => self.more += 1,
                }
                self.thousands += usize::from(outcome.count > 1_000);
                self.largest = self.largest.max(outcome.count);
            }
        }
    }
}

impl fmt::Display for Asked {
    fn fmt(&self, out: &mut fmt::Formatter) -> fmt::Result {
        write!(
            out,
            "{} calls for the partners of a place: {} found none, {} one, {} more than one, {} of these more than 1,000; the largest number is {}; refusals {}",
            self.calls,
            self.none,
            self.one,
            self.more,
            self.thousands,
            self.largest,
            joined(&self.refusals)
        )
    }
}

/// What was counted of the sweeps.
#[derive(Default)]
pub struct Sweeps {
    pub calls: usize,
    /// How many of them were made on what a sweep had left.
    pub again: usize,
    /// How many were to remove nothing, one ambient, or more.
    pub none: usize,
    pub one: usize,
    pub more: usize,
    /// The most that were to be removed.
    pub most: usize,
    /// How often each refusal was due.
    pub refusals: BTreeMap<u32, usize>,
}

impl Sweeps {
    fn count(&mut self, input: &[u8], due: Answer) {
        self.calls += 1;
        match due {
            Err(number) => *self.refusals.entry(number).or_default() += 1,
            Ok(outcome) => {
                let removed = (input.len() - outcome.result as usize) / BOX;
                match removed {
                    0 => self.none += 1,
                    1 => self.one += 1,
                    _ => self.more += 1,
                }
                self.most = self.most.max(removed);
            }
        }
    }

    /// How many removed something.
    pub fn clearing(&self) -> usize {
        self.one + self.more
    }

    pub fn accepted(&self) -> usize {
        self.none + self.clearing()
    }
}

impl fmt::Display for Sweeps {
    fn fmt(&self, out: &mut fmt::Formatter) -> fmt::Result {
        write!(
            out,
            "{} sweeps, {} of what a sweep had left: {} accepted, of which {} removed nothing, {} one ambient, {} more, at most {}; refusals {}",
            self.calls,
            self.again,
            self.accepted(),
            self.none,
            self.one,
            self.more,
            self.most,
            joined(&self.refusals)
        )
    }
}

/// What was counted of the loadings of what begins as a job.
#[derive(Default)]
pub struct Loadings {
    pub calls: usize,
    pub accepted: usize,
    /// How often each refusal was due.
    pub refusals: BTreeMap<u32, usize>,
    /// A number for each of the jobs, which tells different ones apart.
    jobs: HashSet<u64>,
}

impl Loadings {
    fn count(&mut self, input: &[u8], due: Answer) {
        if input.first() != Some(&0x10) {
            return;
        }
        let mut hasher = DefaultHasher::new();
        input.hash(&mut hasher);
        self.jobs.insert(hasher.finish());
        self.calls += 1;
        match due {
            Ok(_) => self.accepted += 1,
            Err(number) => *self.refusals.entry(number).or_default() += 1,
        }
    }

    /// How many different jobs there were.
    pub fn jobs(&self) -> usize {
        self.jobs.len()
    }

    /// How many were refused since a name is an ambient's and a channel.
    pub fn mixed_up(&self) -> usize {
        let number = u32::from(BOX_AND_CHANNEL);
        self.refusals.get(&number).copied().unwrap_or(0)
    }
}

impl fmt::Display for Loadings {
    fn fmt(&self, out: &mut fmt::Formatter) -> fmt::Result {
        write!(
            out,
            "{} loadings of {} different jobs: {} accepted, {} refused with {BOX_AND_CHANNEL}; refusals {}",
            self.calls,
            self.jobs(),
            self.accepted,
            self.mixed_up(),
            joined(&self.refusals)
        )
    }
}

/// What was counted of the calls on states that nest deeper than a result may.
#[derive(Default)]
pub struct Deep {
    pub states: usize,
    pub listings: usize,
    pub accepted: usize,
    /// How many places were listed.
    pub places: usize,
    /// How often each refusal of a listing was due.
    pub refusals: BTreeMap<u32, usize>,
    /// How often each number was due to another call.
    pub others: BTreeMap<u32, usize>,
}

impl Deep {
    fn count(&mut self, call: Call, due: Answer) {
        match (call.form(), due) {
            (Form::Listed, due) => {
                self.listings += 1;
                match due {
                    Ok(outcome) => {
                        self.accepted += 1;
                        self.places += outcome.result as usize / 2;
                    }
                    Err(number) => *self.refusals.entry(number).or_default() += 1,
                }
            }
            (Form::State, due) => *self.others.entry(due.err().unwrap_or(0)).or_default() += 1,
            _ => {}
        }
    }

    /// How many listings were refused with this number.
    pub fn refused(&self, number: u8) -> usize {
        let count = self.refusals.get(&u32::from(number));
        count.copied().unwrap_or(0)
    }
}

impl fmt::Display for Deep {
    fn fmt(&self, out: &mut fmt::Formatter) -> fmt::Result {
        write!(
            out,
            "{} listings of {} states that nest deeper than {NESTING}: {} accepted, with {} places; refusals {}; other calls on them: answers {}",
            self.listings,
            self.states,
            self.accepted,
            self.places,
            joined(&self.refusals),
            joined(&self.others)
        )
    }
}

/// Whether the input is a state but for its nesting, or that it may hold a blocked pair.
fn is_deep(input: &[u8]) -> bool {
    let is_refused = read_state_with_pairs(input) == Err(TOO_DEEP);
    let is_nested = |input| {
        let state = read_nested_with_pairs(input, ANY_NESTING);
        state.is_ok_and(|state| state.nesting() > NESTING)
    };
    is_refused && is_nested(input)
}

/// The places where a process begins with an action of a spelled count, or such an action is blocked; none
/// at all if the input is no state that holds one.
fn places_with_count(input: &[u8]) -> Option<BTreeSet<u16>> {
    if !comes_to_count(Form::State, input) {
        return None;
    }
    let state = read_state_with_pairs(input).ok()?;
    let paths = paths(&state);
    let places = paths.iter().zip(0..).filter(|(path, _)| {
        let action = match element_at(&state.elements, path) {
            Element::Process(Process::Action(action, _) | Process::Replication(action, _)) => {
                Some(action)
            }
            element => element.blocked_action(),
        };
        action.is_some_and(Action::has_other_count)
    });
    Some(places.map(|(_, place)| place).collect())
}

/// The comparison of a side with the second implementation.
pub struct Comparison {
    side: Side,
    pub groups: BTreeMap<&'static str, Tally>,
    /// By the names of the calls. A choice on a state is an input of a step, a budget one of a run, a
    /// count of free names on a process one of the writing of a job.
    pub calls: BTreeMap<&'static str, Tally>,
    pub steps: Steps,
    pub asked: Asked,
    pub sweeps: Sweeps,
    pub loadings: Loadings,
    pub deep: Deep,
    /// Whether the present input is such a state.
    is_deep: bool,
    pub inputs: usize,
    pub differences: usize,
    shown: usize,
    turn: usize,
    /// Takes results whose length is looked for.
    spare: Vec<u8>,
}

impl Comparison {
    pub fn new(side: Side) -> Comparison {
        Comparison {
            side,
            groups: BTreeMap::new(),
            calls: BTreeMap::new(),
            steps: Steps::default(),
            asked: Asked::default(),
            sweeps: Sweeps::default(),
            loadings: Loadings::default(),
            deep: Deep::default(),
            is_deep: false,
            inputs: 0,
            differences: 0,
            shown: 0,
            turn: 0,
            spare: vec![0; VERY_LONG],
        }
    }

    /// Goes through every call, the states in which actions wait for one, the jobs in which the cabinet takes part, the
    /// states and jobs with throwaway ambients, the jobs with one use of a name planted in them, and the states that nest
    /// around the limits. Every state is swept too.
    pub fn go_through(&mut self, seed: u64, rounds: usize) {
        let mut compare = |group, input: &[u8], calls: &[Call]| {
            let calls = with_sweep(calls, input, self.inputs);
            self.compare(group, input, &calls);
        };
        every_call(Counts::All, seed, rounds, &mut compare);
        every_waiting(seed, rounds, &mut compare);
        every_cabinet(seed, rounds, &mut compare);
        every_throwaway(seed, rounds, &mut compare);
        every_planted(seed, rounds, &mut compare);
        every_nested(seed, rounds, &mut compare);
    }

    /// Makes the calls on one input by both sides, each into buffers of several lengths.
    pub fn compare(&mut self, group: &'static str, input: &[u8], calls: &[Call]) {
        self.inputs += 1;
        self.groups.entry(group).or_default().inputs += 1;
        self.is_deep = is_deep(input);
        self.deep.states += usize::from(self.is_deep);
        let has_step = calls.iter().any(|call| call.name() == "step");
        let with_count = has_step.then(|| places_with_count(input)).flatten();
        for call in calls {
            self.turn += 1;
            self.calls.entry(call.name()).or_default().inputs += 1;
            let mut rooms = rooms(second, *call, input, self.turn, &mut self.spare);
            if *call == Call::Load {
                rooms.extend(rooms_of_job(input));
                rooms.sort();
                rooms.dedup();
            }
            if *call == Call::Sweep {
                // The state alone would fit, or just would not.
                rooms.extend([input.len(), input.len().saturating_sub(1)]);
                rooms.sort();
                rooms.dedup();
            }
            if let Call::Step(place, partner) = call {
                let is_there =
                    |places: &BTreeSet<u16>| places.contains(place) || places.contains(partner);
                let places = with_count.as_ref();
                let count_if = |holds: bool| if holds { rooms.len() } else { 0 };
                self.steps.calls += rooms.len();
                self.steps.on_states += count_if(places.is_some());
                self.steps.at_actions += count_if(places.is_some_and(is_there));
            }
            self.make(group, input, *call, &rooms);
            if *call == Call::Sweep {
                self.sweep_again(group, input);
            }
        }
    }

    /// Makes one call by both sides into buffers of these lengths.
    fn make(&mut self, group: &'static str, input: &[u8], call: Call, rooms: &[usize]) {
        let mut lent = input.to_vec();
        for room in rooms {
            let mut due_bytes = pattern(*room, self.turn);
            let mut bytes = due_bytes.clone();
            let inside = MARGIN..MARGIN + room;
            let due = second(call, input, &mut due_bytes[inside.clone()]);
            let answer = (self.side)(call, black_box(&lent), &mut bytes[inside]);
            let mut found = Vec::new();
            if answer != due {
                found.push(format!("expected {due:?}, found {answer:?}"));
            }
            if black_box(&lent) != input {
                found.push("the input was changed".to_string());
                lent = input.to_vec();
            }
            if bytes != due_bytes {
                found.push(first_difference(&due_bytes, &bytes));
            }
            self.settle(group, input, (call, *room), due, &found);
        }
    }

    /// Sweeps what a sweep of the input has left, which is to give its own bytes; both sides are to do so.
    fn sweep_again(&mut self, group: &'static str, input: &[u8]) {
        let Ok(outcome) = second(Call::Sweep, input, &mut self.spare) else {
            return;
        };
        let length = outcome.result as usize;
        let left = self.spare[..length].to_vec();
        let again = second(Call::Sweep, &left, &mut self.spare);
        if again != Ok(outcome) || self.spare[..length] != left {
            let found = ["a second sweep changes what is left".to_string()];
            self.settle(group, input, (Call::Sweep, length), again, &found);
        }
        // Where nothing was removed this call was made already.
        if left != input {
            let mut rooms = vec![length, length - 1];
            if self.turn.is_multiple_of(WIDE_TURNS) {
                rooms.push(VERY_LONG);
            }
            self.sweeps.again += rooms.len();
            self.make(group, &left, Call::Sweep, &rooms);
        }
    }

    /// Counts one call and shows the differences found, unless enough have been shown.
    fn settle(
        &mut self,
        group: &'static str,
        input: &[u8],
        (call, room): (Call, usize),
        due: Answer,
        found: &[String],
    ) {
        match call {
            Call::Partners(_) => self.asked.count(due),
            Call::Sweep => self.sweeps.count(input, due),
            Call::Load => self.loadings.count(input, due),
            _ => {}
        }
        if self.is_deep {
            self.deep.count(call, due);
        }
        let tally = self.calls.entry(call.name()).or_default();
        tally.count(call, due, found.len());
        let tally = self.groups.entry(group).or_default();
        let before = tally.differences;
        tally.count(call, due, found.len());
        self.differences += found.len();
        for text in found.iter().take(SHOWN_OF_GROUP.saturating_sub(before)) {
            if self.shown < SHOWN {
                self.shown += 1;
                let number = self.inputs;
                println!(
                    "difference in input {number} ({group}): {call} into {room} bytes: {text}"
                );
                println!("  {} bytes: {}", input.len(), hexadecimal(input));
            }
        }
    }
}

/// The lengths of the output buffers to try: around the length of the result that a side gives, if there is one. They
/// differ from turn to turn; the spare buffer is for finding the lengths.
pub fn rooms(side: Side, call: Call, input: &[u8], turn: usize, spare: &mut [u8]) -> Vec<usize> {
    let wide = turn.is_multiple_of(WIDE_TURNS);
    // The writing of a job adds five bytes.
    let longer = input.len() + 5;
    if matches!(call, Call::Weight | Call::Partners(_)) {
        return vec![0];
    }
    if let Call::Run(budget) = call {
        return rooms_of_run(budget, input, turn, spare);
    }
    match side(call, input, spare).map(|outcome| outcome.result as usize) {
        Ok(length) if wide => (length.saturating_sub(WIDE)..=length + WIDE)
            .chain([0, VERY_LONG])
            .collect(),
        Ok(length) => vec![
            length,
            length.saturating_sub(1),
            length + 1,
            length + turn % 40,
            turn % length.max(1),
        ],
        // A result that is too long for any buffer.
        Err(number) if number == u32::from(RESULT_TOO_LONG) => vec![
            longer,
            longer - 1,
            longer + 1,
            LONGEST - 1,
            LONGEST,
            VERY_LONG,
        ],
        // The state would fit, just not, or not at all.
        Err(number) if number == u32::from(BOX_AND_CHANNEL) => {
            let state = input.len() + LOADING;
            vec![state, state - 1, state + turn % 40, turn % state, 0]
        }
        Err(_) if wide => vec![longer, 0],
        Err(_) => vec![longer, turn % 50],
    }
}

/// More lengths of the output buffer for loading: that of the state, whether the job is refused or not; around the
/// longest job all that lie around the longest state, and around that of this one.
fn rooms_of_job(input: &[u8]) -> Vec<usize> {
    const AROUND: usize = 12;
    let state = input.len() + LOADING;
    let mut rooms = vec![state];
    if state.abs_diff(LONGEST) <= AROUND {
        rooms.extend(LONGEST - AROUND..=LONGEST + AROUND);
        rooms.extend(state - AROUND..=state + 1);
    }
    rooms
}

/// The lengths of the output buffers for a run: around the length of the first state, of the last and
/// of the longest, and between them.
fn rooms_of_run(budget: u16, input: &[u8], turn: usize, spare: &mut [u8]) -> Vec<usize> {
    let wide = turn.is_multiple_of(WIDE_TURNS);
    let first = input.len();
    let mut longest = first;
    let mut watcher = |turn: &Turn| longest = longest.max(turn.after.encode().len());
    let Ok(run) = machine::run_watched(input, budget, spare, &mut watcher) else {
        return vec![first, if wide { 0 } else { turn % 50 }];
    };
    let last = run.length;
    let lowest = first.min(last);
    let between = lowest + turn % (longest - lowest + 1);
    let mut rooms = BTreeSet::from([between, turn % first]);
    for length in [first, last, longest] {
        rooms.extend([length - 1, length]);
        if wide && run.steps < MANY_STEPS {
            rooms.extend(length.saturating_sub(WIDE)..=length + WIDE);
            rooms.extend([0, VERY_LONG]);
        }
    }
    rooms.insert(last + turn % 40);
    rooms.into_iter().collect()
}

/// The keys with their counts.
pub fn joined<Key: fmt::Display>(counts: &BTreeMap<Key, usize>) -> String {
    let texts = counts.iter().map(|(key, count)| format!("{key}: {count}"));
    texts.collect::<Vec<String>>().join(", ")
}

/// The bytes of a buffer before the call, with its margins; they differ from turn to turn.
fn pattern(room: usize, turn: usize) -> Vec<u8> {
    let byte = |index: usize| (index * 7 + turn * 13 + 0xA5) as u8;
    (0..room + 2 * MARGIN).map(byte).collect()
}

/// Where two buffers with their margins first differ.
fn first_difference(due: &[u8], bytes: &[u8]) -> String {
    let differing = (0..bytes.len()).find(|index| bytes[*index] != due[*index]);
    let index = differing.expect("the buffers differ");
    let offset = index as isize - MARGIN as isize;
    format!(
        "at {offset} in the buffer expected {:02x}, found {:02x}",
        due[index], bytes[index]
    )
}

/// The front of the bytes in hexadecimal.
pub fn hexadecimal(bytes: &[u8]) -> String {
    let shown = &bytes[..bytes.len().min(SHOWN_BYTES)];
    let text: String = shown.iter().map(|byte| format!("{byte:02x}")).collect();
    let rest = if shown.len() < bytes.len() {
        " ..."
    } else {
        ""
    };
    text + rest
}
