// Stored cases: a sample of the calls that are compared, each with the answer that is due, spelled
// for a proved program that makes the calls again, and behind them those of the panel, of the partners and of sweeps.

use crate::cabinets::{
    cabinet_jobs, every_cabinet, job_of_parts, rests, twin_jobs, BEFORE_FREE, FREES,
};
use crate::cases::{bare, loaded};
use crate::choices::growing_to;
use crate::comparison::{every_call, rooms, second, Answer, Call, Outcome};
use crate::counts::*;
use crate::dice::{Counts, Thrown};
use crate::machine::{acting_places, advance, deliver, element_at, lowest_choice, paths};
use crate::machine::{Choice, NO_PARTNER};
use crate::mixed_up::{every_mix_up, far_apart, renamed};
use crate::nested::ANY_NESTING;
use crate::processes::parts;
use crate::refusal::*;
use crate::runs::MOST_STEPS;
use crate::sample::Sample;
use crate::shapes::*;
use crate::spelling::{
    comes_to_count, read_job_of_any_count, read_nested_with_pairs, read_process_of_any_count, Form,
    Spelled, JOB_DEPTH, LISTED_NESTING, LOADING, LONGEST, LONGEST_JOB, MOST_FREE, MOST_NAMES,
    NESTING, STATE_DEPTH,
};
use crate::stored_nested::nested_cases;
use crate::stored_panel::{panel_cases, panel_controls};
use crate::stored_partners::{partner_cases, partner_controls};
use crate::stored_sweeping::{sweep_cases, sweep_controls};
use crate::tree::{Action, Element, Job, Kind, Process, State};
use std::collections::{BTreeMap, BTreeSet};

/// The groups of stored cases by their numbers: one for each call, the controls, and the panel, the partners and the
/// sweeps, whose cases came later.
pub const GROUPS: [&str; 10] = [
    "reading", "loading", "listing", "stepping", "running", "writing", "controls", "panel",
    "partners", "sweeping",
];

/// The groups of the controls, of the panel, of the partners and of the sweeps. Those in front of the controls are the
/// calls'.
pub const CONTROLS: usize = 6;
pub const PANEL: usize = 7;
pub const PARTNERS: usize = 8;
pub const SWEEPING: usize = 9;

/// The longest output buffer of a stored case.
pub const LONGEST_ROOM: usize = 40_000;

/// Every byte of the output buffer before the call.
pub const BLANK: u8 = 0xA5;

/// The seed of the calls that the sample is taken from.
const SEED: u64 = 1;

/// The samples have inputs of at most so many bytes, and more of those that are short.
const SAMPLED: usize = 400;
const SAMPLED_COUNTS: usize = 110;
const SAMPLED_CABINETS: usize = 110;
const SHORT: usize = 160;

/// A call, the length of its output buffer, and what is due: the answer and the bytes written.
#[derive(Clone)]
pub struct Stored {
    call: Call,
    input: Vec<u8>,
    room: usize,
    pub due: Answer,
    pub result: Vec<u8>,
}

impl Stored {
    /// The case with what the second implementation gives.
    pub fn new(call: Call, input: &[u8], room: usize) -> Stored {
        let mut out = vec![BLANK; room];
        let due = second(call, input, &mut out);
        let written = match (call, due) {
            (Call::Weight, _) | (_, Err(_)) => 0,
            (_, Ok(outcome)) => outcome.result as usize,
        };
        out.truncate(written);
        Stored {
            call,
            input: input.to_vec(),
            room,
            due,
            result: out,
        }
    }

    pub fn is_accepted(&self) -> bool {
        self.due.is_ok()
    }

    pub fn is_refused(&self) -> bool {
        self.due.is_err()
    }

    /// Whether there is a result and it is shorter than the buffer.
    pub fn leaves_room(&self) -> bool {
        (1..self.room).contains(&self.result.len())
    }

    fn has_wrong_count(&self) -> bool {
        self.due == Err(u32::from(WRONG_COUNT))
    }

    fn is_mixed_up(&self) -> bool {
        self.due == Err(u32::from(BOX_AND_CHANNEL))
    }

    fn is_too_deep(&self) -> bool {
        self.due == Err(u32::from(TOO_DEEP))
    }

    /// Whether its state nests deeper than a result may, and nothing else is refused in reading it but a blocked pair.
    pub fn is_nested(&self) -> bool {
        let state = read_nested_with_pairs(&self.input, ANY_NESTING);
        state.is_ok_and(|state| state.nesting() > NESTING)
    }

    /// Whether it is refused as such a state.
    pub fn is_refused_nested(&self) -> bool {
        self.is_nested() && self.is_too_deep()
    }

    /// Whether places are listed of such a state.
    fn is_listed_nested(&self) -> bool {
        self.is_nested() && self.leaves_room()
    }

    /// Whether such a state is refused since it holds a blocked pair.
    fn is_paired_nested(&self) -> bool {
        self.is_nested() && self.due == Err(u32::from(BLOCKED_PAIR))
    }

    fn has_result_too_deep(&self) -> bool {
        self.due == Err(u32::from(RESULT_TOO_DEEP))
    }

    fn ends_too_deep(&self) -> bool {
        let is_such = |outcome: Outcome| outcome.ending == u32::from(RESULT_TOO_DEEP);
        self.due.is_ok_and(is_such)
    }

    /// The case expecting another number.
    pub fn expect(&mut self, due: Answer) {
        self.due = due;
        self.result.clear();
    }

    /// Whether it is the step made by hand where two names are handed over.
    fn hands_over_two(&self) -> bool {
        let state = two_counts(Kind::SiblingOutput, 2, 2, false);
        self.is_accepted() && self.input == state.encode()
    }

    /// Where the ambients stand in its result that show the two names: the low bytes of the names 4 and 5.
    fn two_names(&self) -> (usize, usize) {
        let named = |name: u8| {
            let ambient = [0x23, 0, 5, 0, name];
            let index = self.result.windows(5).position(|five| five == ambient);
            index.expect("an ambient for each name") + 4
        };
        (named(4), named(5))
    }

    pub fn outcome(&mut self) -> &mut Outcome {
        self.due.as_mut().expect("the case is accepted")
    }

    /// The number of the call, which is that of its group too unless its cases came later.
    fn number(&self) -> u16 {
        match self.call {
            Call::Weight => 0,
            Call::Load => 1,
            Call::List => 2,
            Call::Step(..) => 3,
            Call::Run(_) => 4,
            Call::Write(_) => 5,
            // 6 is that of the accesses to the panel.
            Call::Partners(_) => 7,
            Call::Sweep => 8,
        }
    }

    /// Ten words, the input and the result. The words are: group, call, length of the input, place,
    /// budget or count of free names, partner, length of the output buffer, refusal or 0, rule or
    /// ending or lowest partner, steps or weight or count of partners, length of the result.
    fn encode(&self, group: u16) -> Vec<u8> {
        let (place, partner) = match self.call {
            Call::Step(place, partner) => (place, partner),
            Call::Run(budget) => (budget, 0),
            Call::Write(free) => (free, 0),
            Call::Partners(place) => (place, 0),
            _ => (0, 0),
        };
        let due = self.due.unwrap_or_default();
        let count = match self.call {
            Call::Weight => due.result,
            _ => due.steps + due.count,
        };
        let words = [
            u32::from(group),
            u32::from(self.number()),
            self.input.len() as u32,
            u32::from(place),
            u32::from(partner),
            self.room as u32,
            self.due.err().unwrap_or(0),
            due.rule + due.ending + due.lowest,
            count,
            self.result.len() as u32,
        ];
        let mut out = Vec::new();
        for word in words {
            let word = u16::try_from(word).expect("a number of a case is a word");
            out.extend(word.to_be_bytes());
        }
        out.extend(&self.input);
        out.extend(&self.result);
        out
    }
}

/// A group of cases as they stand in the file.
pub struct Group {
    /// The number of its name.
    pub number: usize,
    /// The bytes of each case.
    pub cases: Vec<Vec<u8>>,
}

/// All stored cases in the order of the file: those of the calls with their controls, and behind them those
/// of the panel with theirs, those of the partners with theirs, and those of sweeps with theirs.
pub fn stored_groups() -> Vec<Group> {
    let mut groups = Vec::new();
    let mut add = |number: usize, cases| groups.push(Group { number, cases });
    for (number, cases) in stored_calls().iter().enumerate() {
        let cases = cases.iter().map(|case| case.encode(number as u16));
        add(number, cases.collect());
    }
    let panel = panel_cases();
    let controls = panel_controls(&panel);
    for (number, cases) in [(PANEL, panel), (CONTROLS, controls)] {
        let cases = cases.iter().map(|case| case.encode(number as u16));
        add(number, cases.collect());
    }
    let partners = partner_cases();
    let of_partners = partner_controls(&partners);
    let sweeps = sweep_cases();
    let of_sweeps = sweep_controls(&sweeps);
    for (number, cases) in [
        (PARTNERS, partners),
        (CONTROLS, of_partners),
        (SWEEPING, sweeps),
        (CONTROLS, of_sweeps),
    ] {
        let cases = cases.iter().map(|case| case.encode(number as u16));
        add(number, cases.collect());
    }
    groups
}

/// The cases of the calls by their groups, the controls last.
fn stored_calls() -> [Vec<Stored>; CONTROLS + 1] {
    let mut groups: [Vec<Stored>; CONTROLS + 1] = Default::default();
    let with_one = sample(Counts::One).into_iter().chain(at_the_limits());
    let with_all = sample(Counts::All).into_iter().chain(counts_by_hand());
    let in_cabinets = limits_of_loading().into_iter().chain(cabinets());
    let with_names = mixed_up_names().into_iter();
    let is_here = |call| !matches!(call, Call::Partners(_) | Call::Sweep);
    let nested = nested_cases(is_here).into_iter();
    for case in with_one
        .chain(with_all)
        .chain(in_cabinets)
        .chain(with_names)
        .chain(nested)
    {
        let group = usize::from(case.number());
        groups[group].push(case);
    }
    groups[CONTROLS] = controls(&groups);
    groups
}

/// The bytes of the file of stored cases.
pub fn encode(groups: &[Group]) -> Vec<u8> {
    let cases = groups.iter().flat_map(|group| &group.cases);
    cases.flatten().copied().collect()
}

/// Of the calls of one kind, with one answer and on inputs of one group, the first few and then ever
/// fewer; those for partners are stored elsewhere. Each has an output buffer that leaves the answer as it is; now and then another is added
/// for each other answer that a shorter buffer leads to. Of the calls with all counts only those that come
/// to an action with a count. The states are those of plays from bare roots, and what tells one answer from another is
/// taken from the loading into a bare root: so jobs without free names are taken by what else is wrong with them.
fn sample(counts: Counts) -> Vec<Stored> {
    let (sampled, short_digits) = match counts {
        Counts::One => (SAMPLED, 2),
        Counts::All => (SAMPLED_COUNTS, 1),
    };
    let mut sample = Sample::empty();
    let mut spare = vec![0; LONGEST_ROOM];
    let mut cases = Vec::new();
    every_call(Thrown::bare(counts), SEED, 1, &mut |group, input, calls| {
        if input.len() > sampled {
            return;
        }
        let (group, digits) = if input.len() > SHORT {
            ("longer", 1)
        } else {
            (group, short_digits)
        };
        for call in calls {
            if matches!(call, Call::Partners(_)) {
                continue;
            }
            let has_count = comes_to_count(call.form(), input);
            let answer = match counts {
                // The sample of one name each is that of the tags 30 to 37 alone.
                Counts::One if has_count => Err(u32::from(TAG_NOT_DUE)),
                Counts::All if !has_count => continue,
                _ => kind(into_bare_root(*call, input, &mut spare)),
            };
            if !sample.takes((group, call.name(), answer), digits) {
                continue;
            }
            let turn = cases.len();
            let mut made: BTreeMap<_, Vec<usize>> = BTreeMap::new();
            for room in rooms(into_bare_root, *call, input, turn, &mut spare) {
                let room = room.min(LONGEST_ROOM);
                let answer = into_bare_root(*call, input, &mut spare[..room]);
                made.entry(kind(answer)).or_default().push(room);
            }
            made.retain(|found, _| *found == answer || turn.is_multiple_of(4));
            for (found, rooms) in made {
                let room = rooms[turn % rooms.len()];
                // The cabinet needs room where the process alone would fit.
                let is_loaded = *call == Call::Load && found.is_ok();
                let is_loaded = is_loaded && second(*call, input, &mut spare).is_ok();
                let room = if is_loaded {
                    room + CABINET_BYTES
                } else {
                    room
                };
                cases.push(Stored::new(*call, input, room));
            }
        }
    });
    cases
}

/// How many bytes the cabinet's head has.
const CABINET_BYTES: usize = 5;

/// The second implementation, where a job may have no free names and its process is put directly in the root.
fn into_bare_root(call: Call, input: &[u8], out: &mut [u8]) -> Answer {
    let result = match call {
        Call::Load => read_job_of_any_count(input).map(|job| bare(job).encode()),
        Call::Write(free) => {
            read_process_of_any_count(free, input).map(|process| Job { free, process }.encode())
        }
        call => return second(call, input, out),
    };
    let length = result.and_then(|result| deliver(&result, out));
    let outcome = length.map(|length| Outcome {
        result: length as u32,
        ..Outcome::default()
    });
    outcome.map_err(u32::from)
}

/// What tells one answer from another: the refusal, the rule or the ending.
pub fn kind(answer: Answer) -> Result<u32, u32> {
    answer.map(|outcome| outcome.rule + outcome.ending)
}

/// Sizes, depth, nesting, names, budgets and counts of free names at their limits and one beyond.
fn at_the_limits() -> Vec<Stored> {
    let mut cases = Vec::new();
    let mut show = |call, bytes: Vec<u8>, room| cases.push(Stored::new(call, &bytes, room));
    let step = Call::Step(0, NO_PARTNER);
    for room in [LONGEST - 1, LONGEST] {
        show(Call::Load, job_of_size(LONGEST - 5).encode(), room);
    }
    for size in [LONGEST - 4, LONGEST, LONGEST + 1] {
        show(Call::Load, job_of_size(size).encode(), LONGEST_ROOM);
    }
    let state = |size| timed_states(size, SEED).swap_remove(2).1.encode();
    for size in [LONGEST, LONGEST + 1] {
        show(Call::Weight, state(size), 0);
    }
    let meeting = meeting_state(LONGEST);
    let (place, partner) = timed_choices(&meeting)[0];
    show(Call::Step(place, partner), meeting.encode(), LONGEST);
    show(step, state(LONGEST + 1), LONGEST_ROOM);
    show(Call::List, state(LONGEST), LONGEST);
    show(Call::List, state(33_000), LONGEST);
    show(Call::Run(1), state(LONGEST), LONGEST);
    show(Call::Run(0), state(LONGEST + 1), LONGEST_ROOM);
    // A step makes these 32,768 and 32,769 bytes long.
    for (size, room) in [(LONGEST, LONGEST), (LONGEST + 1, LONGEST_ROOM)] {
        for call in [step, Call::Run(MOST_STEPS)] {
            show(call, replicating_to(size).encode(), room);
        }
    }
    for depth in [JOB_DEPTH, JOB_DEPTH + 1] {
        let process = job_of_depth(depth).process;
        show(Call::Load, Job { free: 0, process }.encode(), LONGEST);
    }
    for depth in [STATE_DEPTH, STATE_DEPTH + 1] {
        let process = job_of_depth(depth).process;
        on_every_call(&mut show, &root(0, vec![Element::Process(process)]));
    }
    for nesting in [NESTING, NESTING + 1, LISTED_NESTING, LISTED_NESTING + 1] {
        on_every_call(&mut show, &root(1, inside(nesting, Vec::new())));
    }
    for next in [MOST_NAMES - 1, MOST_NAMES] {
        on_every_call(&mut show, &state_at_name(next));
    }
    let endless = endless_jobs().into_iter().map(|(_, job)| job);
    // One of the two that end at 13 is enough, since its last state is long.
    let limited = limited_jobs().into_iter().take(5).map(|(_, job)| job);
    for job in endless.chain(limited) {
        on_every_call(&mut show, &bare(job));
    }
    for room in [LONGEST - 1, LONGEST] {
        show(Call::Write(1), process_of_size(LONGEST - 5).encode(), room);
    }
    for size in [LONGEST - 4, LONGEST, LONGEST + 1] {
        show(Call::Write(1), process_of_size(size).encode(), LONGEST_ROOM);
    }
    for depth in [JOB_DEPTH, JOB_DEPTH + 1] {
        let process = job_of_depth(depth).process;
        show(Call::Write(0), process.encode(), LONGEST);
    }
    for free in [0, MOST_FREE, MOST_FREE + 1, u16::MAX] {
        show(Call::Write(free), Process::Null.encode(), LONGEST);
    }
    cases
}

/// The state in every call, run with the budgets 0, 1 and 65,535.
fn on_every_call(show: &mut dyn FnMut(Call, Vec<u8>, usize), state: &State) {
    show(Call::Weight, state.encode(), 0);
    let others = [Call::Load, Call::List, Call::Step(0, NO_PARTNER)];
    for call in others.into_iter().chain([0, 1, MOST_STEPS].map(Call::Run)) {
        show(call, state.encode(), LONGEST);
    }
}

/// Outputs and inputs spelled by hand in every call, all counts in each other and two and two, and a small
/// and a long state where several names are handed over.
fn counts_by_hand() -> Vec<Stored> {
    const ROOM: usize = 400;
    let mut cases = Vec::new();
    let mut show = |call, bytes: Vec<u8>| cases.push(Stored::new(call, &bytes, ROOM));
    let step = Call::Step(0, NO_PARTNER);
    for (text, _) in SPELLED {
        let mut states = [Call::Weight, Call::List, step, Call::Run(1)].into_iter();
        for (form, bytes) in in_every_form(&bytes(text)).into_iter().take(6) {
            let call = match form {
                Form::Job => Call::Load,
                Form::Process(free) => Call::Write(free),
                _ => states.next().expect("a call for each state"),
            };
            show(call, bytes);
        }
    }
    for (inputs, sum) in chains_of_inputs() {
        for variable in [sum.max(1) - 1, sum] {
            let [job, state] = job_and_state(behind_inputs(&inputs, variable));
            show(Call::Load, job);
            show(Call::Weight, state);
        }
    }
    for kind in WITH_COUNT {
        for turn in 0..5 * 5 {
            let (count, other) = (turn % 5, turn / 5);
            let state = two_counts(kind, count, other, false);
            let (place, partner) = two_places(&state);
            for partner in [partner, NO_PARTNER] {
                show(Call::Step(place, partner), state.encode());
            }
            show(
                Call::Weight,
                two_blocked_counts(kind, count, other).encode(),
            );
        }
    }
    let asking = asking_job();
    show(Call::Write(asking.free), asking.process.encode());
    show(Call::Load, asking.encode());
    for call in [step, Call::List, Call::Weight]
        .into_iter()
        .chain([0, 1, 100, MOST_STEPS].map(Call::Run))
    {
        show(call, bare(asking.clone()).encode());
    }
    let handing = handing_state(4_096);
    let (place, partner) = timed_choices(&handing)[0];
    cases.push(Stored::new(
        Call::Step(place, partner),
        &handing.encode(),
        LONGEST,
    ));
    cases
}

/// Jobs around the longest that is loaded, the depth of a job, and counts of free names with what is good and what is
/// wrong behind and before them, each loaded, and written where that makes a difference.
fn limits_of_loading() -> Vec<Stored> {
    const ROOM: usize = 200;
    let mut cases = Vec::new();
    let mut show = |call, bytes: &[u8], room| cases.push(Stored::new(call, bytes, room));
    for (size, room) in [(LONGEST_JOB, LONGEST), (LONGEST_JOB + 1, LONGEST_ROOM)] {
        show(Call::Load, &job_of_size(size).encode(), room);
    }
    // The buffer is as long as the state, or has a byte too few or one more.
    for size in [8, 100] {
        let job = job_of_size(size).encode();
        for room in size + LOADING - 1..=size + LOADING + 1 {
            show(Call::Load, &job, room);
        }
    }
    for free in FREES {
        for (rest, _) in rests() {
            let job = job_of_parts(free, &rest);
            show(Call::Load, &job, ROOM);
            show(Call::Write(free), &rest, ROOM);
            if free < 2 {
                show(Call::Load, &[&job[..], &[0]].concat(), ROOM);
                show(Call::Load, &job[..job.len() - 1], ROOM);
            }
        }
    }
    for (text, _) in BEFORE_FREE {
        show(Call::Load, &bytes(text), ROOM);
    }
    for depth in [JOB_DEPTH, JOB_DEPTH + 1] {
        let job = job_of_depth(depth);
        show(Call::Load, &job.encode(), LONGEST);
        show(Call::Write(job.free), &job.process.encode(), LONGEST);
    }
    cases
}

/// The printed session, and jobs in which the cabinet takes part: loaded, run, and stepped where two meet; and a sample
/// of what thrown ones lead to.
fn cabinets() -> Vec<Stored> {
    const ROOM: usize = 400;
    let mut cases = Vec::new();
    let mut show = |call, bytes: &[u8]| cases.push(Stored::new(call, bytes, ROOM));
    let mut without_partner = BTreeSet::new();
    let by_hand = cabinet_jobs().into_iter().chain(twin_jobs());
    for (_, job) in [("printed", printed_job())].into_iter().chain(by_hand) {
        show(Call::Load, &job.encode());
        let first = loaded(job);
        show(Call::Run(MOST_STEPS), &first.encode());
        let mut state = first;
        for _ in 0..STEPS_LOOKED_AT {
            let Some((place, partner)) = lowest_choice(&state) else {
                break;
            };
            // Where two meet, and where the cabinet is blocked.
            if partner != NO_PARTNER || place == 0 {
                show(Call::Step(place, partner), &state.encode());
            }
            let (rule, next) = advance(&state, place, partner).expect("the job goes on");
            if partner != NO_PARTNER && without_partner.insert(rule) {
                show(Call::Step(place, NO_PARTNER), &state.encode());
            }
            state = next;
        }
    }
    let mut sample = Sample::empty();
    let mut out = vec![0; LONGEST];
    every_cabinet(SEED, 1, &mut |group, input, calls| {
        for call in calls {
            let is_taken = input.len() <= SAMPLED_CABINETS && !matches!(call, Call::Partners(_));
            if is_taken {
                let answer = kind(second(*call, input, &mut out));
                if sample.takes((group, call.name(), answer), 1) {
                    cases.push(Stored::new(*call, input, input.len() + 20));
                }
            }
        }
    });
    cases
}

/// How many steps of a job are looked at for this.
const STEPS_LOOKED_AT: usize = 40;

/// The groups of jobs in which a name is an ambient's and a channel, or nearly: of each every so many is stored.
const OF_NAMES: [(&str, usize); 7] = [
    ("two uses", 211),
    ("two names", 17),
    ("one action", 41),
    ("the cabinet's name", 29),
    ("names that are sent", 101),
    ("variables", 67),
    ("mixed up and faulty", 23),
];

/// The longest of them that is stored, and of those that are loaded; of those that are refused with 15 every so many is
/// written.
const SAMPLED_NAMES: usize = 160;
const SAMPLED_LOADED: usize = 60;
const WRITTEN: usize = 8;

/// The length of a job in which the two uses stand far apart.
const FAR: usize = 400;

/// Of the jobs in which the cabinet takes part every so many is given names that are mixed up.
const RENAMED: usize = 5;

/// Jobs in which a name is an ambient's and a channel, and such as nearly have one: loaded into buffers that are as long as
/// the state, too short and longer; some of them written; and states of such jobs, which are read and stepped.
fn mixed_up_names() -> Vec<Stored> {
    let mut cases = Vec::new();
    let mut seen: BTreeMap<&str, usize> = BTreeMap::new();
    let mut mixed_up = 0;
    every_mix_up(&mut |group, job, number| {
        let every = OF_NAMES.iter().find(|(of, _)| *of == group);
        let turn = seen.entry(group).or_default();
        *turn += 1;
        let is_taken = every.is_some_and(|(_, every)| turn.is_multiple_of(*every));
        let longest = match number {
            0 => SAMPLED_LOADED,
            _ => SAMPLED_NAMES,
        };
        if !is_taken || job.len() > longest {
            return;
        }
        let state = job.len() + LOADING;
        let rooms = match number {
            0 => [state, state + 1, state, state + 9],
            _ => [state, state - 1, 0, state + 1],
        };
        cases.push(Stored::new(Call::Load, job, rooms[cases.len() % 4]));
        mixed_up += usize::from(number == BOX_AND_CHANNEL);
        if number == BOX_AND_CHANNEL && mixed_up % WRITTEN == 0 {
            let (free, process) = parts(job).expect("a job");
            cases.push(Stored::new(Call::Write(free), process, job.len() + 1));
        }
    });
    for channel in [9, 10] {
        let one = in_ambient(9, Process::Null);
        let other = acting(Kind::Accept, &[channel], Process::Null);
        let job = far_apart(one, other, FAR);
        cases.push(Stored::new(Call::Load, &job, FAR + LOADING));
    }
    for (_, job) in cabinet_jobs().into_iter().step_by(RENAMED) {
        cases.extend(renamed_states(renamed(job)));
    }
    cases
}

/// A job whose names are mixed up, loaded; its state, read and run; and of those on its way the last where two meet.
fn renamed_states(job: Job) -> Vec<Stored> {
    const ROOM: usize = 200;
    let mut cases = vec![Stored::new(Call::Load, &job.encode(), ROOM)];
    let mut state = loaded(job);
    for call in [Call::Weight, Call::Run(MOST_STEPS)] {
        cases.push(Stored::new(call, &state.encode(), ROOM));
    }
    let mut last = None;
    for _ in 0..STEPS_LOOKED_AT {
        let Some((place, partner)) = lowest_choice(&state) else {
            break;
        };
        let next = advance(&state, place, partner).expect("the job goes on").1;
        if partner != NO_PARTNER {
            last = Some((state.encode(), Call::Step(place, partner)));
        }
        state = next;
    }
    if let Some((bytes, step)) = last {
        for call in [Call::List, step] {
            cases.push(Stored::new(call, &bytes, ROOM));
        }
    }
    cases
}

/// The place of the action that acts, and of the blocked one.
fn two_places(state: &State) -> Choice {
    let acting = acting_places(state);
    let places = paths(state);
    let is_blocked = |path: &[usize]| element_at(&state.elements, path).blocked_action().is_some();
    let blocked = places.iter().position(|path| is_blocked(path));
    (acting[0], blocked.expect("one is blocked") as u16)
}

/// A state that a replication, expanded by the first step, makes exactly so many bytes long.
fn replicating_to(size: usize) -> State {
    let action = Action::named(Kind::Accept, &[0]);
    let process = Process::Replication(action, Box::new(process_of_size(16_000)));
    growing_to(vec![Element::Process(process)], size)
}

/// Cases that expect what is wrong, in one number, in one byte or in the order of two names. The program
/// that makes the calls again has to notice every one of them.
fn controls(groups: &[Vec<Stored>]) -> Vec<Stored> {
    let mut cases = Vec::new();
    let mut wrong = |group: usize, is_wanted: fn(&Stored) -> bool, change: fn(&mut Stored)| {
        let case = groups[group].iter().find(|case| is_wanted(case));
        let mut case = case.expect("every group has such a case").clone();
        change(&mut case);
        cases.push(case);
    };
    wrong(0, Stored::is_accepted, |case| case.outcome().result += 1);
    wrong(1, Stored::is_refused, |case| {
        case.due = case.due.map_err(|number| number + 1)
    });
    wrong(3, Stored::is_refused, |case| {
        case.due = Ok(Outcome::default())
    });
    wrong(3, Stored::is_accepted, |case| case.outcome().rule += 1);
    wrong(4, Stored::is_accepted, |case| case.outcome().ending ^= 1);
    wrong(4, Stored::is_accepted, |case| case.outcome().steps += 1);
    wrong(5, Stored::is_refused, |case| {
        case.due = Ok(Outcome::default())
    });
    for group in 1..CONTROLS {
        wrong(group, Stored::leaves_room, |case| case.result[0] ^= 1);
        wrong(group, Stored::leaves_room, |case| {
            *case.result.last_mut().expect("there is a result") ^= 1
        });
        // The length alone is one too great, then the byte behind the result is wrong too.
        wrong(group, Stored::leaves_room, |case| case.result.push(BLANK));
        wrong(group, Stored::leaves_room, |case| {
            case.result.push(BLANK + 1)
        });
    }
    // A wrong count that is no fault, another number for one, and two names in the wrong order.
    wrong(1, Stored::has_wrong_count, |case| {
        case.due = Ok(Outcome::default())
    });
    wrong(0, Stored::has_wrong_count, |case| {
        case.due = Err(u32::from(OUT_OF_RANGE))
    });
    // A job that is refused with 15 is loaded, or has no room; and one that is loaded is refused with 15.
    wrong(1, Stored::is_mixed_up, |case| {
        case.due = Ok(Outcome::default())
    });
    wrong(1, Stored::is_mixed_up, |case| {
        case.due = Err(u32::from(RESULT_TOO_LONG))
    });
    wrong(1, Stored::leaves_room, |case| {
        case.due = Err(u32::from(BOX_AND_CHANNEL));
        case.result.clear();
    });
    // A state that is too deep is read, stepped or run, or refused with another number, or its listing is; one that is listed
    // is refused, or a place is left out; and a result that is too deep is none.
    wrong(0, Stored::is_refused_nested, |case| {
        case.expect(Ok(Outcome::default()))
    });
    wrong(2, Stored::is_refused_nested, |case| {
        case.expect(Ok(Outcome::default()))
    });
    wrong(2, Stored::is_listed_nested, |case| {
        case.expect(Err(u32::from(TOO_DEEP)))
    });
    wrong(2, Stored::is_listed_nested, |case| {
        case.result.truncate(case.result.len() - 2)
    });
    wrong(2, Stored::is_paired_nested, |case| {
        case.expect(Err(u32::from(TOO_DEEP)))
    });
    wrong(3, Stored::is_refused_nested, |case| {
        case.expect(Err(u32::from(RESULT_TOO_DEEP)))
    });
    wrong(3, Stored::has_result_too_deep, |case| {
        case.expect(Err(u32::from(TOO_DEEP)))
    });
    wrong(4, Stored::is_refused_nested, |case| {
        case.expect(Ok(Outcome::default()))
    });
    wrong(4, Stored::ends_too_deep, |case| case.outcome().ending = 1);
    wrong(3, Stored::hands_over_two, |case| {
        let (first, second) = case.two_names();
        case.result.swap(first, second)
    });
    cases
}
