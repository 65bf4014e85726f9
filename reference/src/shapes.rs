// Jobs and states of a given shape: printed ones, ones of a given size or depth, ones to be timed.

use crate::counts::handing;
use crate::dice::{Counts, Dice};
use crate::machine::{acting_places, lowest_partner, Choice};
use crate::refusal::{NAMES_USED_UP, RESULT_TOO_DEEP, RESULT_TOO_LONG};
use crate::spelling::{Spelled, LISTED_NESTING, LONGEST, LONGEST_JOB, MOST_FREE, NESTING};
use crate::tree::{Action, Element, Job, Kind, Process, Reference, State, MOST_COUNT};

pub fn parallel(left: Process, right: Process) -> Process {
    Process::Parallel(Box::new(left), Box::new(right))
}

pub fn restriction(part: Process) -> Process {
    Process::Restriction(Box::new(part))
}

pub fn blocked(kind: Kind, names: &[u16]) -> Element {
    Element::BlockedAction(Action::named(kind, names), Process::Null)
}

pub fn unblocked(kind: Kind, names: &[u16]) -> Element {
    let action = Action::named(kind, names);
    Element::Process(Process::Action(action, Box::new(Process::Null)))
}

pub fn ambient(name: u16, contents: Vec<Element>) -> Element {
    Element::Ambient {
        blocked: false,
        name,
        contents,
    }
}

/// These elements in so many ambients, each in the next, all named 0.
pub fn inside(levels: usize, elements: Vec<Element>) -> Vec<Element> {
    (0..levels).fold(elements, |inner, _| vec![ambient(0, inner)])
}

pub fn root(names: u16, elements: Vec<Element>) -> State {
    State {
        free: names.min(1_024),
        next: names,
        elements,
    }
}

/// The job of the printed session: adapter 0, deck 1, channel 2.
pub fn printed_job() -> Job {
    let after = |kind, names: &[u16]| {
        Box::new(Process::Action(
            Action::named(kind, names),
            Box::new(Process::Null),
        ))
    };
    let adapter = Process::Ambient(Reference::Name(0), after(Kind::Enter, &[1, 2]));
    let deck = Process::Ambient(Reference::Name(1), after(Kind::Accept, &[2]));
    Job {
        free: 3,
        process: parallel(adapter, deck),
    }
}

/// P9 when both actions are in the first ambient named 0, P10 when they are in different ones.
pub fn printed_pair(together: bool) -> State {
    let output = blocked(Kind::SiblingOutput, &[0, 1, 1]);
    let input = blocked(Kind::ExternalInput, &[1]);
    let (first, second) = if together {
        (vec![output, input], vec![])
    } else {
        (vec![output], vec![input])
    };
    root(2, vec![ambient(0, first), ambient(0, second)])
}

/// A job that is a chain of restrictions ending in null, of this depth.
pub fn job_of_depth(depth: usize) -> Job {
    let process = (1..depth).fold(Process::Null, |part, _| restriction(part));
    Job { free: 1, process }
}

/// A state that holds one restriction and has this next name.
pub fn state_at_name(next: u16) -> State {
    root(next, vec![Element::Process(restriction(Process::Null))])
}

/// A process of exactly this many bytes: 3, 6, 8, 9, or anything from 11 up. Uses the name 0.
pub fn process_of_size(size: usize) -> Process {
    match size {
        3 => Process::Null,
        8 | 11 | 13 => {
            let part = process_of_size(size - 5);
            Process::Ambient(Reference::Name(0), Box::new(part))
        }
        0..28 => restriction(process_of_size(size - 3)),
        _ => {
            let left = (size - 3) / 2;
            parallel(process_of_size(left), process_of_size(size - 3 - left))
        }
    }
}

/// A job of exactly this many bytes.
pub fn job_of_size(size: usize) -> Job {
    let process = process_of_size(size - 5);
    Job { free: 1, process }
}

/// A job of about this many bytes: ambients beside each other, each with an action that is blocked at
/// last.
pub fn wide_job(size: usize) -> Job {
    let one = in_ambient(0, acting(Kind::Accept, &[1], Process::Null));
    // Two that stand beside each other have the head of their parallel too.
    let count = size / (one.encode().len() + 3);
    Job {
        free: 2,
        process: copies(&one, count),
    }
}

/// How many ambients or actions stand in each other in the jobs below. Their processes are as deep as may be, or nearly.
const LINKS: usize = 22;

/// A job of about this many bytes in which a free name is judged every few bytes: chains of links beside each other, which
/// are given the turns 0, 1, 2 and so on.
fn chains_job(size: usize, link: impl Fn(u16, Process) -> Process) -> Job {
    let chain = |index: usize| {
        let turns = (index * LINKS..).take(LINKS);
        turns.fold(Process::Null, |part, turn| link(turn as u16, part))
    };
    // Two that stand beside each other have the head of their parallel too.
    let count = (size - 5) / (chain(0).encode().len() + 3);
    let chains: Vec<Process> = (0..count).map(chain).collect();
    Job {
        free: MOST_FREE,
        process: beside(&chains),
    }
}

/// Jobs of about this many bytes with all names, again and again: ambients, leaves, and enters whose targets are even and
/// whose channels are odd.
pub fn judged_jobs(size: usize) -> Vec<(&'static str, Job)> {
    let boxes = |turn, part| in_ambient(turn % MOST_FREE, part);
    let channels = |turn, part| acting(Kind::Leave, &[1 + turn % (MOST_FREE - 1)], part);
    let enters = |turn, part| {
        let name = 2 * (turn % (MOST_FREE / 2));
        acting(Kind::Enter, &[name, name + 1], part)
    };
    vec![
        ("boxes", chains_job(size, boxes)),
        ("channels", chains_job(size, channels)),
        ("enters", chains_job(size, enters)),
    ]
}

/// Jobs for timing a loading: that of the printed session, and the longest and shorter ones of several shapes.
pub fn timed_jobs() -> Vec<(&'static str, Job)> {
    let mut jobs = vec![("adapter-and-deck", printed_job())];
    for size in [LONGEST_JOB, SHORT_JOB] {
        jobs.push(("halves", job_of_size(size)));
        jobs.push(("wide", wide_job(size)));
        jobs.extend(judged_jobs(size));
    }
    jobs
}

/// How long the shorter ones are.
pub const SHORT_JOB: usize = 4_096;

/// The process so many times, at least once, beside each other.
pub fn copies(one: &Process, count: usize) -> Process {
    beside(&vec![one.clone(); count])
}

/// The processes beside each other, at least one.
pub fn beside(processes: &[Process]) -> Process {
    match processes {
        [one] => one.clone(),
        _ => {
            let (left, right) = processes.split_at(processes.len() / 2);
            parallel(beside(left), beside(right))
        }
    }
}

/// A state of exactly this many bytes: the elements made one by one, and one process to fill up.
fn state_of_size(size: usize, mut make: impl FnMut() -> Element) -> State {
    let mut state = root(64, Vec::new());
    let mut length = state.encode().len();
    loop {
        let element = make();
        let more = element.encode().len();
        if length + more + 14 > size {
            break;
        }
        length += more;
        state.elements.push(element);
    }
    fill(&mut state, size);
    state
}

/// Puts one process behind the elements that makes the state exactly so many bytes long.
pub fn fill(state: &mut State, size: usize) {
    let rest = size - state.encode().len() - 3;
    let process = process_of_size(rest);
    state.elements.push(Element::Process(process));
}

/// States for timing, of exactly this many bytes and with nothing blocked; the seed is for the
/// mixed one.
pub fn timed_states(size: usize, seed: u64) -> Vec<(&'static str, State)> {
    let mut dice = Dice::new(Counts::One, seed);
    let mut turn = 0;
    let wide = state_of_size(size, || {
        turn += 1;
        if turn % 2 == 0 {
            ambient(0, Vec::new())
        } else {
            Element::Process(Process::Null)
        }
    });
    let deep = state_of_size(size, || {
        // A restriction comes first, which can still act as deep as this.
        let process = chain(34, |turn| (turn + 7) % CHAIN_LINKS);
        nested_in(NESTING, Element::Process(process))
    });
    let mixed = mixed_state(size, &mut dice);
    vec![("wide", wide), ("deep", deep), ("mixed", mixed)]
}

/// The element in so many ambients, which have names of their own.
fn nested_in(levels: usize, element: Element) -> Element {
    let around = |inner, name| ambient(name, vec![inner]);
    (0..levels as u16).fold(element, around)
}

/// A state of this many bytes for timing a listing: as deep as the listing reads, each column with one process innermost.
pub fn listed_state(size: usize) -> State {
    state_of_size(size, || {
        nested_in(LISTED_NESTING, Element::Process(Process::Null))
    })
}

fn mixed_state(size: usize, dice: &mut Dice) -> State {
    state_of_size(size, || {
        let nested = dice.below(5);
        let mut budget = dice.between(2, 40);
        let process = dice.process(64, 0, 34, &mut budget);
        (0..nested).fold(Element::Process(process), |inner, _| {
            let beside = Element::Process(dice.process(64, 0, 34, &mut 3));
            ambient(dice.name(64), vec![inner, beside])
        })
    })
}

/// The mixed state where outputs and inputs have all counts.
pub fn counted_state(size: usize, seed: u64) -> (&'static str, State) {
    let mut dice = Dice::new(Counts::All, seed);
    ("counted", mixed_state(size, &mut dice))
}

/// A state of this many bytes for timing a handing over: the sender of four names stands first, its blocked
/// receiver last.
pub fn handing_state(size: usize) -> State {
    let (output, after) = handing(Kind::SiblingOutput, MOST_COUNT, 2);
    let sender = Element::Process(Process::Action(output, Box::new(after)));
    let (input, after) = handing(Kind::ExternalInput, MOST_COUNT, 2);
    let receiver = ambient(1, vec![Element::BlockedAction(input, after)]);
    let mut state = root(64, vec![ambient(0, vec![sender])]);
    let between = counted_state(size - 400, 1).1;
    state.elements.extend(between.elements);
    fill(&mut state, size - receiver.encode().len());
    state.elements.push(receiver);
    state
}

/// A state of this many bytes for timing a move: the mover stands first, its blocked host last.
pub fn meeting_state(size: usize) -> State {
    let mut state = root(64, vec![ambient(0, vec![unblocked(Kind::Enter, &[1, 2])])]);
    let host = ambient(1, vec![blocked(Kind::Accept, &[2])]);
    let between = timed_states(size - 400, 1).swap_remove(2).1;
    state.elements.extend(between.elements);
    fill(&mut state, size - host.encode().len());
    state.elements.push(host);
    state
}

/// The choices for timing a step: the lowest and the middle one of the places that can act, each
/// with its lowest partner or none.
pub fn timed_choices(state: &State) -> [Choice; 2] {
    let places = acting_places(state);
    [places[0], places[places.len() / 2]].map(|place| (place, lowest_partner(state, place)))
}

/// How long the states for timing a run are; the rest of 32,768 is left for growing.
pub const TIMED_RUN: usize = 31_000;

/// The states for timing a run: one of each shape, where what acts stands in front, and one where all
/// is blocked but an endless job that stands last.
pub fn timed_runs() -> Vec<(&'static str, State)> {
    let mut states = timed_states(TIMED_RUN, 1);
    let last = Element::Process(endless_jobs().swap_remove(0).1.process);
    let blocked_ambient = Element::Ambient {
        blocked: true,
        name: 5,
        contents: Vec::new(),
    };
    let room = TIMED_RUN - last.encode().len() - root(64, Vec::new()).encode().len();
    let mut elements = vec![blocked_ambient.clone(); room / blocked_ambient.encode().len()];
    elements.push(last);
    states.push(("blocked", root(64, elements)));
    states
}

/// The like of the mixed one where outputs and inputs have all counts.
pub fn counted_run() -> (&'static str, State) {
    counted_state(TIMED_RUN, 1)
}

/// A process in an ambient.
pub fn in_ambient(name: u16, process: Process) -> Process {
    Process::Ambient(Reference::Name(name), Box::new(process))
}

/// An action and what comes after it.
pub fn acting(kind: Kind, names: &[u16], after: Process) -> Process {
    Process::Action(Action::named(kind, names), Box::new(after))
}

/// The like again and again.
pub fn again(kind: Kind, names: &[u16], after: Process) -> Process {
    Process::Replication(Action::named(kind, names), Box::new(after))
}

/// A small state that a step makes longer: it holds one replication.
pub fn small_growing() -> State {
    let process = again(Kind::Accept, &[0], Process::Null);
    root(1, vec![Element::Process(process)])
}

/// Jobs that go on for ever in a small state. In the first, two ambients hand a name to and fro.
pub fn endless_jobs() -> Vec<(&'static str, Job)> {
    let back = [
        Reference::Name(0),
        Reference::Name(3),
        Reference::Variable(0),
    ];
    let back = Action::of_references(Kind::SiblingOutput, 1, &back);
    let back = Process::Action(back, Box::new(Process::Null));
    let wait = acting(Kind::ExternalInput, &[3], Process::Null);
    let to_and_fro = parallel(
        in_ambient(0, again(Kind::SiblingOutput, &[1, 2, 4], wait)),
        in_ambient(1, again(Kind::ExternalInput, &[2], back)),
    );
    let leave = acting(Kind::Leave, &[2], Process::Null);
    let release = acting(Kind::Release, &[2], Process::Null);
    let in_and_out = parallel(
        in_ambient(0, again(Kind::Enter, &[1, 2], leave)),
        in_ambient(1, again(Kind::Accept, &[2], release)),
    );
    let named = |name, process| (name, Job { free: 5, process });
    vec![
        named("to and fro", to_and_fro),
        named("in and out", in_and_out),
        named("to the parent", called_again(Process::Null)),
    ]
}

/// Ambient 0 hands ambient 1 three names, its own, a channel to answer on and a third, and ambient 1 hands the
/// third and the first back on that channel; for ever, in a small state.
pub fn asking_job() -> Job {
    let ask = Action::counted(Kind::SiblingOutput, 3, &[1, 2, 0, 3, 4]);
    let wait = Action::counted(Kind::ExternalInput, 2, &[3]);
    let wait = Process::Action(wait, Box::new(Process::Null));
    let listen = Action::counted(Kind::ExternalInput, 3, &[2]);
    let answer = [2, 1, 0, 2].map(Reference::Variable);
    let answer = Action::of_references(Kind::SiblingOutput, 2, &answer);
    let answer = Process::Action(answer, Box::new(Process::Null));
    let process = parallel(
        in_ambient(0, Process::Replication(ask, Box::new(wait))),
        in_ambient(1, Process::Replication(listen, Box::new(answer))),
    );
    Job { free: 5, process }
}

/// An ambient that sends to its parent for ever, and what the parent does each time.
fn called_again(each_time: Process) -> Process {
    let sender = in_ambient(0, again(Kind::ParentOutput, &[1, 2], Process::Null));
    parallel(sender, again(Kind::InternalInput, &[1], each_time))
}

/// Jobs whose run ends at a limit, which is given with each: names, nesting and length.
pub fn limited_jobs() -> Vec<(u8, Job)> {
    let job = |free, process| Job { free, process };
    let blocking = |size| acting(Kind::Accept, &[2], process_of_size(size));
    let nested = (0..NESTING + 1).fold(Process::Null, |inner, _| in_ambient(0, inner));
    // Each goes into another or takes another in, until they stand too deep.
    let heap = (0..NESTING + 4).fold(Process::Null, |heap, _| {
        let moves = again(Kind::Enter, &[0, 1], Process::Null);
        let hosts = again(Kind::Accept, &[1], Process::Null);
        parallel(in_ambient(0, parallel(moves, hosts)), heap)
    });
    let fresh = |count| (0..count).fold(Process::Null, |part, _| restriction(part));
    vec![
        (NAMES_USED_UP, job(1_024, called_again(fresh(20)))),
        (NAMES_USED_UP, job(1_023, called_again(fresh(9)))),
        (RESULT_TOO_DEEP, job(3, nested)),
        (RESULT_TOO_DEEP, job(3, heap)),
        (RESULT_TOO_LONG, job(3, called_again(blocking(1_500)))),
        (RESULT_TOO_LONG, job(3, called_again(blocking(4_001)))),
    ]
}

/// Makes one action element of a crowd.
pub type Make<'make> = &'make dyn Fn(Kind, &[u16]) -> Element;

/// How a crowd is built: two halves of so many actions that nearly meet.
pub type Crowd = fn(u16, Make) -> Vec<Element>;

/// Crowds of actions of which no two meet, though every one has to be looked at.
pub const CROWDS: [(&str, Crowd); 8] = [
    ("two crowds, one channel each", |count, make| {
        two_crowds(count, make, |_| 2, |_| 3)
    }),
    ("two crowds, a channel for each", |count, make| {
        two_crowds(count, make, |turn| 2 * turn, |turn| 2 * turn + 1)
    }),
    ("two crowds as deep as may be", |count, make| {
        let inner = two_crowds(count, make, |_| 2, |_| 3);
        inside(NESTING - 1, inner)
    }),
    ("movers and hosts, an ambient each", |count, make| {
        let mover = |_| ambient(0, vec![make(Kind::Enter, &[1, 2])]);
        let host = |_| ambient(1, vec![make(Kind::Accept, &[3])]);
        (0..count).map(mover).chain((0..count).map(host)).collect()
    }),
    ("senders in one ambient, an ambient each", |count, make| {
        let sender = |_| make(Kind::SiblingOutput, &[1, 2, 0]);
        let taker = |_| ambient(1, vec![make(Kind::ExternalInput, &[3])]);
        let senders = ambient(0, (0..count).map(sender).collect());
        let takers = (0..count).map(taker);
        std::iter::once(senders).chain(takers).collect()
    }),
    ("all four kinds in each ambient", |count, make| {
        let each = |_| {
            let enter = make(Kind::Enter, &[0, 1]);
            let accept = make(Kind::Accept, &[2]);
            let output = make(Kind::SiblingOutput, &[0, 3, 0]);
            let input = make(Kind::ExternalInput, &[4]);
            ambient(0, vec![enter, accept, output, input])
        };
        (0..count).map(each).collect()
    }),
    ("leaves and releases", |count, make| {
        let leave = |_| ambient(0, vec![make(Kind::Leave, &[1])]);
        let release = |_| make(Kind::Release, &[2]);
        let both = (0..count).map(leave).chain((0..count).map(release));
        vec![ambient(0, both.collect())]
    }),
    ("parent outputs and internal inputs", |count, make| {
        let output = |_| make(Kind::ParentOutput, &[1, 0]);
        let input = |_| make(Kind::InternalInput, &[2]);
        let outputs = ambient(0, (0..count).map(output).collect());
        let inputs = (0..count).map(input);
        std::iter::once(outputs).chain(inputs).collect()
    }),
];

fn two_crowds(
    count: u16,
    make: Make,
    output_channel: fn(u16) -> u16,
    input_channel: fn(u16) -> u16,
) -> Vec<Element> {
    let output = |turn| make(Kind::SiblingOutput, &[1, output_channel(turn), 0]);
    let input = |turn| make(Kind::ExternalInput, &[input_channel(turn)]);
    let outputs = (0..count).map(output).collect();
    let inputs = (0..count).map(input).collect();
    vec![ambient(0, outputs), ambient(1, inputs)]
}

/// The largest states with crowds of blocked actions, each with a like state that has none blocked.
pub fn crowded_states() -> Vec<(&'static str, State, State)> {
    let both = |(name, crowd)| (name, largest(crowd, &blocked), largest(crowd, &unblocked));
    CROWDS.into_iter().map(both).collect()
}

/// The like with two crowds on one channel whose counts differ.
pub fn crowded_counts() -> (&'static str, State, State) {
    let crowd = |count, make: Make| two_crowds(count, make, |_| 2, |_| 2);
    let counted = |kind: Kind, names: &[u16]| {
        let count = if kind.binds() { 3 } else { 2 };
        Action::counted(kind, count, &[names, &[0]].concat())
    };
    let blocked =
        |kind: Kind, names: &[u16]| Element::BlockedAction(counted(kind, names), Process::Null);
    let unblocked = |kind: Kind, names: &[u16]| {
        let process = Process::Action(counted(kind, names), Box::new(Process::Null));
        Element::Process(process)
    };
    (
        "two crowds, one channel, two counts",
        largest(crowd, &blocked),
        largest(crowd, &unblocked),
    )
}

/// The largest state with a crowd.
fn largest(crowd: impl Fn(u16, Make) -> Vec<Element>, make: Make) -> State {
    let build = |count: u16| root(4_096, crowd(count, make));
    let counts: Vec<u16> = (1..2_048).collect();
    let fitting = counts.partition_point(|count| build(*count).encode().len() <= LONGEST);
    build(fitting as u16)
}

pub const CHAIN_LINKS: usize = 8;

/// A chain of this depth that ends in null; the function picks the link at each turn. The ambients are named 0, and the
/// channel is 1.
pub fn chain(depth: usize, link: impl Fn(usize) -> usize) -> Process {
    let name = Reference::Name(0);
    (1..depth).fold(Process::Null, |part, turn| {
        let part = Box::new(part);
        match link(turn) {
            0 => Process::Restriction(part),
            1 => Process::Ambient(name, part),
            2 => Process::Action(Action::named(Kind::SiblingOutput, &[0, 1, 0]), part),
            3 => Process::Action(Action::named(Kind::InternalInput, &[1]), part),
            4 => Process::Replication(Action::named(Kind::Enter, &[0, 1]), part),
            5 => Process::Replication(Action::named(Kind::ExternalInput, &[1]), part),
            6 => Process::Parallel(part, Box::new(Process::Null)),
            _ => Process::Parallel(Box::new(Process::Null), part),
        }
    })
}

/// The count of free names that a chain needs.
pub const CHAIN_NAMES: u16 = 2;

/// The process so many levels deep, behind and in all that a process can stand behind or in. The ambients are named 0.
pub fn behind_all(process: Process, levels: usize, channel: u16) -> Process {
    let accept = Action::named(Kind::Accept, &[channel]);
    (0..levels).fold(process, |part, turn| match turn % 6 {
        0 => Process::Action(accept, Box::new(part)),
        1 => parallel(part, Process::Null),
        2 => restriction(part),
        3 => parallel(Process::Null, part),
        4 => in_ambient(0, part),
        _ => Process::Replication(accept, Box::new(part)),
    })
}
