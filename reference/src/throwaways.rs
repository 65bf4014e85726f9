// States and jobs with throwaway ambients: empty ones that a sweep removes, and such as it has to leave by one thing
// each.

use crate::cases::loaded;
use crate::comparison::{Call, Caller};
use crate::dice::{with_name, Counts, Dice};
use crate::machine::{acting_places, advance, lowest_choice, partner_places};
use crate::machine::{Choice, NO_PARTNER};
use crate::shapes::*;
use crate::spelling::{read_state, Spelled};
use crate::spelling::{LONGEST, MOST_FREE, MOST_NAMES, NESTING, STATE_DEPTH};
use crate::sweeping::{name_counts, swept, BOX};
use crate::tree::{Action, Element, Job, Kind, Process, Reference, State, MOST_COUNT};
use crate::uses::Use;

/// A state, and what a sweep leaves of it as it was made.
pub struct Littered {
    pub state: State,
    pub left: State,
}

/// Put on the name of an ambient that goes, while a state is made.
const GOES: u16 = 32_768;

impl Littered {
    fn new(free: u16, next: u16, marked: &[Element]) -> Littered {
        let state = |is_kept: bool| State {
            free,
            next,
            elements: unmarked(marked, is_kept),
        };
        Littered {
            state: state(true),
            left: state(false),
        }
    }

    /// A state with nothing to remove.
    fn clean(state: State) -> Littered {
        let left = state.clone();
        Littered { state, left }
    }
}

/// The elements with the marks taken off, or without those that are marked.
fn unmarked(marked: &[Element], is_kept: bool) -> Vec<Element> {
    let mut list = Vec::new();
    for element in marked {
        match element {
            Element::Ambient { name, .. } if *name >= GOES && !is_kept => {}
            Element::Ambient {
                blocked,
                name,
                contents,
            } => list.push(around(*blocked, *name % GOES, unmarked(contents, is_kept))),
            other => list.push(other.clone()),
        }
    }
    list
}

/// An ambient, blocked or not.
fn around(blocked: bool, name: u16, contents: Vec<Element>) -> Element {
    Element::Ambient {
        blocked,
        name,
        contents,
    }
}

fn empty(blocked: bool, name: u16) -> Element {
    around(blocked, name, Vec::new())
}

/// Shows states with throwaway ambients to the visitor, with the calls to make on them. Each round adds as many random
/// ones again.
pub fn every_throwaway(seed: u64, rounds: usize, visit: Caller) {
    let mut show = |group, littered: &Littered| {
        visit(group, &littered.state.encode(), &[Call::Sweep]);
    };
    each_use(&mut |_, _, littered| show("a name in each part", littered));
    each_variable(&mut |littered| show("a variable of the same number", littered));
    each_nest(&mut |_, littered| show("ambients in each other", littered));
    for littered in long_states() {
        show("long states of throwaways", &littered);
    }
    for size in LONGEST + 1..LONGEST + 4 {
        show(
            "long states of throwaways",
            &Littered::clean(too_long(size)),
        );
    }
    sweep_turns(loaded(announcing_job()), &mut lowest_choice, &mut |turn| {
        show_turn("swept at every turn", turn, visit)
    });
    unswept_run(visit);
    let mut dice = Dice::new(Counts::All, seed);
    for turn in 0..rounds * THROWN {
        let state = thrown_state(&mut dice);
        let calls = [Call::Sweep, Call::Weight, Call::List, Call::Run(3)];
        let calls = &calls[..if turn % 8 == 0 { 4 } else { 1 }];
        visit("thrown throwaways", &state.encode(), calls);
    }
    for turn in 0..rounds * PLAYS {
        let job = match turn % 4 {
            0 => with_name(dice.job(25)),
            _ => thrown_job(&mut dice),
        };
        let mut left = TURNS;
        let mut choose = |state: &State| {
            left -= 1;
            thrown_choice(&mut dice, state).filter(|_| left > 0)
        };
        sweep_turns(loaded(job), &mut choose, &mut |turn| {
            show_turn("played and swept", turn, visit)
        });
    }
}

/// How many states are thrown in a round, how many jobs are played, and for how many turns at most.
const THROWN: usize = 24_000;
const PLAYS: usize = 1_200;
const TURNS: usize = 60;

/// How that in which a name stands is put in a state.
#[derive(Clone, Copy, Debug, PartialEq, Eq, PartialOrd, Ord)]
pub enum Standing {
    Directly,
    Replicated,
    Blocked,
    Left,
    Right,
    Restricted,
    InAmbient,
    BehindAction,
    BehindReplication,
    BehindBlocked,
    BehindInput,
    /// As deep as a process may be.
    Deepest,
}

impl Standing {
    pub const ALL: [Standing; 12] = [
        Standing::Directly,
        Standing::Replicated,
        Standing::Blocked,
        Standing::Left,
        Standing::Right,
        Standing::Restricted,
        Standing::InAmbient,
        Standing::BehindAction,
        Standing::BehindReplication,
        Standing::BehindBlocked,
        Standing::BehindInput,
        Standing::Deepest,
    ];

    /// The element in which the name stands so, if it can, among references of the name 0.
    fn element(self, part: Use, name: u16) -> Option<Element> {
        let (one, other) = (Reference::Name(name), Reference::Name(0));
        let process = part.process(one, other);
        let accept = Action::named(Kind::Accept, &[0]);
        let input = Action::counted(Kind::ExternalInput, 2, &[0]);
        let process = match self {
            Standing::Directly => process,
            Standing::Replicated => {
                let action = part.action(one, other)?;
                Process::Replication(action, Box::new(Process::Null))
            }
            Standing::Blocked => {
                let action = part.action(one, other)?;
                return Some(Element::BlockedAction(action, Process::Null));
            }
            Standing::Left => parallel(process, Process::Null),
            Standing::Right => parallel(Process::Null, process),
            Standing::Restricted => restriction(process),
            Standing::InAmbient => in_ambient(0, process),
            Standing::BehindAction => Process::Action(accept, Box::new(process)),
            Standing::BehindReplication => Process::Replication(accept, Box::new(process)),
            Standing::BehindBlocked => return Some(Element::BlockedAction(accept, process)),
            Standing::BehindInput => Process::Action(input, Box::new(process)),
            Standing::Deepest => behind_all(process, STATE_DEPTH - 2, 0),
        };
        Some(Element::Process(process))
    }
}

/// F, N, the name of an empty ambient, and the name that stands elsewhere.
const NAMES: [[u16; 4]; 16] = [
    // The same, at the ends of what is not free and between them.
    [2, 3, 2, 2],
    [2, 8, 7, 7],
    [2, 8, 5, 5],
    [MOST_FREE, MOST_NAMES, MOST_FREE, MOST_FREE],
    [MOST_FREE, MOST_NAMES, MOST_NAMES - 1, MOST_NAMES - 1],
    // Another that is near or has a byte in common.
    [2, 8, 5, 6],
    [2, 8, 5, 4],
    [2, 8, 2, 1],
    [2, 600, 300, 44],
    [2, 600, 44, 300],
    [2, 2_100, 3, 2_051],
    [MOST_FREE, MOST_NAMES, MOST_NAMES - 1, MOST_NAMES - 2],
    // A free one.
    [2, 8, 1, 1],
    [2, 8, 1, 6],
    [MOST_FREE, MOST_NAMES, MOST_FREE - 1, MOST_FREE],
    [MOST_FREE, MOST_FREE, MOST_FREE - 1, 3],
];

/// How many ways there are to lay out an empty ambient and another element.
const LAYOUTS: usize = 9;

/// The two in one list, in two, and as far apart as they may be. The ambients around are blocked where they can be.
fn laid_out(layout: usize, one: Element, other: Element) -> Vec<Element> {
    let holding = |name: u16, contents: Vec<Element>| {
        let blocked = contents.iter().all(Element::is_blocked);
        around(blocked, name, contents)
    };
    let deep = |inner| (1..NESTING).fold(inner, |inner, _| holding(0, vec![inner]));
    match layout {
        0 => vec![one, other],
        1 => vec![other, one],
        2 => vec![holding(0, vec![one, other])],
        3 => vec![holding(0, vec![other]), one],
        4 => vec![holding(0, vec![one]), other],
        5 => vec![other, holding(0, vec![holding(1, vec![]), one])],
        6 => vec![ambient(0, vec![other]), ambient(0, vec![one])],
        7 => vec![deep(one), other],
        _ => vec![one, deep(other)],
    }
}

/// Shows an empty ambient, and a name in each part of a process, put in a state in each way: the same name, which keeps
/// the ambient, and others. The ambient is a 40 or a 41, and the two are laid out in every way, by turns.
pub fn each_use(visit: &mut dyn FnMut(Use, Standing, &Littered)) {
    let mut turn = 0;
    for part in Use::all() {
        for standing in Standing::ALL {
            for [free, next, name, used] in NAMES {
                let Some(other) = standing.element(part, used) else {
                    continue;
                };
                let goes = name >= free && name != used;
                let mark = if goes { GOES } else { 0 };
                let one = empty(turn % 2 == 1, name + mark);
                let list = laid_out(turn % LAYOUTS, one, other);
                visit(part, standing, &Littered::new(free, next, &list));
                turn += 1;
            }
        }
    }
}

/// Shows an empty ambient, and the variable whose number is its name in each part of a process.
pub fn each_variable(visit: &mut dyn FnMut(&Littered)) {
    let mut turn = 0;
    for name in [0, 1, 2, 3, 5, 15, 30] {
        for part in Use::all() {
            let variable = Reference::Variable(name);
            let process = part.process(variable, variable);
            let process = (0..=name).fold(process, |part, _| restriction(part));
            let one = empty(turn % 2 == 1, name + GOES);
            let list = laid_out(turn % 2, one, Element::Process(process));
            visit(&Littered::new(0, MOST_NAMES, &list));
            turn += 1;
        }
    }
}

/// Why an ambient stays whose contents, if it has any, would all go.
#[derive(Clone, Copy, Debug, PartialEq, Eq, PartialOrd, Ord)]
pub enum Stay {
    /// Its name is free.
    Free,
    /// Another empty ambient has its name.
    Twice,
    /// The ambient around it has its name.
    AsAround,
    /// An action on a channel of its name is blocked elsewhere.
    Channel,
    /// It holds a null.
    Null,
    /// It holds a blocked action.
    Action,
    /// It holds an empty ambient with a free name.
    HoldsFree,
}

impl Stay {
    pub const ALL: [Stay; 7] = [
        Stay::Free,
        Stay::Twice,
        Stay::AsAround,
        Stay::Channel,
        Stay::Null,
        Stay::Action,
        Stay::HoldsFree,
    ];
}

/// F of what is nested; the name 1 is a free one.
const NESTED_FREE: u16 = 2;

/// Shows ambients in each other, up to the deepest, the outer ones 40 and the inner ones 41 in every division. All of
/// them go, or one of them stays, and with it those around it.
pub fn each_nest(visit: &mut dyn FnMut(Option<Stay>, &Littered)) {
    let mut turn = 0;
    for depth in 1..=NESTING {
        for open in 0..=depth {
            visit(None, &nest(depth, open, None, turn));
            for level in 0..depth {
                for stay in Stay::ALL {
                    let can_stay = match stay {
                        Stay::AsAround => level > 0,
                        Stay::Null => level < open,
                        Stay::HoldsFree => level + 1 < NESTING,
                        _ => true,
                    };
                    if can_stay {
                        turn += 1;
                        visit(Some(stay), &nest(depth, open, Some((level, stay)), turn));
                    }
                }
            }
        }
    }
}

/// Ambients in each other, so many of them not blocked. The one at the level given stays, the outermost being at 0.
fn nest(depth: usize, open: usize, stays: Option<(usize, Stay)>, turn: usize) -> Littered {
    let is_turned = turn % 2 == 1;
    let name =
        |level: usize| NESTED_FREE + if is_turned { depth - 1 - level } else { level } as u16;
    let mut beside = Vec::new();
    let mut inner = Vec::new();
    for level in (0..depth).rev() {
        let is_blocked = level >= open;
        let mut own = name(level);
        let goes = stays.is_none_or(|(stop, _)| level > stop);
        let mut held = Vec::new();
        if let Some((_, stay)) = stays.filter(|(stop, _)| *stop == level) {
            match stay {
                Stay::Free => own = 1,
                Stay::Twice => beside.push(empty(is_turned, own)),
                Stay::AsAround => own = name(level - 1),
                Stay::Channel => beside.push(blocked(Kind::Leave, &[own])),
                Stay::Null => held.push(Element::Process(Process::Null)),
                Stay::Action => held.push(blocked(Kind::Accept, &[0])),
                Stay::HoldsFree => held.push(empty(true, 1)),
            }
        }
        let held = if turn % 4 > 1 {
            [held, inner].concat()
        } else {
            [inner, held].concat()
        };
        let mark = if goes { GOES } else { 0 };
        inner = vec![around(is_blocked, own + mark, held)];
    }
    let list = if turn.is_multiple_of(3) {
        [beside, inner].concat()
    } else {
        [inner, beside].concat()
    };
    let next = NESTED_FREE + depth as u16;
    Littered::new(NESTED_FREE, next, &list)
}

/// The elements in a state that one process makes exactly so many bytes long; the process names 0.
fn filled(free: u16, size: usize, marked: &[Element]) -> Littered {
    let mut littered = Littered::new(free, MOST_NAMES, marked);
    let length = littered.state.encode().len();
    let room = size - length;
    let before = littered.left.encode().len();
    fill(&mut littered.state, size);
    fill(&mut littered.left, before + room);
    littered
}

/// Empty ambients of these names, in columns of so many in each other; those that go are marked.
fn columns(names: impl Iterator<Item = u16>, height: usize) -> Vec<Element> {
    let names: Vec<u16> = names.collect();
    let column = |(turn, names): (usize, &[u16])| {
        // The inner ones are blocked, of single ones every third.
        let inner = |inner: Vec<Element>, (level, name): (usize, &u16)| {
            vec![around(level + turn % 3 < height.div_ceil(2), *name, inner)]
        };
        names.iter().enumerate().fold(Vec::new(), inner)
    };
    names.chunks(height).enumerate().flat_map(column).collect()
}

/// How many empty ambients have room in the longest state.
const MOST_BOXES: usize = (LONGEST - 7) / BOX;

/// Long states: with every name once, beside each other and in each other; with none to remove; with one, in front, in
/// the middle and behind; and of exactly the longest length and a little less.
pub fn long_states() -> Vec<Littered> {
    let mut states = Vec::new();
    let all = |free: u16| (free..MOST_NAMES).map(|name| name + GOES);
    for height in [1, 2, NESTING] {
        for free in [0, 7, MOST_FREE] {
            let list = columns(all(free), height);
            states.push(Littered::new(free, MOST_NAMES, &list));
            // With free ones in front, as many as there is room for.
            let room = LONGEST - 7 - BOX * usize::from(MOST_NAMES - free);
            let others = vec![empty(true, 0); if free > 0 { room / BOX } else { 0 }];
            let list = [&others[..], &list].concat();
            states.push(Littered::new(free, MOST_NAMES, &list));
        }
        for size in LONGEST - 3..=LONGEST {
            states.push(filled(1, size, &columns(all(1), height)));
        }
    }
    states.extend(none_to_remove(LONGEST).into_iter().map(Littered::clean));
    // The names at the front come twice, the others once.
    let twice = MOST_BOXES - usize::from(MOST_NAMES);
    let names = (0..MOST_BOXES).map(|index| {
        let name = index % usize::from(MOST_NAMES);
        name as u16 + if name < twice { 0 } else { GOES }
    });
    states.push(Littered::new(0, MOST_NAMES, &columns(names, 1)));
    for place in [0, 1, MOST_BOXES / 2, MOST_BOXES - 1] {
        let names = (0..MOST_BOXES).map(|index| match index == place {
            true => MOST_NAMES - 1 + GOES,
            false => index as u16 % MOST_FREE,
        });
        let list = columns(names, 1);
        states.push(Littered::new(MOST_FREE, MOST_NAMES, &list));
    }
    for count in [1, 2, 254, 255, 256, 257, 511, 512, 1_024, 4_096, 7_000] {
        states.push(Littered::clean(used_often(count)));
    }
    states
}

/// States of exactly so many bytes in which no ambient is removed: all names free, twice, or used behind actions; and
/// nothing empty.
pub fn none_to_remove(size: usize) -> Vec<State> {
    let count = (size - 30) / BOX;
    let names = |limit: u16| (0..count).map(move |index| (index / 2) as u16 % limit);
    let free = columns(names(MOST_FREE), 1);
    let twice = columns(
        (0..count / 2 * 2).map(|index| 1 + index as u16 / 2 % 4_000),
        2,
    );
    let null = || vec![Element::Process(Process::Null)];
    let full = (0..(size - 30) / (BOX + 6)).map(|index| ambient(1 + index as u16, null()));
    let full: Vec<Element> = full.collect();
    let mut states = Vec::new();
    for (free, list) in [(MOST_FREE, free), (1, twice), (1, full)] {
        states.push(filled(free, size, &list).state);
    }
    states.push(behind_actions(size));
    states
}

/// A state of so many bytes in which each empty ambient's name stands behind two actions, among what is sent.
pub fn behind_actions(size: usize) -> State {
    let send = |names: &[u16]| {
        let names = [&[0, 0], names].concat();
        let output = Action::counted(Kind::SiblingOutput, MOST_COUNT, &names);
        let guarded = Process::Action(output, Box::new(Process::Null));
        let guarded = acting(Kind::Accept, &[0], guarded);
        Element::Process(Process::Replication(
            Action::named(Kind::Leave, &[0]),
            Box::new(guarded),
        ))
    };
    let four = |first: u16| {
        let names: Vec<u16> = (first..first + 4).collect();
        let boxes = names.iter().map(|name| empty(name % 2 == 0, *name));
        [vec![send(&names)], boxes.collect()].concat()
    };
    let bytes: usize = four(1).iter().map(|element| element.encode().len()).sum();
    let count = (size - 30) / bytes;
    let list: Vec<Element> = (0..count as u16)
        .flat_map(|turn| four(1 + 4 * turn))
        .collect();
    filled(1, size, &list).state
}

/// An empty ambient whose name is a reference so many times.
pub fn used_often(count: usize) -> State {
    let mut elements = vec![empty(false, 1)];
    for names in vec![1; count].chunks(6) {
        // The rest of the last output is free.
        let mut all = [0; 6];
        all[..names.len()].copy_from_slice(names);
        let output = Action::counted(Kind::SiblingOutput, MOST_COUNT, &all);
        let process = Process::Action(output, Box::new(Process::Null));
        elements.push(Element::Process(process));
    }
    State {
        free: 1,
        next: 2,
        elements,
    }
}

/// A state of so many bytes, more than may be, that is mostly empty ambients.
pub fn too_long(size: usize) -> State {
    let names = (0..(size - 30) / BOX).map(|index| index as u16 % MOST_NAMES);
    filled(0, size, &columns(names, 1)).state
}

/// States of exactly so many bytes for timing a sweep.
pub fn timed_sweeps(size: usize) -> Vec<(&'static str, State)> {
    // One process fills up what is left where the names do not suffice.
    let count = ((size - 30) / BOX).min(usize::from(MOST_NAMES) - 1) as u16;
    let all = |height| {
        filled(
            1,
            size,
            &columns((1..=count).map(|name| name + GOES), height),
        )
        .state
    };
    let mut none = none_to_remove(size).into_iter();
    let mut next = || none.next().expect("a state with none to remove");
    let mut dice = Dice::new(Counts::All, 1);
    let mut turn = 0;
    let mut mixed = Vec::new();
    let mut length = 30;
    while length < size {
        turn += 1;
        let mut budget = dice.between(1, 12);
        let process = Element::Process(dice.process(64, 0, STATE_DEPTH, &mut budget));
        // A third of them have free names.
        let first = match turn % 3 {
            0 => turn % 1_000,
            _ => MOST_FREE + 3 * turn % 3_000,
        };
        let boxes = columns((first..first + 3).rev(), 3);
        let held = ambient(dice.name(64), [vec![process], boxes].concat());
        length += held.encode().len();
        mixed.push(held);
    }
    mixed.pop();
    vec![
        ("all go", all(1)),
        ("all go, in columns", all(NESTING)),
        ("free names", next()),
        ("each name twice", next()),
        ("none is empty", next()),
        ("behind actions", next()),
        ("some go", filled(MOST_FREE, size, &mixed).state),
    ]
}

/// A state with thrown empty ambients in it: mostly of names that stand nowhere else, else of any. A few may hold a
/// blocked pair.
pub fn thrown_state(dice: &mut Dice) -> State {
    loop {
        let size = dice.pick(&[0, 2, 5, 12, 30]);
        let mut state = dice.state(size);
        let more = dice.pick(&[1, 3, 10, 40, 300, MOST_NAMES]);
        state.next = (state.next + more).min(MOST_NAMES);
        let free = dice.pick(&[0, 1, 2, 3, state.free, state.next - 1, state.next]);
        state.free = free.min(MOST_FREE).min(state.next);
        let mut pool = Pool::of(&state);
        for _ in 0..dice.pick(&[1, 1, 2, 3, 5, 9, 20]) {
            throw_in(dice, &mut pool, &mut state.elements, NESTING, false);
        }
        if read_state(&state.encode()).is_ok() || dice.one_in(20) {
            return state;
        }
    }
}

/// The names of a state, and how often each stands in it.
struct Pool {
    free: u16,
    next: u16,
    counts: Vec<usize>,
}

impl Pool {
    fn of(state: &State) -> Pool {
        Pool {
            free: state.free,
            next: state.next,
            counts: name_counts(state),
        }
    }

    /// A name for a thrown ambient: mostly one that stands nowhere and is not free; else one at an end, or any.
    fn name(&mut self, dice: &mut Dice) -> u16 {
        let last = usize::from(self.next - 1);
        let free = usize::from(self.free).min(last);
        let mut name = match dice.below(12) {
            0 => dice.pick(&[free, free, free.max(1) - 1, last]),
            1 => dice.below(free + 1),
            2 => dice.below(last + 1),
            _ => dice.between(free, last),
        };
        let wants_new = !dice.one_in(6);
        for _ in 0..8 {
            if self.counts[name] > 0 && wants_new {
                name = dice.between(free, last);
            }
        }
        self.counts[name] += 1;
        name as u16
    }
}

/// Puts a thrown ambient somewhere in the list or in an ambient there, so many levels deep at most.
fn throw_in(
    dice: &mut Dice,
    pool: &mut Pool,
    list: &mut Vec<Element>,
    levels: usize,
    must_block: bool,
) {
    let index = dice.below(list.len() + 1);
    if let Some(Element::Ambient {
        blocked, contents, ..
    }) = list.get_mut(index)
    {
        if levels > 1 && !dice.one_in(3) {
            return throw_in(dice, pool, contents, levels - 1, *blocked);
        }
    }
    let most = dice.pick(&[1, 1, 1, 2, 3, NESTING]);
    let element = thrown_ambient(dice, pool, most.min(levels), must_block);
    list.insert(index, element);
}

/// An ambient that is empty, or holds such ambients, so many levels deep at most; now and then it holds something else.
fn thrown_ambient(dice: &mut Dice, pool: &mut Pool, levels: usize, must_block: bool) -> Element {
    let is_blocked = must_block || dice.one_in(2);
    let mut contents = Vec::new();
    if levels > 1 {
        let count = if levels > 4 { 1 } else { dice.between(1, 3) };
        for _ in 0..count {
            contents.push(thrown_ambient(dice, pool, levels - 1, is_blocked));
        }
    }
    if dice.one_in(12) {
        let name = pool.name(dice);
        contents.push(match is_blocked || dice.one_in(2) {
            true => blocked(Kind::Accept, &[name]),
            false => Element::Process(Process::Null),
        });
    }
    around(is_blocked, pool.name(dice), contents)
}

/// A local output of the source: an ambient of a name that is made for it hands these to the list that it stands in.
pub fn local_output(channel: Reference, sent: &[Reference]) -> Process {
    thrown_output(Kind::ParentOutput, &[channel], sent)
}

/// A child output of the source: the like to an ambient of the list that it stands in.
pub fn child_output(child: Reference, channel: Reference, sent: &[Reference]) -> Process {
    thrown_output(Kind::SiblingOutput, &[child, channel], sent)
}

fn thrown_output(kind: Kind, to: &[Reference], sent: &[Reference]) -> Process {
    // The restriction is one more binder.
    let inner = |reference: &Reference| match reference {
        Reference::Variable(level) => Reference::Variable(level + 1),
        name => *name,
    };
    let references: Vec<Reference> = to.iter().chain(sent).map(inner).collect();
    let output = Action::of_references(kind, sent.len() as u8, &references);
    let output = Process::Action(output, Box::new(Process::Null));
    thrown_away(output)
}

/// The process in an ambient of a name that is made for it.
fn thrown_away(process: Process) -> Process {
    let name = Reference::Variable(0);
    restriction(Process::Ambient(name, Box::new(process)))
}

/// An ambient of a name that is made for it, in which the names are handed over by a local output, and which hands them
/// on to the list that it stands in.
fn handed_on(channel: u16, sent: &[Reference]) -> Process {
    let count = sent.len() as u8;
    let taken = (0..u16::from(count)).rev().map(Reference::Variable);
    let references: Vec<Reference> = [Reference::Name(channel)]
        .into_iter()
        .chain(taken)
        .collect();
    let on = Action::of_references(Kind::ParentOutput, count, &references);
    let on = Process::Action(on, Box::new(Process::Null));
    let take = Action::counted(Kind::InternalInput, count, &[channel]);
    let take = Process::Action(take, Box::new(on));
    thrown_away(parallel(take, local_output(Reference::Name(channel), sent)))
}

/// Reels 1, 2 and 3 are announced in the cabinet by local outputs on channel 4, the last by one in a throwaway ambient
/// that hands it on. The cabinet takes each announcement and puts up a reel of that name.
pub fn announced_reels() -> Job {
    let channel = 4;
    let announce = |reel: u16| local_output(Reference::Name(channel), &[Reference::Name(reel)]);
    let reel = Process::Ambient(Reference::Variable(0), Box::new(Process::Null));
    let takes = again(Kind::InternalInput, &[channel], reel);
    let last = handed_on(channel, &[Reference::Name(3)]);
    Job {
        free: 5,
        process: parallel(announce(1), parallel(announce(2), parallel(last, takes))),
    }
}

/// The cabinet announces a name by a local output and, as often as it hears it, announces it again. It goes on until the
/// names are used up, and leaves an empty ambient each time.
pub fn announcing_job() -> Job {
    let (channel, said) = (Reference::Name(1), Reference::Name(2));
    let again = again(
        Kind::InternalInput,
        &[1],
        local_output(channel, &[Reference::Variable(0)]),
    );
    Job {
        free: 3,
        process: parallel(local_output(channel, &[said]), again),
    }
}

/// The names of thrown jobs: decks, channels and others; the name 0 is the cabinet's.
const DECKS: [u16; 2] = [1, 2];
const CHANNELS: [u16; 2] = [3, 4];
const ANY: [u16; 6] = [0, 1, 2, 3, 5, 6];
const JOB_NAMES: u16 = 7;

/// A random job with local outputs and child outputs, and with inputs that take what they send.
pub fn thrown_job(dice: &mut Dice) -> Job {
    let mut process = beside(dice);
    for deck in DECKS {
        if dice.one_in(2) {
            let inside = parallel(thrown_input(dice, Kind::ExternalInput), beside(dice));
            process = parallel(in_ambient(deck, inside), process);
        }
    }
    let free = JOB_NAMES;
    Job { free, process }
}

/// Some outputs and inputs beside each other.
fn beside(dice: &mut Dice) -> Process {
    let mut process = thrown_input(dice, Kind::InternalInput);
    for _ in 0..dice.between(1, 4) {
        let next = match dice.one_in(3) {
            true => thrown_input(dice, Kind::InternalInput),
            false => thrown_sender(dice),
        };
        process = match dice.one_in(2) {
            true => parallel(next, process),
            false => parallel(process, next),
        };
    }
    process
}

/// A local or child output; in some, what is sent is the throwaway ambient's own name, or is handed on.
fn thrown_sender(dice: &mut Dice) -> Process {
    let channel = dice.pick(&CHANNELS);
    let count = dice.pick(&[1, 1, 1, 0, 2]);
    let sent: Vec<Reference> = (0..count)
        .map(|_| Reference::Name(dice.pick(&ANY)))
        .collect();
    match dice.below(6) {
        0 => child_output(
            Reference::Name(dice.pick(&DECKS)),
            Reference::Name(channel),
            &sent,
        ),
        1 => handed_on(channel, &sent),
        2 => {
            let own = [Reference::Name(channel), Reference::Variable(0)];
            let output = Action::of_references(Kind::ParentOutput, 1, &own);
            thrown_away(Process::Action(output, Box::new(Process::Null)))
        }
        _ => local_output(Reference::Name(channel), &sent),
    }
}

/// An input, and what it does with the name that it takes, if any.
fn thrown_input(dice: &mut Dice, kind: Kind) -> Process {
    let channel = Reference::Name(dice.pick(&CHANNELS));
    let count = dice.pick(&[1, 1, 1, 0, 2]);
    let null = || Box::new(Process::Null);
    let taken = Reference::Variable(0);
    let after = match if count == 0 { 5 } else { dice.below(6) } {
        0 => Process::Ambient(taken, null()),
        1 => local_output(Reference::Name(dice.pick(&CHANNELS)), &[taken]),
        2 => child_output(taken, channel, &[taken]),
        3 => Process::Action(Action::of_references(Kind::Accept, 0, &[taken]), null()),
        4 => thrown_away(Process::Null),
        _ => Process::Null,
    };
    let input = Action::of_references(kind, count, &[channel]);
    match dice.one_in(3) {
        true => Process::Replication(input, Box::new(after)),
        false => Process::Action(input, Box::new(after)),
    }
}

/// A random place that can act, with a random one of its partners or with none.
fn thrown_choice(dice: &mut Dice, state: &State) -> Option<Choice> {
    let places = acting_places(state);
    if places.is_empty() {
        return None;
    }
    let place = dice.pick(&places);
    let partners = partner_places(state, place);
    match partners.is_empty() {
        true => Some((place, NO_PARTNER)),
        false => Some((place, dice.pick(&partners))),
    }
}

/// How many steps are taken without a sweep, and how many there are between two states that are shown.
const UNSWEPT: usize = 8_000;
const BETWEEN: usize = 97;

/// Shows states on the way of the same run without a sweep: hundreds of empty ambients are left.
fn unswept_run(visit: Caller) {
    let mut state = loaded(announcing_job());
    for step in 0..UNSWEPT {
        if step % BETWEEN == 0 {
            let calls = [Call::Sweep, Call::Run(8)];
            visit("without a sweep", &state.encode(), &calls);
        }
        let (place, partner) = lowest_choice(&state).expect("it goes on");
        state = advance(&state, place, partner).expect("and has names").1;
    }
}

/// A step and the sweep behind it: how many came before, the choice, the state before the step, that after it, and what the
/// sweep leaves.
pub struct SweptTurn<'turn> {
    pub number: usize,
    pub choice: Choice,
    pub before: &'turn State,
    pub after: &'turn State,
    pub left: &'turn State,
}

/// Steps by the choices and sweeps behind each step, until there is no choice or a step is refused. Gives the last state.
pub fn sweep_turns(
    mut state: State,
    choose: &mut dyn FnMut(&State) -> Option<Choice>,
    watch: &mut dyn FnMut(&SweptTurn),
) -> State {
    let mut number = 0;
    while let Some((place, partner)) = choose(&state) {
        let Ok((_, after)) = advance(&state, place, partner) else {
            break;
        };
        if after.encode().len() > LONGEST {
            break;
        }
        let left = swept(&after);
        watch(&SweptTurn {
            number,
            choice: (place, partner),
            before: &state,
            after: &after,
            left: &left,
        });
        state = left;
        number += 1;
    }
    state
}

/// Shows the state after a step with the sweep, and now and then the one before it with the step.
fn show_turn(group: &'static str, turn: &SweptTurn, visit: Caller) {
    let (place, partner) = turn.choice;
    if turn.number.is_multiple_of(5) {
        visit(group, &turn.before.encode(), &[Call::Step(place, partner)]);
    }
    visit(group, &turn.after.encode(), &[Call::Sweep]);
}
