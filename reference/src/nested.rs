// States nested around both limits of nesting, that of every call and that of the listing: with what can act, with blocked
// pairs and with faults at every level. And jobs whose ambients nest so.

use crate::comparison::{Call, Caller};
use crate::counts::{bytes, field};
use crate::deepest::{deepest_job, deepest_meeting, deepest_states};
use crate::dice::{Counts, Dice};
use crate::machine::{acting_places, answer, lowest_partner, NO_PARTNER};
use crate::shapes::*;
use crate::spelling::{read_nested_with_pairs, Spelled, LISTED_NESTING, NESTING, STATE_DEPTH};
use crate::tree::{Action, Element, Job, Kind, Process};

/// The nestings around both limits.
pub const NESTINGS: [usize; 8] = [
    NESTING - 1,
    NESTING,
    NESTING + 1,
    NESTING + 2,
    LISTED_NESTING - 1,
    LISTED_NESTING,
    LISTED_NESTING + 1,
    LISTED_NESTING + 2,
];

/// No state here nests so deep.
pub const ANY_NESTING: usize = 64;

/// F and N of the states made by hand. The ambients of a column have the names behind F.
const FREE: u16 = 4;
const NAMES: u16 = 32;

/// Shows states that nest around the limits to the visitor, with the calls to make on them, and jobs whose ambients do. Each
/// round adds as many random ones again.
pub fn every_nested(seed: u64, rounds: usize, visit: Caller) {
    let mut show = |group, state: &[u8]| visit(group, state, &calls_on(state));
    each_standing(&mut |state| show("nested states", state));
    each_pair(&mut |state| show("nested pairs", state));
    each_fault(&mut |state| show("nested faults", state));
    let deepest = [NESTING, LISTED_NESTING]
        .into_iter()
        .flat_map(deepest_states);
    for state in deepest.chain([deepest_meeting().0]) {
        show("deepest states", &state.encode());
    }
    let mut dice = Dice::new(Counts::All, seed);
    for _ in 0..rounds * THROWN {
        show("nested at random", &dice.nested_state().encode());
    }
    let jobs = nested_jobs().into_iter().map(|(_, job)| job);
    for job in jobs.chain([deepest_job()]) {
        visit("nested jobs", &job.encode(), &[Call::Load]);
        let process = job.process.encode();
        visit("nested jobs", &process, &[Call::Write(job.free)]);
    }
}

/// How many states are thrown in a round.
const THROWN: usize = 12_000;

/// All calls that read a state: steps and partners at the lowest and the highest place that can act, whether or not the
/// state is too deep for them, or at the first place. Every state is swept too.
fn calls_on(state: &[u8]) -> Vec<Call> {
    let mut calls = vec![Call::Weight, Call::List, Call::Run(0), Call::Run(5)];
    let mut at = |place, partner| calls.extend([Call::Step(place, partner), Call::Partners(place)]);
    match read_nested_with_pairs(state, ANY_NESTING) {
        Ok(state) => {
            let places = acting_places(&state);
            let mut ends: Vec<u16> = places
                .first()
                .into_iter()
                .chain(places.last())
                .copied()
                .collect();
            ends.dedup();
            for place in ends {
                at(place, lowest_partner(&state, place));
            }
        }
        Err(_) => at(0, NO_PARTNER),
    }
    calls
}

/// Where what stands in the list of a column's ambient stands: before the next ambient of the column, behind it, or both.
#[derive(Clone, Copy)]
enum Side {
    Before,
    Behind,
    Both,
}

const SIDES: [Side; 3] = [Side::Before, Side::Behind, Side::Both];

/// A column: so many ambients in one another, of which so many of the outer ones are 40, the others 41.
#[derive(Clone, Copy)]
struct Column {
    nesting: usize,
    open: usize,
}

impl Column {
    /// The name of the ambient at this level, a root ambient being at 1.
    fn name(level: usize) -> [u8; 2] {
        (FREE + level as u16).to_be_bytes()
    }

    /// The fields of the ambients from this level on, with these bytes in the list that so many ambients hold.
    fn from(self, first: usize, level: usize, beside: &[u8], side: Side) -> Vec<u8> {
        let mut list = Vec::new();
        for depth in (first - 1..=self.nesting).rev() {
            if depth == level {
                list = match side {
                    Side::Before => [beside, &list].concat(),
                    Side::Behind => [&list, beside].concat(),
                    Side::Both => [beside, &list, beside].concat(),
                };
            }
            if depth >= first {
                let tag = if depth > self.open { 0x41 } else { 0x40 };
                list = field(tag, &[&Column::name(depth), &list]);
            }
        }
        list
    }

    /// The field of the ambient that stands in so many others.
    fn first_behind(self, level: usize) -> Vec<u8> {
        self.from(level + 1, 0, &[], Side::Before)
    }

    /// The state that holds the column, with these bytes in the list that so many ambients hold.
    fn state(self, level: usize, beside: &[u8], side: Side) -> Vec<u8> {
        let list = self.from(1, level, beside, side);
        let [free, names] = [FREE, NAMES].map(u16::to_be_bytes);
        field(0x11, &[&free, &names, &list])
    }
}

fn shut(name: u16, contents: Vec<Element>) -> Element {
    Element::Ambient {
        blocked: true,
        name,
        contents,
    }
}

/// Elements that may stand in a 41.
fn blocked_ones() -> Vec<Element> {
    vec![
        blocked(Kind::Accept, &[1]),
        shut(FREE, vec![]),
        shut(0, vec![blocked(Kind::Release, &[1])]),
    ]
}

/// Elements that may stand in a 40 alone: each thing that can act, and an ambient that cannot.
fn unblocked_ones() -> Vec<Element> {
    let null = || Process::Null;
    let processes = [
        null(),
        parallel(null(), null()),
        restriction(null()),
        in_ambient(FREE, null()),
        acting(Kind::Accept, &[1], null()),
        acting(Kind::Leave, &[1], null()),
        again(Kind::InternalInput, &[1], null()),
    ];
    let ambients = [
        vec![],
        vec![blocked(Kind::Accept, &[1])],
        vec![shut(FREE, vec![]), blocked(Kind::Leave, &[2])],
        vec![Element::Process(null())],
    ];
    let processes = processes.into_iter().map(Element::Process);
    let ambients = ambients.into_iter().map(|contents| ambient(0, contents));
    processes.chain(ambients).collect()
}

/// Columns of each nesting, in every division into 40 and 41 and with nothing else; and with each element in each of its
/// lists, the rest of the column before it, behind it and on both sides.
fn each_standing(visit: &mut dyn FnMut(&[u8])) {
    let mut turn = 0;
    for nesting in NESTINGS {
        for open in 0..=nesting {
            visit(&Column { nesting, open }.state(0, &[], Side::Before));
        }
        for level in 0..=nesting {
            let mut show = |element: &Element, open: usize| {
                let side = SIDES[(turn + level) % SIDES.len()];
                turn += 1;
                visit(&Column { nesting, open }.state(level, &element.encode(), side));
            };
            for element in unblocked_ones() {
                for open in [level, (level + nesting) / 2, nesting] {
                    show(&element, open);
                }
            }
            for element in blocked_ones() {
                for open in [0, level / 2, level, nesting] {
                    show(&element, open);
                }
            }
        }
    }
}

/// The kinds that send or move.
const SENDERS: [Kind; 4] = [
    Kind::SiblingOutput,
    Kind::ParentOutput,
    Kind::Enter,
    Kind::Leave,
];

/// A blocked action of this kind in an ambient, and one that answers it or is on another channel, in an ambient where it has
/// to be. Both ambients are 41 or 40.
fn two_blocked(kind: Kind, channel: u16, is_shut: bool) -> Vec<Element> {
    let around = |name, element| Element::Ambient {
        blocked: is_shut,
        name,
        contents: vec![element],
    };
    let names = [1, 2, 3];
    let sender = blocked(kind, &names[usize::from(!kind.has_target())..]);
    let other = blocked(answer(kind), &[channel]);
    let other = match kind.has_target() {
        true => around(1, other),
        false => other,
    };
    vec![around(0, sender), other]
}

/// A blocked pair, and two that are nearly one, in each list of the columns.
fn each_pair(visit: &mut dyn FnMut(&[u8])) {
    let mut turn = 0;
    for nesting in NESTINGS {
        for level in 0..=nesting {
            for kind in SENDERS {
                for (channel, is_shut) in [(2, true), (2, false), (3, true), (3, false)] {
                    let pair = two_blocked(kind, channel, is_shut);
                    let pair: Vec<u8> = pair.iter().flat_map(Element::encode).collect();
                    let outer = if is_shut { 0 } else { level };
                    for side in [Side::Before, Side::Behind] {
                        let open = [outer, level, nesting][turn % 3];
                        turn += 1;
                        visit(&Column { nesting, open }.state(level, &pair, side));
                    }
                }
            }
        }
    }
}

/// Elements that may stand in a 41, each with a fault: the header or the body is past the end, a tag that is not due, bytes
/// that are left, a name out of range, a wrong count, and a process that is too deep, beside the like that is not.
fn faults() -> Vec<Vec<u8>> {
    let spelled = [
        "43",
        "41 00",
        "43 000D 36 0002 0001 20 0000",
        "44 0000",
        "20 0000",
        "43 0009 36 0002 0001 20 0000 00",
        "43 0009 36 0003 0001 00 20 0000",
        "41 0002 0020",
        "41 0002 8000",
        "43 0008 36 0002 0020 20 0000",
        "43 0009 3A 0003 0001 01 20 0000",
    ];
    let mut faults: Vec<Vec<u8>> = spelled.into_iter().map(bytes).collect();
    let action = Action::named(Kind::Accept, &[1]);
    // The first is as deep as may be.
    let deep = [STATE_DEPTH - 1, STATE_DEPTH].map(|depth| chain(depth, |_| 0));
    faults.extend(deep.map(|process| Element::BlockedAction(action, process).encode()));
    faults
}

/// The field of an ambient, changed: its header or its body is cut, it has another tag or another length, another name or
/// none, or bytes behind its parts.
fn changed(ambient: &[u8]) -> Vec<Vec<u8>> {
    let (tag, body) = (ambient[0], &ambient[3..]);
    let length = body.len() as u16;
    let with_length = |length: u16| [&[tag][..], &length.to_be_bytes(), body].concat();
    let with_name = |name: u16| field(tag, &[&name.to_be_bytes(), &body[2..]]);
    let mut all = vec![
        ambient[..1].to_vec(),
        ambient[..2].to_vec(),
        ambient[..3].to_vec(),
        field(tag, &[]),
        field(tag, &[&body[..1]]),
        field(tag, &[body, &[0]]),
        field(tag, &[body, &[0x44, 0, 0]]),
    ];
    all.extend([0x20, 0x3F, 0x42, 0x43, 0x44].map(|tag| field(tag, &[body])));
    all.extend([length + 1, length - 1, 0, u16::MAX].map(with_length));
    all.extend([0, FREE, NAMES - 1, NAMES, 0x7FFF, 0x8000].map(with_name));
    all
}

/// Columns around each limit with a fault in one of the lists around it, before or behind the next ambient; and the first
/// ambient that is too deep changed in each way, alone and beside another.
fn each_fault(visit: &mut dyn FnMut(&[u8])) {
    for limit in [NESTING, LISTED_NESTING] {
        for nesting in [limit, limit + 1, limit + 2] {
            for open in [0, NESTING, nesting] {
                let column = Column { nesting, open };
                for fault in faults() {
                    for level in [0, 1, limit - 1, limit, limit + 1, limit + 2] {
                        for side in [Side::Before, Side::Behind] {
                            visit(&column.state(level, &fault, side));
                        }
                    }
                }
            }
        }
        for (open, nesting) in [(0, limit + 1), (limit, limit + 2), (limit + 2, limit + 2)] {
            let column = Column {
                nesting: limit,
                open: open.min(limit),
            };
            let beside = shut(0, vec![]).encode();
            for changed in changed(&Column { nesting, open }.first_behind(limit)) {
                visit(&column.state(limit, &changed, Side::Before));
                for two in [[&beside[..], &changed], [&changed[..], &beside]] {
                    visit(&column.state(limit, &two.concat(), Side::Before));
                }
            }
        }
    }
}

/// A few of these states: around each limit the first ambient that is too deep changed in each way, and before, behind and
/// between others; a process in each list around the limit, and one that is as deep as may be; and each fault in the ninth
/// ambient.
pub fn chosen_states() -> Vec<Vec<u8>> {
    let mut states = Vec::new();
    let null = Element::Process(Process::Null).encode();
    let other = blocked(Kind::Accept, &[1]).encode();
    let deepest = Element::Process(chain(STATE_DEPTH, |_| 0)).encode();
    for limit in [NESTING, LISTED_NESTING] {
        let column = |nesting: usize, open: usize| Column { nesting, open };
        for changed in changed(&column(limit + 1, 0).first_behind(limit)) {
            states.push(column(limit, 0).state(limit, &changed, Side::Before));
        }
        for side in SIDES {
            states.push(column(limit + 1, 0).state(limit, &other, side));
        }
        for level in [limit - 1, limit] {
            states.push(column(limit, limit).state(level, &null, Side::Behind));
        }
        states.push(column(limit, limit).state(limit, &deepest, Side::Before));
    }
    let (nesting, open) = (NESTING + 1, 0);
    let inside = faults().into_iter();
    states
        .extend(inside.map(|fault| Column { nesting, open }.state(nesting, &fault, Side::Before)));
    states
}

/// Jobs whose ambients, with the cabinet around them, nest around the limits: a column of each height around something, and
/// a column that an adapter of each height enters on the way. Each with how deep its run would nest, were there no limit.
pub fn nested_jobs() -> Vec<(usize, Job)> {
    let mut jobs = Vec::new();
    let tower = |height: usize, process: Process| {
        (0..height).fold(process, |inner, _| in_ambient(0, inner))
    };
    for nesting in NESTINGS {
        let inner = [
            Process::Null,
            acting(Kind::Accept, &[3], Process::Null),
            parallel(Process::Null, again(Kind::Leave, &[3], Process::Null)),
        ];
        for inner in inner {
            let process = tower(nesting - 1, inner);
            jobs.push((nesting, Job { free: 4, process }));
        }
        // The adapter enters at this level, and holds as many as make up the rest.
        for level in 1..nesting.min(NESTING + 2) - 1 {
            let held = tower(nesting - level - 2, Process::Null);
            let adapter = in_ambient(
                1,
                parallel(acting(Kind::Enter, &[2, 3], Process::Null), held),
            );
            let deck = in_ambient(2, acting(Kind::Accept, &[3], Process::Null));
            for both in [[&adapter, &deck], [&deck, &adapter]] {
                let both = parallel(both[0].clone(), both[1].clone());
                let process = tower(level - 1, both);
                jobs.push((nesting, Job { free: 4, process }));
            }
        }
    }
    jobs
}
