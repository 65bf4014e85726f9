// The series of accesses for comparing the front panel, and the comparison of what two sides make of
// them: the record, what is read, and every byte of the lent buffers.

use crate::cabinets::{cabinet_jobs, thrown_job, twin_jobs};
use crate::cases::{every_case, loaded};
use crate::choices::{crowded_trees, first_state, limits, messages};
use crate::comparison::{hexadecimal, joined, Call, MARGIN, VERY_LONG};
use crate::dice::{Counts, Dice};
use crate::machine::{acting_places, advance, partner_places, paths, Choice};
use crate::machine::{CABINET, NO_PARTNER};
use crate::nested::every_nested;
use crate::panel::*;
use crate::proved;
use crate::sample::Sample;
use crate::shapes::{ambient, state_at_name};
use crate::shapes::{asking_job, endless_jobs, limited_jobs, printed_job, root, small_growing};
use crate::spelling::{read_state, Spelled, LONGEST};
use crate::tree::{Element, Job, Process, State};
use std::collections::BTreeMap;
use std::fmt;
use std::hint::black_box;

/// How many differences are shown.
const SHOWN: usize = 20;

/// What the comparison has in each round at least.
pub const LEAST_ACCESSES: usize = 1_000_000;
pub const LEAST_ACCEPTED: usize = 100_000;

/// An access to the panel.
#[derive(Clone, Copy, Debug, PartialEq, Eq)]
pub enum Access {
    /// With a length.
    Start(u32),
    /// Of an address.
    Read(u8),
    /// A look at the interrupt line.
    Line,
    /// An address, a value, and the length of the second buffer that is lent.
    Write(u8, u8, usize),
}

impl Access {
    /// The length of the second buffer that is lent.
    pub fn room(self) -> usize {
        match self {
            Access::Write(_, _, room) => room,
            _ => 0,
        }
    }

    pub fn is_step(self) -> bool {
        matches!(self, Access::Write(COMMAND, STEP, _))
    }
}

/// Makes an access, the state's buffer and the second buffer being lent to a write; gives what is read, or
/// 0.
pub type Side = fn(Access, &mut Panel, &mut [u8], &mut [u8]) -> u8;

/// The second implementation.
pub fn second(access: Access, panel: &mut Panel, state: &mut [u8], spare: &mut [u8]) -> u8 {
    match access {
        Access::Start(length) => panel.start(length),
        Access::Read(address) => return panel.read(address),
        Access::Line => return panel.line(),
        Access::Write(address, value, _) => panel.write(address, value, state, spare),
    }
    0
}

/// The proved library, which has to be linked.
pub fn proved(access: Access, panel: &mut Panel, state: &mut [u8], spare: &mut [u8]) -> u8 {
    match access {
        Access::Start(length) => proved::panel_start(panel, length),
        Access::Read(address) => return proved::panel_read(panel, address),
        Access::Line => return proved::panel_line(panel),
        Access::Write(address, value, _) => {
            proved::panel_write(panel, address, value, state, spare)
        }
    }
    0
}

/// What the step told of last came to: the rule, or the refusal.
pub fn told(panel: &Panel) -> Result<u8, u8> {
    if panel.read(FLAGS) & REFUSED == 0 {
        Ok(panel.read(RULE))
    } else {
        Err(panel.read(REFUSAL))
    }
}

/// What a panel tells of one step from a start. Both buffers have room for a result that is longer than the state.
pub fn step_by_panel(side: Side, state: &[u8], (place, partner): Choice) -> Result<u8, u8> {
    let mut buffer = [state, &[0; 400]].concat();
    let mut spare = buffer.clone();
    let mut panel = Panel::started(state.len() as u32);
    let [a, b] = place.to_be_bytes();
    let [c, d] = partner.to_be_bytes();
    let keyed = [(PLACE, a), (PLACE + 1, b), (PARTNER, c), (PARTNER + 1, d)];
    for (address, value) in keyed.into_iter().chain([(COMMAND, STEP)]) {
        let access = Access::Write(address, value, spare.len());
        side(access, &mut panel, &mut buffer, &mut spare);
    }
    told(&panel)
}

/// A series of accesses, with what the record and the state's buffer hold before it.
#[derive(Clone)]
pub struct Series {
    pub panel: Panel,
    pub state: Vec<u8>,
    pub accesses: Vec<Access>,
}

/// What a series is shown to: the name of its group, and the series.
pub type Watcher<'watcher> = &'watcher mut dyn FnMut(&'static str, &Series);

/// Shows every series to the visitor. Each round adds as many random ones again.
pub fn every_series(seed: u64, rounds: usize, visit: Watcher) {
    let mut dice = Dice::new(Counts::All, seed);
    let mut trees = Dice::new(Counts::All, seed);
    every_address_and_value(&mut dice, visit);
    lengths(&mut dice, visit);
    weights(&mut dice, visit);
    states_at_the_limits(&mut dice, visit);
    growing(&mut dice, visit);
    for _ in 0..rounds {
        plays(&mut dice, PLAYS, visit);
        any_records(&mut dice, ANY_RECORDS, visit);
        among_blocked(&mut dice, &mut trees, visit);
        in_a_cabinet(&mut dice, visit);
    }
    nested(&mut dice, seed, rounds, visit);
    let mut cases = Sample::empty();
    every_case(Counts::All, seed, rounds, &mut |group, input| {
        let refusal = read_state(input).err();
        if cases.takes((group, refusal), CASE_DIGITS) {
            case(&mut dice, input, visit);
        }
    });
}

/// How many plays there are in a round, and how many series from records that no start has made.
const PLAYS: usize = 16_000;
const ANY_RECORDS: usize = 4_000;

/// Of the cases of one group that are refused alike, all are taken whose number has no more binary digits
/// than this, and ever fewer behind them.
const CASE_DIGITS: u32 = 5;

/// A series in the making, and what the second implementation has made of it so far.
pub struct Making {
    pub series: Series,
    pub panel: Panel,
    pub state: Vec<u8>,
    spare: Vec<u8>,
}

impl Making {
    /// From this record and this buffer of the state.
    pub fn new(panel: Panel, state: Vec<u8>) -> Making {
        Making {
            series: Series {
                panel,
                state: state.clone(),
                accesses: Vec::new(),
            },
            panel,
            state,
            spare: Vec::new(),
        }
    }

    pub fn add(&mut self, access: Access) {
        let room = access.room();
        if self.spare.len() < room {
            self.spare.resize(room, 0);
        }
        let spare = &mut self.spare[..room];
        second(access, &mut self.panel, &mut self.state, spare);
        self.series.accesses.push(access);
    }

    /// The state that the panel keeps, if it would be accepted.
    pub fn present(&self) -> Option<State> {
        let front = self.state.get(..self.panel.length as usize)?;
        read_state(front).ok()
    }

    /// Writes the place and the partner, beginning with any of their registers, and mostly those alone that
    /// have to change.
    pub fn press(&mut self, dice: &mut Dice, (place, partner): Choice) {
        let [a, b] = place.to_be_bytes();
        let [c, d] = partner.to_be_bytes();
        let first = dice.below(4);
        for turn in 0..4 {
            let index = (first + turn) % 4;
            let (address, value) = (PLACE + index as u8, [a, b, c, d][index]);
            if self.panel.read(address) != value || dice.one_in(6) {
                self.add(Access::Write(address, value, small_room(dice)));
            }
        }
    }

    /// Asks for a step into so long a second buffer.
    pub fn ask(&mut self, room: usize) {
        self.add(Access::Write(COMMAND, STEP, room));
    }

    pub fn acknowledge(&mut self) {
        self.add(Access::Write(COMMAND, ACKNOWLEDGE, 0));
    }
}

/// The length of a second buffer of a write that is mostly no step.
fn small_room(dice: &mut Dice) -> usize {
    if dice.one_in(50) {
        LONGEST
    } else {
        dice.below(60)
    }
}

/// Any byte, a small one as often as all others.
fn any_byte(dice: &mut Dice) -> u8 {
    let limit = if dice.one_in(2) { 16 } else { 256 };
    dice.below(limit) as u8
}

fn any_bytes<const COUNT: usize>(dice: &mut Dice) -> [u8; COUNT] {
    std::array::from_fn(|_| dice.below(256) as u8)
}

/// Any record.
fn any_panel(dice: &mut Dice) -> Panel {
    Panel {
        length: u32::from_be_bytes(any_bytes(dice)),
        registers: any_bytes(dice),
    }
}

/// An access that leaves the place and the partner.
fn any_quiet_access(dice: &mut Dice) -> Access {
    let room = small_room(dice);
    match dice.below(12) {
        0..4 => Access::Read(any_byte(dice)),
        4 | 5 => Access::Line,
        6 => Access::Write(ENABLE, dice.below(8) as u8, room),
        7 => Access::Write(ENABLE, any_byte(dice), room),
        8 => Access::Write(COMMAND, ACKNOWLEDGE, room),
        9 => Access::Write(COMMAND, dice.between(2, 255) as u8, room),
        10 => {
            let address = dice.pick(&[1, 3, 8, 9, 10, 11, 12, 13, 14, 15]);
            Access::Write(address, any_byte(dice), room)
        }
        _ => Access::Write(dice.between(16, 255) as u8, any_byte(dice), room),
    }
}

/// An access of any kind but a start.
fn any_access(dice: &mut Dice) -> Access {
    match dice.below(8) {
        0 => {
            let address = any_byte(dice);
            let value = any_byte(dice);
            Access::Write(address, value, small_room(dice))
        }
        1 => {
            let address = dice.between(4, 7) as u8;
            Access::Write(address, any_byte(dice), small_room(dice))
        }
        _ => any_quiet_access(dice),
    }
}

/// A choice on the state: mostly one that can act, with a partner that it has, or none; else another partner,
/// or any place.
fn any_choice(dice: &mut Dice, state: Option<&State>) -> Choice {
    let Some(state) = state else {
        let partner = dice.pick(&[0, 1, 2, NO_PARTNER]);
        return (dice.below(5) as u16, partner);
    };
    let places = acting_places(state);
    let count = paths(state).len() + 2;
    let any = |dice: &mut Dice| {
        let far = dice.below(65_536) as u16;
        if dice.one_in(20) {
            far
        } else {
            dice.below(count) as u16
        }
    };
    if places.is_empty() || dice.one_in(12) {
        let place = any(dice);
        let partner = any(dice);
        return (place, dice.pick(&[partner, NO_PARTNER]));
    }
    let (place, partners) = any_place(dice, state, &places);
    let wants_other = dice.one_in(12);
    if partners.is_empty() != wants_other {
        (place, NO_PARTNER)
    } else if wants_other || partners.is_empty() {
        (place, any(dice))
    } else {
        (place, dice.pick(&partners))
    }
}

/// One of the places, with its partners; of a few one that has any is taken first.
fn any_place(dice: &mut Dice, state: &State, places: &[u16]) -> (u16, Vec<u16>) {
    let mut found = (dice.pick(places), Vec::new());
    for _ in 0..dice.between(1, 8) {
        let place = dice.pick(places);
        found = (place, partner_places(state, place));
        if !found.1.is_empty() {
            break;
        }
    }
    found
}

/// The length of the second buffer of a step: mostly long enough for all that the state's buffer holds, else
/// around the length of the result or of the state, shorter, empty or very long.
fn any_room(dice: &mut Dice, making: &Making, state: Option<&State>, choice: Choice) -> usize {
    let buffer = making.state.len();
    let length = (making.panel.length as usize).min(VERY_LONG);
    let room = match dice.below(24) {
        0 => 0,
        1 => dice.below(length.max(1)),
        2 => length,
        3 => length + dice.below(40),
        4..7 => {
            let (place, partner) = choice;
            let after = state.and_then(|state| advance(state, place, partner).ok());
            let length = after.map_or(length, |(_, after)| after.encode().len());
            (length + dice.below(3)).max(1) - 1
        }
        7 => LONGEST,
        8 if dice.one_in(4) => VERY_LONG,
        9..14 => buffer,
        _ => buffer + dice.below(40),
    };
    room.min(VERY_LONG)
}

/// Goes on with a series for so many steps, with other accesses between them, or until nothing has been able
/// to act for a few.
fn go_on(dice: &mut Dice, making: &mut Making, steps: usize) {
    let mut idle = 0;
    for _ in 0..steps {
        for _ in 0..dice.below(4) {
            making.add(any_access(dice));
        }
        if dice.one_in(40) {
            making.add(Access::Start(making.panel.length));
        }
        let state = making.present();
        let choice = any_choice(dice, state.as_ref());
        making.press(dice, choice);
        if dice.one_in(3) {
            making.add(any_quiet_access(dice));
        }
        making.ask(any_room(dice, making, state.as_ref(), choice));
        // The flags are polled, or the line is, and the answer is read.
        making.add(dice.pick(&[Access::Read(FLAGS), Access::Line]));
        for _ in 0..dice.below(3) {
            let address = dice.pick(&[FLAGS, REFUSAL, RULE, WEIGHT, WEIGHT + 1]);
            making.add(Access::Read(address));
        }
        if !dice.one_in(3) {
            making.acknowledge();
        }
        idle += usize::from(state.is_none_or(|state| acting_places(&state).is_empty()));
        if idle > 1 {
            break;
        }
    }
}

/// A buffer with the bytes in front: as long, a little longer, far longer, or now and then too short for
/// them.
fn any_buffer(dice: &mut Dice, bytes: &[u8]) -> Vec<u8> {
    let length = bytes.len();
    let more = match dice.below(16) {
        0 => {
            let fewer = dice.below(length.min(20) + 1);
            return bytes[..length - fewer].to_vec();
        }
        1 | 2 => 0,
        3 | 4 => dice.below(20),
        5..9 => dice.below(300),
        9..15 => length + dice.below(300),
        _ => LONGEST,
    };
    [bytes, &dice.bytes(more)].concat()
}

/// Lengths of a panel on a buffer and a state of these lengths: within the buffer and past its end, as long
/// as a state may be and longer, and so long that they do not fit in fewer bytes.
fn odd_lengths(buffer: usize, state: usize) -> [u32; 20] {
    let [buffer, state] = [buffer, state].map(|length| length as u32);
    let longest = LONGEST as u32;
    [
        0,
        1,
        state.max(1) - 1,
        state,
        state + 1,
        buffer.max(1) - 1,
        buffer,
        buffer + 1,
        longest - 1,
        longest,
        longest + 1,
        65_535,
        65_536,
        65_536 + state,
        (1 << 24) + state,
        (1 << 31) - 1,
        1 << 31,
        (1 << 31) + state,
        u32::MAX - 1,
        u32::MAX,
    ]
}

/// Plays of random states and loaded jobs from a start, mostly with the length of the state.
pub fn plays(dice: &mut Dice, count: usize, visit: Watcher) {
    for turn in 0..count {
        let bytes = first_state(dice, turn).encode();
        let mut making = Making::new(any_panel(dice), any_buffer(dice, &bytes));
        let length = if dice.one_in(16) {
            dice.pick(&odd_lengths(making.state.len(), bytes.len()))
        } else {
            bytes.len() as u32
        };
        making.add(Access::Start(length));
        let steps = dice.pick(&[8, 30, 60]);
        go_on(dice, &mut making, steps);
        visit("play", &making.series);
    }
}

/// Short plays of small trees with an action among blocked ones, some of which answer it.
pub fn among_blocked(dice: &mut Dice, trees: &mut Dice, visit: Watcher) {
    let mut turn = 0;
    let mut show = |_: &'static str, bytes: &[u8], _: &[Choice]| {
        turn += 1;
        if turn % 5 > 0 {
            return;
        }
        let buffer = [bytes, &dice.bytes(40)].concat();
        let mut making = Making::new(any_panel(dice), buffer);
        making.add(Access::Start(bytes.len() as u32));
        go_on(dice, &mut making, 4);
        visit("actions among blocked ones", &making.series);
    };
    crowded_trees(trees, &mut show);
    messages(trees, &mut show);
}

/// Series from any record, whose length is mostly that of the state.
pub fn any_records(dice: &mut Dice, count: usize, visit: Watcher) {
    for turn in 0..count {
        let bytes = first_state(dice, turn).encode();
        let mut buffer = any_buffer(dice, &bytes);
        if turn % 50 == 0 {
            buffer.resize(VERY_LONG, 0xA5);
        }
        let mut panel = any_panel(dice);
        if !dice.one_in(16) {
            let odd = dice.pick(&odd_lengths(buffer.len(), bytes.len()));
            panel.length = if dice.one_in(3) {
                odd
            } else {
                bytes.len() as u32
            };
        }
        let mut making = Making::new(panel, buffer);
        if dice.one_in(2) {
            // The command, place and partner that stand there.
            making.ask(bytes.len());
        }
        go_on(dice, &mut making, 12);
        visit("any record", &making.series);
    }
}

/// What is mostly no accepted state, with a length that is its own or nearly.
pub fn case(dice: &mut Dice, input: &[u8], visit: Watcher) {
    let buffer = any_buffer(dice, input);
    let mut making = Making::new(any_panel(dice), buffer);
    for change in [0, dice.below(5)] {
        let length = (input.len() + change).saturating_sub(2 * change / 3);
        making.add(Access::Start(length as u32));
        go_on(dice, &mut making, 2);
    }
    visit("cases", &making.series);
}

/// Every value to every address on a small state, from a start and from any record, with all addresses read
/// at the end of each series.
pub fn every_address_and_value(dice: &mut Dice, visit: Watcher) {
    let state = loaded(printed_job()).encode();
    let length = state.len() as u32;
    for part in 0..2 * PARTS {
        let mut panel = any_panel(dice);
        panel.length = length;
        let mut making = Making::new(panel, [&state[..], &[0xEE; 60]].concat());
        if part < PARTS {
            making.add(Access::Start(length));
        }
        for turn in (part % PARTS..=u16::MAX).step_by(usize::from(PARTS)) {
            // An odd factor leads to every number once.
            let [address, value] = turn.wrapping_mul(0x9E37).to_be_bytes();
            let room = dice.below(100);
            making.add(Access::Write(address, value, room));
            if dice.one_in(4) {
                making.add(any_quiet_access(dice));
            }
            if dice.one_in(60) {
                let state = making.present();
                let choice = any_choice(dice, state.as_ref());
                making.press(dice, choice);
                making.ask(120);
            }
        }
        for address in 0..=255 {
            making.add(Access::Read(address));
        }
        visit("every address and value", &making.series);
    }
}

/// In how many series all addresses and values come.
const PARTS: u16 = 64;

/// Processes that go one by one, of weights around those where a byte of the pair is 0.
pub fn weights(dice: &mut Dice, visit: Watcher) {
    for count in [1, 2, 3, 255, 256, 257, 258, 512, 513] {
        let null = Element::Process(Process::Null);
        let bytes = root(0, vec![null; count]).encode();
        let mut making = Making::new(any_panel(dice), bytes.clone());
        making.add(Access::Start(bytes.len() as u32));
        for _ in 0..3 {
            making.press(dice, (0, NO_PARTNER));
            making.ask(bytes.len());
            for address in [FLAGS, WEIGHT, WEIGHT + 1] {
                making.add(Access::Read(address));
            }
        }
        visit("weights", &making.series);
    }
}

/// States that grow by a step, at the root and in a cabinet, and one that becomes shorter, in buffers of many lengths,
/// with many lengths of the panel and of the second buffer.
pub fn lengths(dice: &mut Dice, visit: Watcher) {
    let growing = small_growing();
    let mut in_cabinet = small_growing();
    in_cabinet.elements = vec![ambient(CABINET, in_cabinet.elements)];
    let mut shrinking = loaded(printed_job());
    for (place, partner) in PRINTED.into_iter().take(6) {
        let stepped = advance(&shrinking, place, partner);
        shrinking = stepped.expect("the session goes on").1;
    }
    for (state, choice) in [
        (growing, (0, NO_PARTNER)),
        (in_cabinet, (1, NO_PARTNER)),
        (shrinking, PRINTED[6]),
    ] {
        let (place, partner) = choice;
        let (_, after) = advance(&state, place, partner).expect("the step is good");
        let (bytes, result) = (state.encode(), after.encode().len());
        let length = bytes.len();
        for buffer in [0, 1, length - 1, length, length + 1, result - 1, result]
            .into_iter()
            .chain([result + 1, 300, LONGEST, LONGEST + 1, VERY_LONG])
        {
            let mut lent = bytes.clone();
            lent.resize(buffer, 0x5A);
            for start in odd_lengths(buffer, length) {
                let mut making = Making::new(any_panel(dice), lent.clone());
                for room in [0, result - 1, result, result + 1].into_iter().chain([
                    result + 2,
                    result + 30,
                    length - 1,
                    length,
                    buffer,
                    VERY_LONG,
                ]) {
                    making.add(Access::Start(start));
                    making.press(dice, choice);
                    making.ask(room);
                    making.add(Access::Read(REFUSAL));
                    if told(&making.panel).is_ok() {
                        // The buffer is to hold the first state again.
                        visit("lengths", &making.series);
                        making = Making::new(any_panel(dice), lent.clone());
                    }
                }
                visit("lengths", &making.series);
            }
        }
    }
}

/// The choices of the printed session.
pub const PRINTED: [Choice; 11] = [
    (1, NO_PARTNER),
    (1, NO_PARTNER),
    (2, NO_PARTNER),
    (1, NO_PARTNER),
    (3, NO_PARTNER),
    (4, 2),
    (2, NO_PARTNER),
    (3, NO_PARTNER),
    (2, NO_PARTNER),
    (1, NO_PARTNER),
    (0, NO_PARTNER),
];

/// The choices of its run from the state with a bare root, where all places are one lower and no cabinet is blocked at
/// last.
pub fn printed_bare() -> Vec<Choice> {
    let lower = |place: u16| {
        if place == NO_PARTNER {
            place
        } else {
            place - 1
        }
    };
    let choices = PRINTED.iter().take(PRINTED.len() - 1);
    choices
        .map(|(place, partner)| (lower(*place), lower(*partner)))
        .collect()
}

/// Names, depth, nesting and length at their limits, and long states.
pub fn states_at_the_limits(dice: &mut Dice, visit: Watcher) {
    let mut turn = 0;
    limits(&mut |_, state, choices| {
        // Of long states one choice each.
        turn += 1;
        let choices = if state.len() > 2_000 {
            &choices[turn % choices.len()..][..1]
        } else {
            choices
        };
        for choice in choices {
            let buffer = match dice.below(4) {
                0 => any_buffer(dice, state),
                1 => [state, &[0xEE; 40]].concat(),
                _ => {
                    let length = dice.pick(&[LONGEST, LONGEST + 1, VERY_LONG]);
                    let rest = length.saturating_sub(state.len());
                    [state, &vec![0xEE; rest]].concat()
                }
            };
            let mut making = Making::new(any_panel(dice), buffer);
            making.add(Access::Start(state.len() as u32));
            making.press(dice, *choice);
            let near = dice.pick(&[LONGEST - 1, LONGEST, LONGEST + 1]);
            making.ask(dice.pick(&[making.state.len(), near, VERY_LONG]));
            making.add(Access::Read(FLAGS));
            visit("limits of a step", &making.series);
        }
    });
}

/// Jobs that go on for ever, ones that meet a limit, and states that do, in buffers that they outgrow and in
/// long ones.
fn growing(dice: &mut Dice, visit: Watcher) {
    let endless = endless_jobs().into_iter().map(|(_, job)| job);
    let limited = limited_jobs().into_iter().map(|(_, job)| job);
    let jobs = endless.chain([asking_job(), printed_job()]).chain(limited);
    let states = jobs.map(loaded);
    let at_names = (4_094..=4_096).map(state_at_name);
    for state in states.chain(at_names) {
        let bytes = state.encode();
        for room in [bytes.len() + 30, 2 * bytes.len(), LONGEST, LONGEST + 100] {
            let mut buffer = bytes.clone();
            buffer.resize(room.max(bytes.len()), 0xEE);
            let mut making = Making::new(any_panel(dice), buffer);
            making.add(Access::Start(bytes.len() as u32));
            go_on(dice, &mut making, 150);
            visit("growing states", &making.series);
        }
    }
}

/// Plays of jobs in which the cabinet takes part.
fn in_a_cabinet(dice: &mut Dice, visit: Watcher) {
    let by_hand = cabinet_jobs().into_iter().chain(twin_jobs());
    let mut jobs: Vec<Job> = by_hand.map(|(_, job)| job).collect();
    jobs.extend((0..THROWN).map(|_| thrown_job(dice)));
    for job in jobs {
        let bytes = loaded(job).encode();
        let mut making = Making::new(any_panel(dice), any_buffer(dice, &bytes));
        making.add(Access::Start(bytes.len() as u32));
        go_on(dice, &mut making, 40);
        visit("decks and their cabinet", &making.series);
    }
}

/// How many jobs are thrown for this in a round.
const THROWN: usize = 100;

/// Steps of states that nest around the limits, at places that could act.
pub fn nested(dice: &mut Dice, seed: u64, rounds: usize, visit: Watcher) {
    let mut turn = 0;
    every_nested(seed, rounds, &mut |_, state, calls| {
        turn += 1;
        let is_step = |call: &Call| matches!(call, Call::Step(..));
        if turn % NESTED > 0 || !calls.iter().any(is_step) {
            return;
        }
        let mut making = Making::new(any_panel(dice), any_buffer(dice, state));
        making.add(Access::Start(state.len() as u32));
        for call in calls {
            if let Call::Step(place, partner) = call {
                making.press(dice, (*place, *partner));
                making.ask(state.len() + dice.below(40));
                making.add(Access::Read(REFUSAL));
            }
        }
        visit("nested states", &making.series);
    });
}

/// Of these states every so many is stepped.
const NESTED: usize = 5;

/// What was counted for a group of series.
#[derive(Default)]
pub struct Tally {
    pub series: usize,
    pub starts: usize,
    pub reads: usize,
    pub lines: usize,
    pub writes: usize,
    pub differences: usize,
    /// How often each number was due to a step; 0 is acceptance.
    pub numbers: BTreeMap<u8, usize>,
    /// How often each rule was due.
    pub rules: BTreeMap<u8, usize>,
}

impl Tally {
    fn count(&mut self, access: Access, due: &Panel) {
        match access {
            Access::Start(_) => self.starts += 1,
            Access::Read(_) => self.reads += 1,
            Access::Line => self.lines += 1,
            Access::Write(..) => self.writes += 1,
        }
        if access.is_step() {
            let answer = told(due);
            *self.numbers.entry(answer.err().unwrap_or(0)).or_default() += 1;
            if let Ok(rule) = answer {
                *self.rules.entry(rule).or_default() += 1;
            }
        }
    }

    pub fn accesses(&self) -> usize {
        self.starts + self.reads + self.lines + self.writes
    }

    /// How many steps were asked for.
    pub fn steps(&self) -> usize {
        self.numbers.values().sum()
    }

    /// How many of them were accepted.
    pub fn accepted(&self) -> usize {
        self.numbers.get(&0).copied().unwrap_or(0)
    }
}

impl fmt::Display for Tally {
    fn fmt(&self, out: &mut fmt::Formatter) -> fmt::Result {
        write!(
            out,
            "{} series, {} accesses ({} starts, {} reads, {} looks at the line, {} writes), {} steps asked, {} accepted, {} differences; answers {}",
            self.series,
            self.accesses(),
            self.starts,
            self.reads,
            self.lines,
            self.writes,
            self.steps(),
            self.accepted(),
            self.differences,
            joined(&self.numbers)
        )?;
        if !self.rules.is_empty() {
            write!(out, "; rules {}", joined(&self.rules))?;
        }
        Ok(())
    }
}

/// The record between bytes where nothing may be written.
#[repr(C)]
#[derive(Clone, Copy, PartialEq, Eq)]
struct Guarded {
    before: [u8; MARGIN],
    panel: Panel,
    behind: [u8; MARGIN],
}

/// What is lent to one side: the record and both buffers, with their margins.
struct Lent {
    record: Guarded,
    state: Vec<u8>,
    spare: Vec<u8>,
}

impl Lent {
    fn new() -> Lent {
        let guard = std::array::from_fn(|index| 0xC3 ^ index as u8);
        Lent {
            record: Guarded {
                before: guard,
                panel: Panel::default(),
                behind: guard,
            },
            state: Vec::new(),
            spare: Vec::new(),
        }
    }

    /// Makes an access by a side, the second buffer being these bytes, which have margins.
    fn access(&mut self, side: Side, access: Access, spare: &[u8]) -> u8 {
        self.spare.clear();
        self.spare.extend_from_slice(spare);
        let inside = |bytes: &[u8]| MARGIN..bytes.len() - MARGIN;
        let (state, spare) = (inside(&self.state), inside(&self.spare));
        let state = black_box(&mut self.state[state]);
        let spare = black_box(&mut self.spare[spare]);
        side(access, black_box(&mut self.record.panel), state, spare)
    }

    fn copy_from(&mut self, other: &Lent) {
        self.record = other.record;
        self.state.clone_from(&other.state);
        self.spare.clone_from(&other.spare);
    }
}

/// The comparison of a side with the second implementation.
pub struct PanelComparison {
    side: Side,
    pub groups: BTreeMap<&'static str, Tally>,
    pub all: Tally,
    due: Lent,
    found: Lent,
    /// Bytes that the second buffers and the margins are filled with, each from another place in them.
    filling: Vec<u8>,
    turn: usize,
}

impl PanelComparison {
    pub fn new(side: Side) -> PanelComparison {
        let mut dice = Dice::new(Counts::One, 1);
        PanelComparison {
            side,
            groups: BTreeMap::new(),
            all: Tally::default(),
            due: Lent::new(),
            found: Lent::new(),
            filling: dice.bytes(VERY_LONG + 2 * MARGIN + FILLINGS),
            turn: 0,
        }
    }

    /// Goes through every series.
    pub fn go_through(&mut self, seed: u64, rounds: usize) {
        every_series(seed, rounds, &mut |group, series| {
            self.compare(group, series)
        });
    }

    /// Makes the accesses of a series by both sides, and compares after each of them.
    pub fn compare(&mut self, group: &'static str, series: &Series) {
        self.all.series += 1;
        let tally = self.groups.entry(group).or_default();
        tally.series += 1;
        let margin = &self.filling[self.turn % FILLINGS..][..MARGIN];
        for lent in [&mut self.due, &mut self.found] {
            lent.record.panel = series.panel;
            lent.state.clear();
            for part in [margin, &series.state, margin] {
                lent.state.extend_from_slice(part);
            }
        }
        for (number, access) in series.accesses.iter().enumerate() {
            self.turn += 1;
            let length = access.room() + 2 * MARGIN;
            let spare = &self.filling[self.turn * 7 % FILLINGS..][..length];
            let before = self.due.record.panel;
            let due = self.due.access(second, *access, spare);
            let read = self.found.access(self.side, *access, spare);
            let different = differences(&self.due, due, &self.found, read);
            for tally in [&mut *tally, &mut self.all] {
                tally.count(*access, &self.due.record.panel);
                tally.differences += different.len();
            }
            if different.is_empty() {
                continue;
            }
            if self.all.differences <= SHOWN {
                let count = self.all.series;
                println!("difference in series {count} ({group}), access {number}: {access:?}");
                println!("  {}", different.join("; "));
                println!("  {} bytes: {before:02x?}", series.state.len());
                println!("  the buffer at first: {}", hexadecimal(&series.state));
            }
            self.found.copy_from(&self.due);
        }
    }
}

/// From how many places the second buffers are filled.
const FILLINGS: usize = 1_021;

/// What differs after an access.
fn differences(due: &Lent, due_read: u8, found: &Lent, read: u8) -> Vec<String> {
    let mut texts = Vec::new();
    if read != due_read {
        texts.push(format!("expected {due_read} to be read, found {read}"));
    }
    if found.record.panel != due.record.panel {
        let (due, found) = (due.record.panel, found.record.panel);
        texts.push(format!("expected {due:02x?}, found {found:02x?}"));
    }
    if (found.record.before, found.record.behind) != (due.record.before, due.record.behind) {
        texts.push("bytes beside the record were changed".to_string());
    }
    for (name, due, found) in [
        ("the state's buffer", &due.state, &found.state),
        ("the second buffer", &due.spare, &found.spare),
    ] {
        if due != found {
            let differing = (0..due.len()).find(|index| due[*index] != found[*index]);
            let index = differing.expect("the buffers differ");
            let offset = index as isize - MARGIN as isize;
            let (due, found) = (due[index], found[index]);
            texts.push(format!(
                "at {offset} in {name} expected {due:02x}, found {found:02x}"
            ));
        }
    }
    texts
}

#[cfg(test)]
mod tests {
    use super::*;

    #[test]
    fn every_byte_of_what_is_lent_is_compared() {
        let lent = || {
            let mut lent = Lent::new();
            lent.state = vec![0; 2 * MARGIN + 5];
            lent.spare = vec![0; 2 * MARGIN];
            lent
        };
        assert!(differences(&lent(), 7, &lent(), 7).is_empty());
        assert_eq!(differences(&lent(), 7, &lent(), 8).len(), 1);
        let changes: [&dyn Fn(&mut Lent); 10] = [
            &|lent| lent.record.before[0] ^= 1,
            &|lent| lent.record.before[MARGIN - 1] ^= 1,
            &|lent| lent.record.panel.length ^= 1 << 31,
            &|lent| lent.record.panel.registers[15] ^= 1,
            &|lent| lent.record.behind[MARGIN - 1] ^= 1,
            &|lent| lent.state[0] ^= 1,
            &|lent| lent.state[MARGIN + 5] ^= 1,
            &|lent| lent.state[2 * MARGIN + 4] ^= 1,
            &|lent| lent.spare[0] ^= 1,
            &|lent| lent.spare[2 * MARGIN - 1] ^= 1,
        ];
        for change in changes {
            let mut found = lent();
            change(&mut found);
            assert_eq!(differences(&lent(), 7, &found, 7).len(), 1);
        }
    }
}
