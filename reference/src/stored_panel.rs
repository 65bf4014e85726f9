// Stored cases of the front panel: series of accesses from a start, each with what is due.

use crate::accesses::{
    among_blocked, case, plays, printed_bare, second, told, Access, Making, Series, Side, PRINTED,
};
use crate::cabinets::lent_deck;
use crate::cases::{bare, every_case, loaded};
use crate::choices::limits;
use crate::comparison::Call;
use crate::counts::{two_counts, WITH_COUNT};
use crate::deepest::deepest_meeting;
use crate::dice::{Counts, Dice, Thrown};
use crate::machine::{acting_places, advance, lowest_choice, lowest_partner, step};
use crate::machine::{Choice, NO_PARTNER};
use crate::nested::{every_nested, ANY_NESTING};
use crate::panel::*;
use crate::refusal::{BLOCKED_PAIR, RESULT_TOO_DEEP, TOO_DEEP, WRONG_COUNT};
use crate::sample::Sample;
use crate::shapes::*;
use crate::spelling::{read_nested_with_pairs, read_state, Spelled};
use crate::spelling::{LISTED_NESTING, MOST_NAMES, NESTING};
use crate::stored::BLANK;
use crate::tree::{Element, Kind, Process};
use std::collections::{BTreeMap, BTreeSet};

/// The number of the call.
pub const CALL: u16 = 6;

/// The longest buffer of a state and second buffer of a case, and the longest result.
pub const LONGEST_BUFFER: usize = 16_000;
pub const LONGEST_RESULT: usize = 40_000;

/// How many bytes an access has.
pub const ACCESS: usize = 5;

/// What the samples have at most: bytes of the state's buffer, and accesses.
const SAMPLED_BUFFER: usize = 110;
const SAMPLED_ACCESSES: usize = 33;

/// How many plays the sample is taken from, and how often each rule and each refusal is to come in it.
const PLAYS: usize = 3_000;
const OFTEN: usize = 7;

/// The seed of the sampled plays.
const SEED: u64 = 1;

/// Accesses from a panel that was started with the length 0, with what the state's buffer holds at first; the
/// length of the whole second buffer; and what is due.
#[derive(Clone)]
pub struct StoredSeries {
    accesses: Vec<Access>,
    state: Vec<u8>,
    room: usize,
    result: Vec<u8>,
}

impl StoredSeries {
    /// The case with what the second implementation gives.
    fn new(accesses: Vec<Access>, state: Vec<u8>, room: usize) -> StoredSeries {
        assert!(state.len().max(room) <= LONGEST_BUFFER);
        let result = result(second, &accesses, &state, room);
        assert!(result.len() <= LONGEST_RESULT);
        StoredSeries {
            accesses,
            state,
            room,
            result,
        }
    }

    /// Ten words, the accesses, the state's buffer and the result. The words are: group, call, length of the
    /// accesses and of the state's buffer, length of the accesses, 0, length of the second buffer, three times
    /// 0, length of the result.
    pub fn encode(&self, group: u16) -> Vec<u8> {
        let accesses: Vec<u8> = self.accesses.iter().flat_map(|one| spelled(*one)).collect();
        let input = accesses.len() + self.state.len();
        let mut out = Vec::new();
        for word in [
            usize::from(group),
            usize::from(CALL),
            input,
            accesses.len(),
            0,
            self.room,
            0,
            0,
            0,
            self.result.len(),
        ] {
            let word = u16::try_from(word).expect("a number of a case is a word");
            out.extend(word.to_be_bytes());
        }
        out.extend(accesses);
        out.extend(&self.state);
        out.extend(&self.result);
        out
    }
}

/// Makes the accesses by a side. Gives what is due: a byte for each access, which is what was read, or 0; both
/// buffers; the length, four bytes; and the registers. Every byte of the second buffer is A5 at first. A write
/// is lent as much of its front as it asks for.
pub fn result(side: Side, accesses: &[Access], state: &[u8], room: usize) -> Vec<u8> {
    let mut panel = Panel::started(0);
    let mut state = state.to_vec();
    let mut spare = vec![BLANK; room];
    let mut result = Vec::new();
    for access in accesses {
        let lent = access.room().min(room);
        result.push(side(*access, &mut panel, &mut state, &mut spare[..lent]));
    }
    result.extend(state);
    result.extend(spare);
    result.extend(panel.length.to_be_bytes());
    result.extend(panel.registers);
    result
}

/// An access in five bytes: its kind, address, value, and two bytes that are the length lent to a write, or
/// that of a start.
fn spelled(access: Access) -> [u8; ACCESS] {
    let word = |number: usize| {
        let number = u16::try_from(number).expect("a length of a case is a word");
        number.to_be_bytes()
    };
    match access {
        Access::Write(address, value, room) => {
            let [high, low] = word(room);
            [0, address, value, high, low]
        }
        Access::Read(address) => [1, address, 0, 0, 0],
        Access::Line => [2, 0, 0, 0, 0],
        Access::Start(length) => {
            let [high, low] = word(length as usize);
            [3, 0, 0, high, low]
        }
    }
}

/// The access in these five bytes, if they are one.
pub fn read_access(bytes: &[u8]) -> Option<Access> {
    let [kind, address, value, high, low] = *bytes else {
        return None;
    };
    let number = u16::from_be_bytes([high, low]);
    match kind {
        0 => Some(Access::Write(address, value, usize::from(number))),
        1 => Some(Access::Read(address)),
        2 => Some(Access::Line),
        3 => Some(Access::Start(u32::from(number))),
        _ => None,
    }
}

/// All cases of the panel: those made by hand, and samples.
pub fn panel_cases() -> Vec<StoredSeries> {
    let mut cases = by_hand();
    cases.extend(sampled_plays());
    cases.extend(sampled_cases());
    cases.extend(in_the_cabinet());
    cases.extend(nested_states());
    cases
}

/// Cases that expect what is wrong in one byte: a flag at the end, a register that is read, the last byte
/// of the second buffer, and the refusal of a state that is too deep. The program that makes the accesses again has to notice every one of them.
pub fn panel_controls(cases: &[StoredSeries]) -> Vec<StoredSeries> {
    let rule = Access::Read(RULE);
    let wrong = |change: &dyn Fn(&mut StoredSeries)| {
        // The printed session stands first.
        let mut case = cases[0].clone();
        change(&mut case);
        case
    };
    let registers = |case: &StoredSeries| case.result.len() - REGISTERS;
    vec![
        wrong(&|case| {
            let flags = registers(case) + usize::from(FLAGS);
            case.result[flags] ^= ALL_BLOCKED;
        }),
        wrong(&|case| {
            let index = case.accesses.iter().position(|access| *access == rule);
            case.result[index.expect("the rule is read")] ^= 1;
        }),
        wrong(&|case| {
            let spare_end = registers(case) - 4;
            case.result[spare_end - 1] ^= 1;
        }),
        {
            // Those that nest around the limits stand last.
            let refusal = |case: &StoredSeries| registers(case) + usize::from(REFUSAL);
            let is_too_deep = |case: &&StoredSeries| case.result[refusal(case)] == TOO_DEEP;
            let case = cases.iter().rfind(is_too_deep);
            let mut case = case.expect("one is too deep").clone();
            let index = refusal(&case);
            case.result[index] = RESULT_TOO_DEEP;
            case
        },
    ]
}

/// A case that is made by hand.
struct Hand {
    making: Making,
    room: usize,
}

impl Hand {
    /// A buffer that holds this, with so many bytes behind it, a second one of so many, and a start with the
    /// length.
    fn new(state: &[u8], behind: usize, room: usize) -> Hand {
        let mut buffer = state.to_vec();
        buffer.resize(state.len() + behind, 0xEE);
        let mut making = Making::new(Panel::started(0), buffer);
        making.add(Access::Start(state.len() as u32));
        Hand { making, room }
    }

    /// The like that also starts again with another length.
    fn with_length(mut self, length: u32) -> Hand {
        self.making.add(Access::Start(length));
        self
    }

    fn write(&mut self, address: u8, value: u8) {
        let room = self.room;
        self.making.add(Access::Write(address, value, room));
    }

    fn press(&mut self, (place, partner): Choice) {
        let bytes = [place.to_be_bytes(), partner.to_be_bytes()].concat();
        for (address, value) in (PLACE..).zip(bytes) {
            self.write(address, value);
        }
    }

    fn read(&mut self, addresses: impl IntoIterator<Item = u8>) {
        for address in addresses {
            self.making.add(Access::Read(address));
        }
    }

    fn line(&mut self) {
        self.making.add(Access::Line);
    }

    /// Asks for the step, with so much of the second buffer lent, and reads all that tells of it.
    fn step_into(&mut self, choice: Choice, room: usize) {
        self.press(choice);
        self.making.ask(room);
        self.line();
        self.read([FLAGS, REFUSAL, RULE, WEIGHT, WEIGHT + 1]);
    }

    fn step(&mut self, choice: Choice) {
        self.step_into(choice, self.room);
    }

    fn acknowledge(&mut self) {
        self.write(COMMAND, ACKNOWLEDGE);
        self.read([FLAGS]);
        self.line();
    }

    fn done(self) -> StoredSeries {
        let series = self.making.series;
        StoredSeries::new(series.accesses, series.state, self.room)
    }
}

const ALONE: Choice = (0, NO_PARTNER);

/// Every rule of the panel, one case or a few for each.
fn by_hand() -> Vec<StoredSeries> {
    let mut cases = Vec::new();
    let session = bare(printed_job()).encode();
    // The adapter and the deck at the root, with all flags that tell of a step enabled, with none, and with all
    // blocked.
    for enable in [6, 0, 1] {
        let mut hand = Hand::new(&session, 8, 60);
        hand.write(ENABLE, enable);
        for choice in printed_bare() {
            hand.step(choice);
            hand.acknowledge();
        }
        // Nothing can act any more; bit 0 stays until a start.
        hand.step(ALONE);
        hand.acknowledge();
        hand.read(0..16);
        if enable == 0 {
            hand.making.add(Access::Start(hand.making.panel.length));
            hand.read([FLAGS, REFUSAL, RULE]);
        }
        cases.push(hand.done());
    }
    // Never acknowledged, with refused steps between the accepted ones.
    let mut hand = Hand::new(&session, 8, 60);
    hand.write(ENABLE, 4);
    for (place, partner) in printed_bare() {
        hand.step((place, partner));
        hand.step((place, 77));
        hand.step((99, NO_PARTNER));
    }
    cases.push(hand.done());
    cases.extend(registers_by_hand(&session));
    cases.extend(lengths_by_hand());
    cases.extend(states_by_hand());
    cases
}

/// All addresses, values and enable bits on the printed state.
fn registers_by_hand(session: &[u8]) -> Vec<StoredSeries> {
    let mut cases = Vec::new();
    // Every address is written, and read again; not the step.
    for value in [0xFF, 0x5A] {
        let mut hand = Hand::new(session, 0, 20);
        for address in 1..=255u8 {
            hand.write(address, address.wrapping_mul(3) ^ value);
        }
        hand.read(0..=255);
        cases.push(hand.done());
    }
    // Every value to the command after a step and after a refusal, and to every register that takes values.
    for choice in [ALONE, (7, NO_PARTNER)] {
        let mut hand = Hand::new(session, 8, 60);
        hand.step(choice);
        for value in (0..=255).filter(|value| !(1..=2).contains(value)) {
            hand.write(COMMAND, value);
        }
        hand.read([COMMAND, FLAGS]);
        hand.acknowledge();
        cases.push(hand.done());
    }
    for address in [ENABLE, PLACE, PLACE + 1, PARTNER, PARTNER + 1] {
        let mut hand = Hand::new(session, 0, 20);
        for value in [0, 1, 2, 4, 127, 128, 254, 255] {
            hand.write(address, value);
            hand.read([address]);
        }
        cases.push(hand.done());
    }
    // The registers that take none, after a step and after a refusal.
    for choice in [ALONE, (7, NO_PARTNER)] {
        let mut hand = Hand::new(session, 8, 60);
        hand.step(choice);
        for address in [1, 3].into_iter().chain(8..=18).chain([128, 255]) {
            hand.write(address, 0xFF);
            hand.read([address]);
        }
        hand.read(0..16);
        cases.push(hand.done());
    }
    // The line with every three enable bits and some others: nothing told, done, refused, blocked, and both.
    for steps in [&[][..], &[ALONE], &[(7, NO_PARTNER)]] {
        let mut hand = Hand::new(session, 8, 60);
        for choice in steps {
            hand.step(*choice);
        }
        enables(&mut hand);
        cases.push(hand.done());
    }
    for is_refused in [false, true] {
        let mut hand = Hand::new(&nulls(1), 0, 20);
        hand.step(ALONE);
        if is_refused {
            hand.step(ALONE);
        }
        enables(&mut hand);
        hand.acknowledge();
        enables(&mut hand);
        cases.push(hand.done());
    }
    cases
}

/// Looks at the line with many enable bits.
fn enables(hand: &mut Hand) {
    for enable in (0..8).chain([8, 16, 128, 248, 249, 250, 252, 255]) {
        hand.write(ENABLE, enable);
        hand.line();
    }
}

fn nulls(count: usize) -> Vec<u8> {
    root(0, vec![Element::Process(Process::Null); count]).encode()
}

/// Lengths of the panel and of both buffers.
fn lengths_by_hand() -> Vec<StoredSeries> {
    let mut cases = Vec::new();
    let session = bare(printed_job());
    let bytes = session.encode();
    let length = bytes.len();
    // Past the end of the buffer, within it but not the state's, and nothing at all.
    for (behind, start) in [
        (0, length + 1),
        (0, length + 2),
        (0, 32_768),
        (0, 32_769),
        (0, 65_535),
        (9, length + 9),
        (9, length + 10),
        (9, length + 1),
        (9, length - 1),
        (9, 0),
    ] {
        let mut hand = Hand::new(&bytes, behind, 60).with_length(start as u32);
        hand.step(ALONE);
        hand.step((3, 1));
        // A start with the right one makes up for it.
        hand.making.add(Access::Start(length as u32));
        hand.step(ALONE);
        cases.push(hand.done());
    }
    for start in [0, 1, 13] {
        let mut hand = Hand::new(&[], 0, 20).with_length(start);
        hand.step(ALONE);
        cases.push(hand.done());
    }
    // 13 by the second buffer and by the state's, the other one being long enough; and by both.
    let growing = small_growing();
    let (_, after) = advance(&growing, 0, NO_PARTNER).expect("the step is good");
    let (first, result) = (growing.encode(), after.encode().len());
    let grows = result - first.len();
    for (behind, room) in [
        (grows + 5, result - 1),
        (grows + 5, result),
        (grows + 5, result + 1),
        (grows + 5, 0),
        (grows - 1, result + 20),
        (grows, result + 20),
        (grows + 1, result + 20),
        (0, result + 20),
        (grows - 1, result - 1),
        (grows, result),
        (grows, result - 1),
        (grows - 1, result),
    ] {
        let mut hand = Hand::new(&first, behind, result + 25);
        hand.step_into(ALONE, room);
        // Lent more than there is, it is lent all.
        hand.step_into(ALONE, 65_535);
        cases.push(hand.done());
    }
    // A result that is shorter than the state fits in a buffer that the state does not.
    let shorter = nulls(2);
    for room in [0, shorter.len() - 7, shorter.len() - 6, shorter.len()] {
        let mut hand = Hand::new(&shorter, 3, 30);
        hand.step_into((1, NO_PARTNER), room);
        cases.push(hand.done());
    }
    // The second buffer of each write has another length.
    let mut hand = Hand::new(&bytes, 30, 90);
    for (turn, choice) in printed_bare().into_iter().enumerate() {
        hand.step_into(choice, 5 * turn);
        hand.step_into(choice, 90 - turn);
        hand.acknowledge();
    }
    cases.push(hand.done());
    cases
}

/// States in which the registers of place, partner and weight matter, and states at the limits.
fn states_by_hand() -> Vec<StoredSeries> {
    let mut cases = Vec::new();
    // After a start the partner is 0, which is one here and none there.
    let receiver = blocked(Kind::InternalInput, &[1]);
    let sender = unblocked(Kind::ParentOutput, &[1, 0]);
    let meeting = root(2, vec![receiver, ambient(0, vec![sender])]);
    for state in [meeting.encode(), nulls(2)] {
        let mut hand = Hand::new(&state, 8, 60);
        hand.write(PLACE + 1, 2);
        hand.write(COMMAND, STEP);
        hand.read([FLAGS, REFUSAL, RULE]);
        hand.write(PLACE + 1, 0);
        hand.write(COMMAND, STEP);
        hand.read([FLAGS, REFUSAL, RULE]);
        hand.step((0, NO_PARTNER - 1));
        hand.step(ALONE);
        cases.push(hand.done());
    }
    // A place of two bytes, and weights of two bytes, one of which is 0.
    let mut elements = vec![Element::Process(Process::Null); 259];
    elements[0x0102] = ambient(0, vec![]);
    let state = root(1, elements).encode();
    let mut hand = Hand::new(&state, 0, state.len());
    hand.step((0x0102, NO_PARTNER));
    hand.step((0x0201, NO_PARTNER));
    hand.step(ALONE);
    hand.step((0x0100, NO_PARTNER));
    cases.push(hand.done());
    // Two counts that meet, with a partner and with none.
    for kind in WITH_COUNT {
        for (count, other) in [(1, 1), (0, 0), (2, 2), (4, 4), (2, 3)] {
            let state = two_counts(kind, count, other, false);
            let place = acting_places(&state)[0];
            let partner = lowest_partner(&state, place);
            let mut hand = Hand::new(&state.encode(), 0, 250);
            hand.step((place, NO_PARTNER));
            hand.step((place, partner));
            cases.push(hand.done());
        }
    }
    // The last name is taken, then none is left.
    for next in [MOST_NAMES - 1, MOST_NAMES] {
        let process = restriction(restriction(Process::Null));
        let state = root(next, vec![Element::Process(process)]).encode();
        let mut hand = Hand::new(&state, 0, 30);
        hand.step(ALONE);
        hand.step(ALONE);
        cases.push(hand.done());
    }
    // Names, depth and nesting at their limits, and ambients that move.
    let mut sample = Sample::empty();
    limits(&mut |_, state, choices| {
        let tree = read_state(state).expect("these states are good");
        for (place, partner) in choices {
            let answer = advance(&tree, *place, *partner).map(|(rule, _)| rule);
            let is_short = state.len() <= SAMPLED_BUFFER + 40;
            if is_short && sample.takes(answer, 1) {
                let mut hand = Hand::new(state, 10, state.len() + 10);
                hand.step((*place, *partner));
                cases.push(hand.done());
            }
        }
    });
    // Jobs that go on for ever, by the lowest choices.
    for (_, job) in endless_jobs() {
        let state = bare(job);
        let mut hand = Hand::new(&state.encode(), 40, 110);
        for _ in 0..25 {
            let present = hand.making.present();
            let choice = present.as_ref().and_then(lowest_choice);
            hand.press(choice.expect("it goes on for ever"));
            hand.write(COMMAND, STEP);
            hand.read([RULE]);
        }
        cases.push(hand.done());
    }
    cases
}

/// The printed session, in which the cabinet is blocked at last, and a session in which it is blocked, unblocked when
/// it is sent to, and blocked again.
fn in_the_cabinet() -> Vec<StoredSeries> {
    let mut cases = Vec::new();
    let session = loaded(printed_job()).encode();
    for enable in [6, 1] {
        let mut hand = Hand::new(&session, 8, 70);
        hand.write(ENABLE, enable);
        for choice in PRINTED {
            hand.step(choice);
            hand.acknowledge();
        }
        hand.step(ALONE);
        hand.read(0..16);
        cases.push(hand.done());
    }
    let mut hand = Hand::new(&loaded(lent_deck()).encode(), 8, 120);
    while let Some(choice) = hand.making.present().as_ref().and_then(lowest_choice) {
        hand.press(choice);
        hand.write(COMMAND, STEP);
        hand.read([FLAGS, RULE, WEIGHT, WEIGHT + 1]);
    }
    cases.push(hand.done());
    cases
}

/// States that nest as deep as may be, one level deeper, and as deep as the listing reads, stepped at a place that could act:
/// of each nesting one for each answer; and two that meet as deep as may be.
fn nested_states() -> Vec<StoredSeries> {
    let mut cases = Vec::new();
    let mut seen = BTreeSet::new();
    every_nested(SEED, 0, &mut |_, state, calls| {
        let nested = read_nested_with_pairs(state, ANY_NESTING);
        let nesting = nested.map_or(0, |nested| nested.nesting());
        let room = state.len() + 10;
        for call in calls {
            let Call::Step(place, partner) = call else {
                continue;
            };
            let answer = step(state, *place, *partner, &mut vec![0; room]);
            let answer = answer.map(|(rule, _)| rule);
            let is_near = [NESTING, NESTING + 1, LISTED_NESTING].contains(&nesting);
            if is_near && state.len() <= SAMPLED_BUFFER && seen.insert((nesting, answer)) {
                let mut hand = Hand::new(state, 10, room);
                hand.step((*place, *partner));
                cases.push(hand.done());
            }
        }
    });
    // A step goes deepest here.
    let (state, choice) = deepest_meeting();
    let state = state.encode();
    let mut hand = Hand::new(&state, 10, state.len() + 10);
    hand.step(choice);
    cases.push(hand.done());
    cases
}

/// Plays that are cut short, and short ones of actions among blocked ones: of each as many as it takes until
/// every rule and every refusal has come often.
fn sampled_plays() -> Vec<StoredSeries> {
    let mut cases = Vec::new();
    let mut seen: BTreeMap<Result<u8, u8>, usize> = BTreeMap::new();
    let mut show = |_: &'static str, series: &Series| {
        let accesses = &series.accesses;
        let accesses = &accesses[..accesses.len().min(SAMPLED_ACCESSES)];
        let Some(case) = short_enough(accesses, &series.state) else {
            return;
        };
        let answers = answers(accesses, &series.state, case.room);
        let is_wanted = |answer: &Result<u8, u8>| seen.get(answer).is_none_or(|n| *n < OFTEN);
        if answers.iter().any(is_wanted) {
            for answer in answers {
                *seen.entry(answer).or_default() += 1;
            }
            cases.push(case);
        }
    };
    let thrown = Thrown::bare(Counts::All);
    let mut dice = Dice::new(thrown, SEED);
    plays(&mut dice, PLAYS, &mut show);
    among_blocked(&mut dice, &mut Dice::new(thrown, SEED), &mut show);
    cases
}

/// A sample of what is mostly no accepted state.
fn sampled_cases() -> Vec<StoredSeries> {
    let mut cases = Vec::new();
    let mut sample = Sample::empty();
    let thrown = Thrown::bare(Counts::All);
    let mut dice = Dice::new(thrown, SEED);
    every_case(thrown, SEED, 1, &mut |_, input| {
        if input.len() > SAMPLED_BUFFER {
            return;
        }
        if let Err(number) = read_state(input) {
            // Few that have a blocked pair or a wrong count are short.
            let digits = match number {
                BLOCKED_PAIR | WRONG_COUNT => 2,
                _ => 1,
            };
            if sample.takes(number, digits) {
                case(&mut dice, input, &mut |_, series| {
                    cases.extend(short_enough(&series.accesses, &series.state));
                });
            }
        }
    });
    cases
}

/// The case, with a second buffer a little longer than the state's, if it is short enough for a sample.
fn short_enough(accesses: &[Access], state: &[u8]) -> Option<StoredSeries> {
    let is_word = |access: &Access| match access {
        Access::Start(length) => *length <= u32::from(u16::MAX),
        access => access.room() <= usize::from(u16::MAX),
    };
    let is_short = state.len() <= SAMPLED_BUFFER && accesses.iter().all(is_word);
    is_short.then(|| StoredSeries::new(accesses.to_vec(), state.to_vec(), state.len() + 4))
}

/// What the steps among the accesses come to.
fn answers(accesses: &[Access], state: &[u8], room: usize) -> Vec<Result<u8, u8>> {
    let mut panel = Panel::started(0);
    let mut state = state.to_vec();
    let mut spare = vec![BLANK; room];
    let mut answers = Vec::new();
    for access in accesses {
        let lent = access.room().min(room);
        second(*access, &mut panel, &mut state, &mut spare[..lent]);
        if access.is_step() {
            answers.push(told(&panel));
        }
    }
    answers
}
