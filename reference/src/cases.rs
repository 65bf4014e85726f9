// The inputs for comparing: random ones, damaged ones and ones at the limits, fixed by a seed.

use crate::cabinets::at_the_limits;
use crate::counts::*;
use crate::dice::{with_name, Counts, Dice, Names, Roots, Thrown};
use crate::machine::{acting_places, advance, answer, lowest_choice, partner_places};
use crate::machine::{Choice, CABINET, NO_PARTNER};
use crate::mixed_up::every_mix_up;
use crate::nested::NESTINGS;
use crate::shapes::*;
use crate::spelling::{comes_to_count, read_job, read_job_of_any_count, read_state, Form};
use crate::spelling::{Spelled, LONGEST, LONGEST_JOB};
use crate::tree::{Action, Element, Job, Kind, Process, Reference, State, MOST_COUNT};

/// What a case is shown to: the name of its group, and its bytes.
pub type Visitor<'visitor> = &'visitor mut dyn FnMut(&'static str, &[u8]);

/// Shows every case to the visitor. Each round adds as many cases again.
pub fn every_case(thrown: impl Into<Thrown>, seed: u64, rounds: usize, visit: Visitor) {
    let thrown = thrown.into();
    let Thrown {
        counts,
        roots,
        names,
    } = thrown;
    let mut dice = Dice::new(thrown, seed);
    printed(&dice, visit);
    limits(visit);
    if counts == Counts::All {
        counts_by_hand(visit);
    }
    if roots == Roots::Cabinet {
        at_the_limits(visit);
    }
    if names == Names::Apart {
        every_mix_up(&mut |group, job, _| visit(group, job));
    }
    for _ in 0..rounds {
        random(&mut dice, visit);
        reached(&mut dice, visit);
        two_blocked(&mut dice, visit);
        damaged(&mut dice, visit);
        reshaped(&mut dice, visit);
        if counts == Counts::All {
            miscounted(&mut dice, visit);
        }
    }
}

/// The examples of the document, and every state of the printed session.
fn printed(dice: &Dice, visit: Visitor) {
    let mut show = |bytes: &[u8]| visit("printed", bytes);
    // With bare roots a job may have no free names, and its state is five bytes shorter.
    let (free, longest) = match dice.roots() {
        Roots::Bare => (0, LONGEST_JOB + 5),
        Roots::Cabinet => (1, LONGEST_JOB),
    };
    let process = Process::Null;
    let first = Job { free, process };
    show(&first.encode());
    show(&[&first.encode()[..], &[0]].concat());
    let state = dice.started(first);
    show(&state.encode());
    let place = acting_places(&state)[0];
    let (_, last) = advance(&state, place, NO_PARTNER).expect("a null can act");
    show(&last.encode());
    show(&[]);
    for depth in [32, 33] {
        let process = job_of_depth(depth).process;
        show(&Job { free, process }.encode());
    }
    for next in [4_095, 4_096] {
        show(&state_at_name(next).encode());
    }
    for together in [true, false] {
        show(&printed_pair(together).encode());
    }
    for size in [longest, longest + 1] {
        show(&job_of_size(size).encode());
    }
    let job = printed_job();
    show(&job.encode());
    let mut state = dice.started(job);
    show(&state.encode());
    while let Some((place, partner)) = lowest_choice(&state) {
        let stepped = advance(&state, place, partner);
        state = stepped.expect("the session goes on").1;
        show(&state.encode());
    }
}

/// The state a job starts as.
pub fn loaded(job: Job) -> State {
    let mut state = bare(job);
    state.elements = vec![ambient(CABINET, state.elements)];
    state
}

/// The like with the process directly in the root.
pub fn bare(job: Job) -> State {
    State {
        free: job.free,
        next: job.free,
        elements: vec![Element::Process(job.process)],
    }
}

/// Random jobs and states that keep to all rules, save that states may hold blocked pairs.
fn random(dice: &mut Dice, visit: Visitor) {
    for turn in 0..20_000 {
        let size = dice.pick(&[3, 8, 20, 60]);
        let size = if turn % 500 == 0 { 1_500 } else { size };
        let job = dice.job(size);
        visit("random jobs", &job.encode());
        // One that is refused has the like that is not beside it.
        if job.free == 0 && dice.roots() == Roots::Cabinet {
            visit("random jobs", &with_name(job).encode());
        }
    }
    for turn in 0..30_000 {
        let size = dice.pick(&[4, 10, 25, 60]);
        let size = if turn % 500 == 0 { 900 } else { size };
        let state = match turn % NESTED {
            1 => dice.nested_state(),
            _ => dice.state(size),
        };
        visit("random states", &state.encode());
    }
}

/// Of so many random states one nests deeper than a result may.
const NESTED: usize = 8;

/// What a play is shown to: the dice, each state, and the choice made there if there is one.
pub type Watcher<'watcher> = &'watcher mut dyn FnMut(&mut Dice, &State, Option<Choice>);

/// Plays from an accepted state: at each turn a random place that can act, with a random one of its
/// partners or with none. Ends when all is blocked, at a refusal, or after so many turns.
pub fn play(dice: &mut Dice, mut state: State, turns: usize, watch: Watcher) {
    for _ in 0..turns {
        let places = acting_places(&state);
        if places.is_empty() {
            break;
        }
        let place = dice.pick(&places);
        let partners = partner_places(&state, place);
        let partner = if partners.is_empty() {
            NO_PARTNER
        } else {
            dice.pick(&partners)
        };
        watch(dice, &state, Some((place, partner)));
        match advance(&state, place, partner) {
            Ok((_, next)) if next.encode().len() <= LONGEST => state = next,
            _ => return,
        }
    }
    watch(dice, &state, None);
}

/// States that random steps lead to from random jobs and states.
fn reached(dice: &mut Dice, visit: Visitor) {
    for turn in 0..3_000 {
        let first = if turn % 4 == 0 {
            dice.state(12)
        } else {
            let size = dice.pick(&[10, 25, 50]);
            let job = dice.job(size);
            dice.started(job)
        };
        if read_state(&first.encode()).is_ok() {
            play(dice, first, 40, &mut |_, state, _| {
                visit("reached states", &state.encode())
            });
        }
    }
}

/// The lists of a small tree: the root, two ambients in it, two in the first, one in the second.
/// Each has the number of the list that it stands in.
const LISTS: [usize; 6] = [0, 0, 0, 1, 1, 2];

/// Every two of the lists and every two kinds, one after the other, and how often all have come.
pub fn two_spots(turn: usize) -> ([usize; 2], [Kind; 2], usize) {
    let spots = [turn % 6, turn / 6 % 6];
    let kinds = [Kind::ALL[turn / 36 % 8], Kind::ALL[turn / 288 % 8]];
    (spots, kinds, turn / TWO_SPOTS)
}

/// How many turns it takes until all have come once.
pub const TWO_SPOTS: usize = 36 * 64;

/// The tree with these elements in its lists; names and order are thrown.
pub fn small_tree(dice: &mut Dice, held: Vec<(usize, Element)>) -> Vec<Element> {
    let mut lists: Vec<Vec<Element>> = vec![Vec::new(); LISTS.len()];
    let put = |dice: &mut Dice, list: &mut Vec<Element>, element| {
        let index = dice.below(list.len() + 1);
        list.insert(index, element);
    };
    for (spot, element) in held {
        put(dice, &mut lists[spot], element);
    }
    for spot in (1..LISTS.len()).rev() {
        let contents = std::mem::take(&mut lists[spot]);
        let blocked = contents.iter().all(Element::is_blocked) && dice.one_in(2);
        let element = Element::Ambient {
            blocked,
            name: dice.below(2) as u16,
            contents,
        };
        put(dice, &mut lists[LISTS[spot]], element);
    }
    lists.swap_remove(0)
}

/// An action of this kind and count whose names are 0 or 1.
pub fn thrown_action(dice: &mut Dice, kind: Kind, count: u8) -> Action {
    let names: Vec<u16> = (0..2 + count).map(|_| dice.below(2) as u16).collect();
    Action::counted(kind, count, &names)
}

/// Every two kinds of blocked action in every two places of a small tree of ambients.
fn two_blocked(dice: &mut Dice, visit: Visitor) {
    for turn in 0..40 * TWO_SPOTS {
        let (spots, kinds, pass) = two_spots(turn);
        // Kinds that answer each other come more often.
        if answer(kinds[0]) != kinds[1] && pass > 1 {
            continue;
        }
        let mut count = dice.count();
        let held = spots.into_iter().zip(kinds).map(|(spot, kind)| {
            let action = thrown_action(dice, kind, count);
            count = dice.count_like(count);
            (spot, Element::BlockedAction(action, Process::Null))
        });
        let held = held.collect();
        let elements = small_tree(dice, held);
        visit("two blocked actions", &root(2, elements).encode());
    }
}

/// A job or state that is read without refusal and is no longer than the limit.
fn small(dice: &mut Dice, longest: usize, wants_job: bool) -> Vec<u8> {
    loop {
        let size = longest / 12;
        let bytes = if wants_job {
            dice.job(size).encode()
        } else {
            dice.state(size).encode()
        };
        let is_job = match dice.roots() {
            Roots::Bare => read_job_of_any_count(&bytes).is_ok(),
            Roots::Cabinet => read_job(&bytes).is_ok(),
        };
        let good = is_job || read_state(&bytes).is_ok();
        if good && bytes.len() <= longest && bytes.len() > longest / 2 {
            return bytes;
        }
    }
}

/// The like with an action of a spelled count.
fn small_with_count(dice: &mut Dice, longest: usize, wants_job: bool) -> Vec<u8> {
    loop {
        let bytes = small(dice, longest, wants_job);
        let forms = [Form::Job, Form::State];
        if forms.iter().any(|form| comes_to_count(*form, &bytes)) {
            return bytes;
        }
    }
}

fn damaged(dice: &mut Dice, visit: Visitor) {
    for turn in 0..6 {
        let bytes = if dice.counts() == Counts::All && turn > 1 {
            small_with_count(dice, 60, turn % 2 == 0)
        } else {
            small(dice, 60, turn % 2 == 0)
        };
        for index in 0..bytes.len() {
            let mut changed = bytes.clone();
            for value in 0..=255 {
                changed[index] = value;
                if changed != bytes {
                    visit("each byte replaced", &changed);
                }
            }
        }
    }
    for turn in 0..80 {
        let bytes = small(dice, 200, turn % 2 == 0);
        cut_short(&bytes, visit);
        off_by_one(&bytes, visit);
        appended(dice, &bytes, visit);
    }
}

pub fn cut_short(bytes: &[u8], visit: Visitor) {
    for length in 0..bytes.len() {
        visit("cut short", &bytes[..length]);
    }
}

/// Every byte, and every two bytes taken as one number, one more and one less.
pub fn off_by_one(bytes: &[u8], visit: Visitor) {
    for index in 0..bytes.len() {
        for change in [1, u8::MAX] {
            let mut changed = bytes.to_vec();
            changed[index] = changed[index].wrapping_add(change);
            visit("off by one", &changed);
        }
        // A change that does not carry is the same as the one above.
        let Some(&[high, low]) = bytes.get(index..index + 2) else {
            continue;
        };
        for (low_before, change) in [(255, 1), (0, u16::MAX)] {
            if low == low_before {
                let number = u16::from_be_bytes([high, low]).wrapping_add(change);
                let mut changed = bytes.to_vec();
                changed[index..index + 2].copy_from_slice(&number.to_be_bytes());
                visit("off by one", &changed);
            }
        }
    }
}

fn appended(dice: &mut Dice, bytes: &[u8], visit: Visitor) {
    for count in 1..6 {
        visit("bytes appended", &[bytes, &dice.bytes(count)].concat());
    }
    for field in [
        vec![0x20, 0, 0],
        vec![0x42, 0, 3, 0x20, 0, 0],
        bytes.to_vec(),
    ] {
        visit("bytes appended", &[bytes, &field].concat());
    }
}

/// A field or bare bytes, to be changed without the lengths around it going wrong.
#[derive(Clone)]
enum Piece {
    Bytes(Vec<u8>),
    Field(u8, Vec<Piece>),
}

/// Takes good input apart.
fn pieces(mut rest: &[u8]) -> Vec<Piece> {
    let mut found = Vec::new();
    while let [tag, high, low, tail @ ..] = rest {
        let length = usize::from(u16::from_be_bytes([*high, *low]));
        let (body, tail) = tail.split_at(length);
        let bare = match tag {
            0x10 | 0x23 | 0x40 | 0x41 => 2,
            0x11 => 4,
            0x30..=0x3B => length,
            _ => 0,
        };
        let mut parts = Vec::new();
        if bare > 0 {
            parts.push(Piece::Bytes(body[..bare].to_vec()));
        }
        parts.append(&mut pieces(&body[bare..]));
        found.push(Piece::Field(*tag, parts));
        rest = tail;
    }
    found
}

/// Puts pieces together again, with lengths that fit.
fn join(pieces: &[Piece], out: &mut Vec<u8>) {
    for piece in pieces {
        match piece {
            Piece::Bytes(bytes) => out.extend(bytes),
            Piece::Field(tag, parts) => {
                let mut body = Vec::new();
                join(parts, &mut body);
                out.push(*tag);
                out.extend((body.len() as u16).to_be_bytes());
                out.append(&mut body);
            }
        }
    }
}

/// Numbers at the edges of what a reference, F or N may be.
pub const EDGES: [u16; 12] = [
    0, 1, 2, 1_024, 1_025, 4_095, 4_096, 4_097, 32_767, 32_768, 32_769, 65_535,
];

/// All tags, those of actions with a count last.
const TAGS: [u8; 24] = [
    0x10, 0x11, 0x20, 0x21, 0x22, 0x23, 0x24, 0x25, 0x30, 0x31, 0x32, 0x33, 0x34, 0x35, 0x36, 0x37,
    0x40, 0x41, 0x42, 0x43, 0x38, 0x39, 0x3A, 0x3B,
];

fn any_tag(dice: &mut Dice) -> u8 {
    match dice.counts() {
        Counts::One => dice.pick(&TAGS[..20]),
        Counts::All => dice.pick(&TAGS),
    }
}

/// Makes one change somewhere in the pieces.
fn reshape(dice: &mut Dice, list: &mut Vec<Piece>) {
    if list.is_empty() {
        let count = dice.between(1, 4);
        list.push(Piece::Bytes(dice.bytes(count)));
        return;
    }
    let index = dice.below(list.len());
    if let Piece::Field(_, parts) = &mut list[index] {
        if !dice.one_in(5) {
            return reshape(dice, parts);
        }
    }
    match dice.below(8) {
        0 => match &mut list[index] {
            Piece::Field(tag, _) => *tag = any_tag(dice),
            Piece::Bytes(bytes) => {
                let start = dice.below(bytes.len() + 1) / 2 * 2;
                if let Some(two) = bytes.get_mut(start..start + 2) {
                    two.copy_from_slice(&dice.pick(&EDGES).to_be_bytes());
                }
            }
        },
        1 => drop(list.remove(index)),
        2 => list.insert(index, list[index].clone()),
        3 => {
            let other = dice.below(list.len());
            list.swap(index, other);
        }
        4 => {
            let count = dice.between(1, 3);
            list.insert(index + 1, Piece::Bytes(dice.bytes(count)));
        }
        5 => {
            let tag = any_tag(dice);
            list.insert(index + dice.below(2), Piece::Field(tag, Vec::new()));
        }
        6 => match &mut list[index] {
            Piece::Field(_, parts) => drop(parts.pop()),
            Piece::Bytes(bytes) => drop(bytes.pop()),
        },
        _ => {
            let inner = list[index].clone();
            list[index] = Piece::Field(any_tag(dice), vec![inner]);
        }
    }
}

/// Inputs whose lengths fit but whose parts do not, with one to three changes.
fn reshaped(dice: &mut Dice, visit: Visitor) {
    for turn in 0..50_000 {
        let size = dice.pick(&[4, 10, 25]);
        let bytes = if turn % 3 == 0 {
            dice.job(size).encode()
        } else if turn % NESTED == 1 {
            dice.nested_state().encode()
        } else {
            dice.state(size).encode()
        };
        let mut parts = pieces(&bytes);
        for _ in 0..dice.between(1, 3) {
            reshape(dice, &mut parts);
        }
        let mut changed = Vec::new();
        join(&parts, &mut changed);
        visit("reshaped", &changed);
    }
}

/// Shows the pieces with one of their outputs and inputs changed, the one of this number. The change is
/// given its tag and its body. Gives whether there is one of this number.
fn with_change(
    parts: &[Piece],
    number: usize,
    visit: Visitor,
    change: impl FnOnce(&mut u8, &mut Vec<u8>),
) -> bool {
    let mut parts = parts.to_vec();
    let Some((tag, body)) = found_action(&mut parts, &mut { number }) else {
        return false;
    };
    change(tag, body);
    let mut changed = Vec::new();
    join(&parts, &mut changed);
    visit("counts changed", &changed);
    true
}

/// The tag and the body of the output or input of this number, counted down on the way.
fn found_action<'pieces>(
    parts: &'pieces mut [Piece],
    number: &mut usize,
) -> Option<(&'pieces mut u8, &'pieces mut Vec<u8>)> {
    for piece in parts {
        match piece {
            Piece::Field(tag @ (0x30..=0x33 | 0x38..=0x3B), parts) => {
                if *number == 0 {
                    return match &mut parts[..] {
                        [Piece::Bytes(body)] => Some((tag, body)),
                        _ => None,
                    };
                }
                *number -= 1;
            }
            Piece::Field(_, parts) => {
                if let found @ Some(_) = found_action(parts, number) {
                    return found;
                }
            }
            Piece::Bytes(_) => {}
        }
    }
    None
}

/// Where the count stands in the body of an output or input that has one.
fn count_index(tag: u8) -> usize {
    if matches!(tag, 0x30 | 0x38) {
        4
    } else {
        2
    }
}

/// Counts to put in the place of another.
const WRONG_COUNTS: [u8; 12] = [0, 1, 2, 3, 4, 5, 6, 7, 127, 128, 254, 255];

/// Good jobs and states in which one output or input is changed, with lengths around it that fit: its count
/// alone, its count with as many references, its tag, or its end, which is cut off or goes on.
fn miscounted(dice: &mut Dice, visit: Visitor) {
    for turn in 0..100 {
        let bytes = small_with_count(dice, 120, turn % 2 == 0);
        let parts = pieces(&bytes);
        let mut number = 0;
        while with_change(&parts, number, &mut |_, _| {}, |_, _| {}) {
            let mut change = |change: &dyn Fn(&mut u8, &mut Vec<u8>)| {
                with_change(&parts, number, visit, change);
            };
            let all: Vec<u8> = (0..=255).collect();
            let counts = if turn < 4 { &all } else { &WRONG_COUNTS[..] };
            for count in counts {
                change(&|tag, body| {
                    let index = count_index(*tag);
                    if *tag < 0x38 {
                        // The tag of the like with a count.
                        *tag += 8;
                        body.insert(index, *count);
                    } else {
                        body[index] = *count;
                    }
                });
            }
            for count in 0..=6 {
                change(&|tag, body| {
                    let index = count_index(*tag);
                    body.truncate(index);
                    body.push(count);
                    if matches!(*tag, 0x30 | 0x31 | 0x38 | 0x39) {
                        body.resize(index + 1 + 2 * usize::from(count), 0);
                    }
                    *tag |= 8;
                });
            }
            for fewer in 1..=12 {
                change(&|_, body| body.truncate(body.len().saturating_sub(fewer)));
            }
            for more in [1, 2] {
                change(&|_, body| body.resize(body.len() + more, 0));
            }
            for other in 0x30..=0x3F {
                change(&|tag, _| *tag = other);
            }
            number += 1;
        }
    }
}

/// Outputs and inputs of all counts, right and wrong, inputs in each other, blocked ones that would be a
/// pair, and references behind counts at their limits.
fn counts_by_hand(visit: Visitor) {
    let mut show = |bytes: &[u8]| visit("counts", bytes);
    for (text, _) in SPELLED {
        for (form, bytes) in in_every_form(&bytes(text)) {
            if !matches!(form, Form::Process(_)) {
                show(&bytes);
            }
        }
    }
    for (inputs, sum) in chains_of_inputs() {
        let edges = [0, 1, 2, 3, 4, sum.max(2) - 2, sum.max(1) - 1, sum, sum + 1];
        for variable in edges.into_iter().chain([sum + 3, 255, 256]) {
            for bytes in job_and_state(behind_inputs(&inputs, variable)) {
                show(&bytes);
            }
        }
    }
    for kind in WITH_COUNT {
        for count in 0..=MOST_COUNT {
            for other in 0..=MOST_COUNT {
                let state = two_blocked_counts(kind, count, other);
                show(&state.encode());
                let inside = ambient(0, vec![ambient(2, state.elements)]);
                show(&root(8, vec![inside]).encode());
            }
        }
    }
    for size in [LONGEST, LONGEST + 1] {
        show(&counted_state(size, 7).1.encode());
    }
    let (_, many, none) = crowded_counts();
    show(&many.encode());
    show(&none.encode());
    for count in [0, 1, 3, 1_024, 4_096] {
        for edge in [count.max(1) - 1, count, count + 1]
            .into_iter()
            .chain(EDGES)
        {
            counted_references(count, edge, &mut |_, bytes| show(bytes));
        }
    }
}

/// A channel that is not the cabinet's name, where there are more names than that.
fn channel_of(names: u16) -> u16 {
    names.clamp(1, 2) - 1
}

/// The number in the place of each reference of an action with a count, behind an input of two and not.
fn counted_references(names: u16, number: u16, visit: Visitor) {
    let channel = channel_of(names);
    for kind in WITH_COUNT {
        for count in [0, 2, 4] {
            let sent = if kind.has_message() { count } else { 0 };
            let parts = usize::from(kind.has_target()) + 1 + usize::from(sent);
            for index in 0..parts {
                let mut references = vec![Reference::Name(0); parts];
                references[usize::from(kind.has_target())] = Reference::Name(channel);
                references[index] = Reference::Name(number);
                let action = Action::of_references(kind, count, &references);
                let blocked = Element::BlockedAction(action, Process::Null);
                visit("counts", &root(names, vec![blocked]).encode());
                let process = Process::Action(action, Box::new(Process::Null));
                let input = Action::counted(Kind::ExternalInput, 2, &[channel]);
                let behind = Process::Action(input, Box::new(process.clone()));
                for process in [process, behind] {
                    let free = names.min(1_024);
                    let element = Element::Process(process.clone());
                    visit("counts", &Job { free, process }.encode());
                    visit("counts", &root(names, vec![element]).encode());
                }
            }
        }
    }
}

/// Depth, nesting, size, F, N and references at their limits.
fn limits(visit: Visitor) {
    for depth in 31..=36 {
        for shape in 0..=CHAIN_LINKS {
            let process = chain(depth, |turn| {
                if shape == CHAIN_LINKS {
                    turn % CHAIN_LINKS
                } else {
                    shape
                }
            });
            let free = CHAIN_NAMES;
            let job = Job { free, process };
            let process = job.process.clone();
            let blocked = Action::named(Kind::InternalInput, &[0]);
            let forms = [
                job.encode(),
                root(free, vec![Element::Process(process.clone())]).encode(),
                root(free, vec![Element::BlockedAction(blocked, process.clone())]).encode(),
                root(free, vec![ambient(0, vec![Element::Process(process)])]).encode(),
            ];
            for bytes in forms {
                visit("limits", &bytes);
                if shape == CHAIN_LINKS {
                    off_by_one(&bytes, visit);
                    cut_short(&bytes, visit);
                }
            }
        }
    }
    for nesting in NESTINGS {
        for first_blocked in 0..=nesting {
            // Unblocked ambients around blocked ones.
            let nested = (1..=nesting).rev().fold(Vec::new(), |contents, level| {
                let blocked = level > first_blocked;
                let name = 0;
                vec![Element::Ambient {
                    blocked,
                    name,
                    contents,
                }]
            });
            let elements = [vec![ambient(0, vec![])], nested].concat();
            let bytes = root(1, elements).encode();
            visit("limits", &bytes);
            off_by_one(&bytes, visit);
        }
    }
    for size in 32_760..=32_775 {
        visit("limits", &job_of_size(size).encode());
        for (_, state) in timed_states(size, 7) {
            visit("limits", &state.encode());
        }
    }
    for (_, many, none) in crowded_states() {
        visit("limits", &many.encode());
        visit("limits", &none.encode());
    }
    for (_, crowd) in CROWDS {
        // One pair behind many actions that do not meet.
        let mut elements = crowd(50, &blocked);
        elements.push(ambient(5, vec![blocked(Kind::Enter, &[6, 7])]));
        elements.push(ambient(6, vec![blocked(Kind::Accept, &[7])]));
        visit("limits", &root(4_096, elements).encode());
    }
    for length in [32_768, 32_769, 65_535, 65_538, 65_539, 100_000] {
        for tag in [0x10, 0x11] {
            let mut bytes = vec![0; length];
            bytes[..3].copy_from_slice(&[tag, 0x7F, 0xFD]);
            visit("limits", &bytes);
        }
    }
    for free in [0, 1, 2, 1_023, 1_024, 1_025, 4_096, 32_768, 65_535] {
        for next in [0, 1, 2, 1_023, 1_024, 1_025, 4_095, 4_096, 4_097, 65_535] {
            let state = State {
                free,
                next,
                elements: Vec::new(),
            };
            visit("limits", &state.encode());
            cut_short(&state.encode(), visit);
        }
        let process = Process::Null;
        visit("limits", &Job { free, process }.encode());
    }
    for count in [0, 1, 3, 1_024, 4_096] {
        for edge in [count.max(1) - 1, count, count + 1]
            .into_iter()
            .chain(EDGES)
        {
            references(count, edge, visit);
        }
    }
}

/// The number in every place where a reference may stand, or in all but the channel, under none to two binders.
fn references(names: u16, number: u16, visit: Visitor) {
    // A name is spelled as it is, so it may stand for any two bytes.
    let reference = Reference::Name(number);
    let element = ambient(number, Vec::new());
    visit("limits", &root(names, vec![element]).encode());
    let own = channel_of(names);
    let actions = Kind::ALL.into_iter().flat_map(|kind| {
        let names = [number, own].map(|channel| [number, channel, number]);
        names.map(|names| Action::named(kind, &names[usize::from(!kind.has_target())..]))
    });
    for action in actions {
        let element = Element::BlockedAction(action, Process::Null);
        visit("limits", &root(names, vec![element]).encode());
        for binders in 0..3 {
            let inner = Process::Ambient(reference, Box::new(Process::Null));
            for mut process in [
                Process::Action(action, Box::new(Process::Null)),
                Process::Replication(action, Box::new(inner.clone())),
                inner,
            ] {
                for turn in 0..binders {
                    process = if turn % 2 == 0 || names == 0 {
                        restriction(process)
                    } else {
                        let input = Action::named(Kind::ExternalInput, &[own]);
                        Process::Action(input, Box::new(process))
                    };
                }
                let free = names.min(1_024);
                let job = Job { free, process };
                visit("limits", &job.encode());
                visit(
                    "limits",
                    &root(names, vec![Element::Process(job.process)]).encode(),
                );
            }
        }
    }
}
