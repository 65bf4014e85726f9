// The choices for comparing steps: random play, every choice on small states, states made by hand
// and states at the limits.

use crate::cases::{bare, play, small_tree, thrown_action, two_spots, TWO_SPOTS};
use crate::counts::{handing, two_counts, WITH_COUNT};
use crate::dice::{Counts, Dice, Roots, Thrown};
use crate::machine::{acting_places, advance, answer, element_at, lowest_choice};
use crate::machine::{partner_places, paths, Choice, CABINET, NO_PARTNER};
use crate::shapes::*;
use crate::spelling::{read_state, Spelled, LONGEST, NESTING, STATE_DEPTH};
use crate::tree::{Action, Element, Kind, Process, Reference, State};

/// What a state is shown to: the name of its group, its bytes, and the choices to step by.
pub type Chooser<'chooser> = &'chooser mut dyn FnMut(&'static str, &[u8], &[Choice]);

/// Shows states and choices to the visitor. Each round adds as many random ones again.
pub fn every_choice(thrown: impl Into<Thrown>, seed: u64, rounds: usize, visit: Chooser) {
    let mut dice = Dice::new(thrown, seed);
    let counts = dice.counts();
    two_spotted(visit);
    limits(visit);
    if counts == Counts::All {
        two_spotted_counts(visit);
        two_counts_meeting(visit);
        limits_with_counts(visit);
    }
    for _ in 0..rounds {
        random_play(&mut dice, visit);
        small_states(&mut dice, visit);
        crowded_trees(&mut dice, visit);
        if counts == Counts::All {
            messages(&mut dice, visit);
        }
    }
}

/// Play from random jobs and states, some of them nearly as deep and with nearly as many names as
/// there may be; beside each choice made some that are mostly refused.
pub fn random_play(dice: &mut Dice, visit: Chooser) {
    for turn in 0..3_000 {
        let first = first_state(dice, turn);
        if read_state(&first.encode()).is_err() {
            continue;
        }
        let turns = if turn % 100 == 2 { 400 } else { 40 };
        play(dice, first, turns, &mut |dice, state, choice| {
            let choices = with_others(dice, state, choice);
            visit("random play", &state.encode(), &choices);
        });
    }
}

/// A random state or loaded job, by turns; some states are nearly as deep and have nearly as many
/// names as there may be, and some hold the process of a job directly in the root. A state may hold a blocked pair.
pub fn first_state(dice: &mut Dice, turn: usize) -> State {
    let size = dice.pick(&[10, 25, 50]);
    match turn % 5 {
        0 => dice.state(12),
        1 => {
            let mut state = dice.state(12);
            state.next = dice.between(4_092, 4_096) as u16;
            deepened(dice, state)
        }
        _ => {
            let job = dice.job(size);
            if turn % 20 == 2 {
                bare(job)
            } else {
                dice.started(job)
            }
        }
    }
}

/// The state inside so many ambients that it nests as deep as a state may, or nearly.
fn deepened(dice: &mut Dice, mut state: State) -> State {
    let levels = (NESTING - state.nesting()).saturating_sub(dice.below(2));
    if state.next > 0 {
        for _ in 0..levels {
            state.elements = vec![ambient(dice.name(state.next), state.elements)];
        }
    }
    state
}

/// The choice made, its place with another partner or none, and any place with and without a
/// partner, two past the end among them.
fn with_others(dice: &mut Dice, state: &State, choice: Option<Choice>) -> Vec<Choice> {
    let count = paths(state).len() + 2;
    let mut any = || dice.below(count) as u16;
    let mut choices = vec![(any(), any()), (any(), NO_PARTNER)];
    if let Some((place, partner)) = choice {
        let other = if partner == NO_PARTNER {
            any()
        } else {
            NO_PARTNER
        };
        choices.extend([(place, partner), (place, other)]);
    }
    choices
}

/// Small states on the way of plays from states and loaded jobs.
pub fn small_plays(dice: &mut Dice, visit: &mut dyn FnMut(&mut Dice, &State)) {
    for turn in 0..1_500 {
        let first = if turn % 2 == 0 {
            dice.state(8)
        } else {
            let job = dice.job(12);
            dice.started(job)
        };
        if read_state(&first.encode()).is_ok() {
            play(dice, first, 30, &mut |dice, state, _| visit(dice, state));
        }
    }
}

/// Every place with every partner, past the end too, on small states that play leads to.
fn small_states(dice: &mut Dice, visit: Chooser) {
    small_plays(dice, &mut |dice, state| {
        let count = paths(state).len() as u16;
        if count < 10 && dice.one_in(8) {
            let places: Vec<u16> = (0..count + 2).chain([NO_PARTNER - 1, NO_PARTNER]).collect();
            visit("every choice", &state.encode(), &pairs(&places, &places));
        }
    });
}

fn pairs(places: &[u16], partners: &[u16]) -> Vec<Choice> {
    let with_each = |place: &u16| {
        let place = *place;
        partners.iter().map(move |partner| (place, *partner))
    };
    places.iter().flat_map(with_each).collect()
}

/// Every place that holds an action with every partner, and every other place that can act with
/// one; all of them with none too.
fn acting_choices(state: &State) -> Vec<Choice> {
    choices_of(state, 2)
}

/// Every place that holds an action with every partner and with none.
fn choices_of_actions(state: &State) -> Vec<Choice> {
    choices_of(state, 0)
}

/// Every place that holds an action with every partner and with none, and every other place that can act
/// with the last so many of these.
fn choices_of(state: &State, of_others: usize) -> Vec<Choice> {
    let paths = paths(state);
    let partners: Vec<u16> = (0..=paths.len() as u16).chain([NO_PARTNER]).collect();
    let choices = acting_places(state).into_iter().flat_map(|place| {
        let path = &paths[usize::from(place)];
        let is_action = matches!(
            element_at(&state.elements, path),
            Element::Process(Process::Action(..))
        );
        let start = if is_action {
            0
        } else {
            partners.len() - of_others
        };
        pairs(&[place], &partners[start..])
    });
    choices.collect()
}

/// An action and a blocked one in every two places of a small tree of ambients, among other blocked
/// ones, some of which may answer it too; some trees stand as deep as they may.
pub fn crowded_trees(dice: &mut Dice, visit: Chooser) {
    for turn in 0..24 * TWO_SPOTS {
        let (spots, kinds, pass) = two_spots(turn);
        // Kinds that answer each other come more often.
        if answer(kinds[0]) != kinds[1] && pass > 0 {
            continue;
        }
        let count = dice.count();
        let action = thrown_action(dice, kinds[0], count);
        let mut held = vec![(spots[0], dice.acting(action, 2, false))];
        let mut hold = |dice: &mut Dice, spot: usize, kind: Kind| {
            let count = if kind == answer(action.kind) {
                dice.count_like(count)
            } else {
                dice.count()
            };
            let mut other = thrown_action(dice, kind, count);
            if kind == answer(action.kind) {
                other.channel = action.channel;
            }
            held.push((spot, dice.acting(other, 2, true)));
        };
        hold(dice, spots[1], kinds[1]);
        for _ in 0..dice.below(4) {
            let kind = if dice.one_in(3) {
                answer(action.kind)
            } else {
                dice.pick(&Kind::ALL)
            };
            let spot = dice.below(6);
            hold(dice, spot, kind);
        }
        let state = root(2, small_tree(dice, held));
        let state = if dice.one_in(4) {
            deepened(dice, state)
        } else {
            state
        };
        visit(
            "actions among blocked ones",
            &state.encode(),
            &acting_choices(&state),
        );
    }
}

/// An output or input of any count among blocked ones that answer it, or nearly do: each on its channel or
/// another, of its count or another, where a partner stands or elsewhere. Some of the trees stand in a cabinet too.
pub fn messages(dice: &mut Dice, visit: Chooser) {
    for turn in 0..MESSAGES {
        let kind = WITH_COUNT[turn % 4];
        let count = dice.pick(&[0, 0, 2, 2, 3, 3, 4, 4, 1]);
        let action = thrown_action(dice, kind, count);
        let standing = dice.pick(standings(kind));
        let mut held = vec![(standing[0], dice.acting(action, 2, false))];
        for _ in 0..dice.between(1, 3) {
            let kind = if dice.one_in(6) {
                dice.pick(&WITH_COUNT)
            } else {
                answer(kind)
            };
            let count = dice.count_like(count);
            let mut other = thrown_action(dice, kind, count);
            if !dice.one_in(6) {
                other.channel = action.channel;
            }
            let spot = if dice.one_in(6) {
                dice.below(6)
            } else {
                standing[1]
            };
            held.push((spot, dice.acting(other, 2, true)));
        }
        let state = root(2, small_tree(dice, held));
        let mut show = |state: &State| {
            visit(
                "messages among blocked ones",
                &state.encode(),
                &choices_of_actions(state),
            )
        };
        show(&state);
        if dice.roots() == Roots::Cabinet && turn % 3 == 0 {
            show(&root(2, vec![ambient(CABINET, state.elements)]));
        }
    }
}

/// How many trees are thrown for messages.
const MESSAGES: usize = 30_000;

/// The lists of the small tree for an action of this kind and for one that answers it.
fn standings(kind: Kind) -> &'static [[usize; 2]] {
    match kind {
        Kind::ParentOutput => &[[1, 0], [2, 0], [3, 1], [4, 1], [5, 2]],
        Kind::InternalInput => &[[0, 1], [0, 2], [1, 3], [1, 4], [2, 5]],
        _ => &[[1, 2], [2, 1], [3, 4], [4, 3]],
    }
}

/// Two actions of every two counts, in both orders, at the root, in an ambient and as deep as may be.
fn two_counts_meeting(visit: Chooser) {
    for kind in WITH_COUNT {
        for turn in 0..5 * 5 * 2 * 3 {
            let (count, other) = (turn % 5, turn / 5 % 5);
            let mut state = two_counts(kind, count, other, turn / 25 % 2 == 1);
            let levels = [0, 1, NESTING - 2][usize::from(turn / 50)];
            for _ in 0..levels {
                state.elements = vec![ambient(0, state.elements)];
            }
            visit("two counts", &state.encode(), &choices_of_actions(&state));
        }
    }
}

/// A process that shows the name received, if there is one.
fn receiving(kind: Kind) -> Process {
    let name = if kind.binds() {
        Reference::Variable(0)
    } else {
        Reference::Name(3)
    };
    Process::Ambient(name, Box::new(Process::Null))
}

/// The counts of an action and of the blocked one: most agree, some do not.
const TWO_COUNTS: [[u8; 2]; 7] = [[0, 0], [2, 2], [3, 2], [4, 4], [0, 1], [3, 3], [2, 4]];

/// Two outputs and inputs in every two of five lists, as below, with counts by turns.
fn two_spotted_counts(visit: Chooser) {
    let mut turn = 0;
    spotted(&WITH_COUNT, &mut |kind, channel, build| {
        let [count, other] = TWO_COUNTS[turn % TWO_COUNTS.len()];
        turn += 1;
        let state = build(
            handing(kind, count, 2),
            handing(answer(kind), other, channel),
        );
        visit(
            "two counts in two lists",
            &state.encode(),
            &choices_of_actions(&state),
        );
    });
}

/// An action of each kind and a blocked one that answers it, of one name if of any.
fn two_spotted(visit: Chooser) {
    let named = |kind: Kind, channel: u16| {
        let names = [1, channel, 4];
        let action = Action::named(kind, &names[usize::from(!kind.has_target())..]);
        (action, receiving(kind))
    };
    spotted(&Kind::ALL, &mut |kind, channel, build| {
        let state = build(named(kind, 2), named(answer(kind), channel));
        visit(
            "an action and a blocked one",
            &state.encode(),
            &acting_choices(&state),
        );
    });
}

/// An action or a blocked one with the process after it.
type Guarded = (Action, Process);

/// What is shown a kind, the channel of the blocked action, that of the other being 2, and a function that
/// makes a state of the action and the blocked one.
type Spotter<'spotter> = &'spotter mut dyn FnMut(Kind, u16, &dyn Fn(Guarded, Guarded) -> State);

/// An action of each of these kinds and a blocked one that answers it, in every two of five lists: one
/// that holds two ambients, those two, and an ambient in each. Both orders in the list, on one channel
/// and on two, with the ambients named alike and not, blocked where they can be and not, and the
/// whole at the root, in an ambient, and as deep as it may be. Outputs and entries are meant for
/// the ambient 1.
fn spotted(kinds: &[Kind], show: Spotter) {
    for turn in 0..5 * 5 * kinds.len() * 2 * 2 * 4 * 2 * 3 {
        let mut rest = turn;
        let mut next = |count: usize| {
            let value = rest % count;
            rest /= count;
            value
        };
        let spots = [next(5), next(5)];
        let kind = kinds[next(kinds.len())];
        let (backwards, channel) = (next(2) == 1, 2 + next(2) as u16);
        let names = [next(2) as u16, next(2) as u16];
        let (shut, levels) = (next(2) == 1, [0, 1, NESTING - 2][next(3)]);

        show(
            kind,
            channel,
            &|(action, process), (other, other_process)| {
                let acting = Element::Process(Process::Action(action, Box::new(process)));
                let partner = Element::BlockedAction(other, other_process);
                // In the two ambients one action is blocked, on a channel of its own.
                let blocked_on = |channel| vec![blocked(Kind::Accept, &[channel])];
                let mut lists = [vec![], blocked_on(5), blocked_on(6), vec![], blocked_on(7)];
                lists[spots[0]].push(acting);
                lists[spots[1]].push(partner);
                let [mut list, mut own, mut other, own_inner, other_inner] = lists;
                let around = |name: u16, contents: Vec<Element>| Element::Ambient {
                    blocked: shut && contents.iter().all(Element::is_blocked),
                    name,
                    contents,
                };
                own.push(around(1, own_inner));
                other.push(around(1, other_inner));
                list.push(around(names[0], own));
                list.push(around(names[1], other));
                if backwards {
                    list.reverse();
                }
                root(8, inside(levels, list))
            },
        );
    }
}

/// The lowest, the middle and the highest place that can act, each with its lowest and its highest
/// partner and with none, and a place past the end.
fn sample(state: &State) -> Vec<Choice> {
    let places = acting_places(state);
    let middle = places.get(places.len() / 2);
    let mut choices = vec![(paths(state).len() as u16, NO_PARTNER)];
    for place in places
        .first()
        .into_iter()
        .chain(middle)
        .chain(places.last())
    {
        let partners = partner_places(state, *place);
        let ends = partners.first().into_iter().chain(partners.last());
        choices.extend(ends.map(|partner| (*place, *partner)));
        choices.push((*place, NO_PARTNER));
    }
    choices
}

/// Names, depth, nesting and length at their limits, and long states.
pub fn limits(visit: Chooser) {
    let mut show = |state: &State| visit("limits of a step", &state.encode(), &sample(state));
    for next in 4_093..=4_096 {
        for levels in [0, 1, NESTING] {
            let variable = Process::Ambient(Reference::Variable(0), Box::new(Process::Null));
            let list = vec![Element::Process(restriction(variable))];
            show(&root(next, inside(levels, list)));
        }
    }
    for depth in STATE_DEPTH - 6..STATE_DEPTH {
        for kind in Kind::ALL {
            for shape in 0..CHAIN_LINKS {
                let action = Action::named(kind, &[0, 0, 0]);
                let part = Box::new(chain(depth, |_| shape));
                for process in [
                    Process::Replication(action, part.clone()),
                    Process::Action(action, part),
                ] {
                    show(&root(CHAIN_NAMES, vec![Element::Process(process)]));
                }
            }
        }
    }
    for levels in 0..=NESTING {
        let process = Process::Ambient(Reference::Name(0), Box::new(Process::Null));
        show(&root(1, inside(levels, vec![Element::Process(process)])));
        // Movers that hold none and up to as many ambients as may be, 40 and 41, alone and beside others that are as deep as
        // may be.
        for held in 0..NESTING.max(levels + 1) - levels {
            for moving in MOVES {
                for held in [inside(held, Vec::new()), shut_inside(held)] {
                    let state = root(8, inside(levels, moving(held)));
                    if state.nesting() <= NESTING {
                        show(&state);
                        let beside = inside(NESTING, Vec::new());
                        show(&root(8, [beside, state.elements].concat()));
                    }
                }
            }
        }
    }
    for list in growing_lists() {
        for size in LONGEST - 3..=LONGEST + 3 {
            show(&growing_to(list.clone(), size));
        }
    }
    // Too deep and too long at once, and the longest result there is.
    for part in [
        parallel(chain(32, |_| 6), process_of_size(32_500)),
        process_of_size(32_750),
    ] {
        let action = Action::named(Kind::Accept, &[0]);
        let process = Process::Replication(action, Box::new(part));
        show(&root(1, vec![Element::Process(process)]));
    }
    for size in [4_096, LONGEST] {
        for (_, state) in timed_states(size, 3) {
            show(&state);
        }
        show(&meeting_state(size));
    }
    for (_, many, none) in crowded_states() {
        show(&many);
        show(&none);
    }
    for (_, crowd) in CROWDS {
        // A pair behind many actions that do not meet, either of the two still unblocked.
        for make in [[unblocked, blocked], [blocked, unblocked]] {
            let mut elements = crowd(50, &blocked);
            elements.push(ambient(5, vec![make[0](Kind::Enter, &[6, 7])]));
            elements.push(ambient(6, vec![make[1](Kind::Accept, &[7])]));
            show(&root(4_096, elements));
        }
    }
}

/// So many blocked ambients in one another.
fn shut_inside(levels: usize) -> Vec<Element> {
    (0..levels).fold(Vec::new(), |contents, _| {
        vec![Element::Ambient {
            blocked: true,
            name: 0,
            contents,
        }]
    })
}

/// Replications of outputs and inputs with a count, as deep and as long as they may be and beyond, and long
/// states.
fn limits_with_counts(visit: Chooser) {
    let mut show = |state: &State| visit("limits of a step", &state.encode(), &sample(state));
    let again = |kind, count, part| {
        let action = Action::counted(kind, count, &[0; 6]);
        Element::Process(Process::Replication(action, Box::new(part)))
    };
    for depth in STATE_DEPTH - 3..STATE_DEPTH {
        for kind in WITH_COUNT {
            for count in [0, 2, 4] {
                let element = again(kind, count, chain(depth, |_| 3));
                show(&root(CHAIN_NAMES, vec![element]));
            }
        }
    }
    for size in LONGEST - 3..=LONGEST + 3 {
        for kind in [Kind::SiblingOutput, Kind::InternalInput] {
            show(&growing_to(
                vec![again(kind, 4, process_of_size(500))],
                size,
            ));
        }
    }
    for size in [4_096, LONGEST] {
        show(&counted_state(size, 3).1);
        show(&handing_state(size));
    }
    let (_, many, none) = crowded_counts();
    show(&many);
    show(&none);
}

/// Two actions that meet and move an ambient, which holds these elements too.
const MOVES: [fn(Vec<Element>) -> Vec<Element>; 4] = [
    |held| entering(held, unblocked, blocked),
    |held| entering(held, blocked, unblocked),
    |held| leaving(held, unblocked, blocked),
    |held| leaving(held, blocked, unblocked),
];

/// Makes an action of a kind, blocked or not.
type Making = fn(Kind, &[u16]) -> Element;

fn entering(mut held: Vec<Element>, mover: Making, host: Making) -> Vec<Element> {
    held.insert(0, mover(Kind::Enter, &[1, 2]));
    vec![ambient(0, held), ambient(1, vec![host(Kind::Accept, &[2])])]
}

fn leaving(mut held: Vec<Element>, mover: Making, host: Making) -> Vec<Element> {
    held.insert(0, mover(Kind::Leave, &[2]));
    vec![ambient(
        1,
        vec![ambient(0, held), host(Kind::Release, &[2])],
    )]
}

/// The list filled up so that its lowest choice makes the state so many bytes long, if the state may
/// be long enough before.
pub fn growing_to(list: Vec<Element>, size: usize) -> State {
    let mut state = root(64, list);
    let (place, partner) = lowest_choice(&state).expect("a growing list can act");
    let (_, after) = advance(&state, place, partner).expect("and breaks no other limit");
    let before = size + state.encode().len() - after.encode().len();
    fill(&mut state, before.min(LONGEST));
    state
}

/// Lists whose lowest choice makes them longer: replications, and movers whose actions are unblocked.
fn growing_lists() -> Vec<Vec<Element>> {
    let mut lists = Vec::new();
    for part in [3, 20, 500, 16_300] {
        for kind in [Kind::Release, Kind::SiblingOutput, Kind::ExternalInput] {
            let action = Action::named(kind, &[0, 0, 0]);
            let part = Box::new(process_of_size(part));
            lists.push(vec![Element::Process(Process::Replication(action, part))]);
        }
    }
    for count in [0, 1, 7, 300] {
        for moving in MOVES {
            let unblocking = (0..count).map(|_| blocked(Kind::Accept, &[5]));
            lists.push(moving(unblocking.collect()));
        }
    }
    lists
}
