// Sides whose partners are wrong in one thing each, made of the second implementation.

use reference::comparison::{second, Answer, Call, Outcome, Side};
use reference::machine::{answer, can_act, NO_PARTNER};
use reference::partners::{stands, Stand};
use reference::spelling::{read_state, read_state_with_pairs, Spelled};
use reference::tree::{Action, Element, Kind, Process, Reference};
use std::collections::BTreeSet;

/// An unblocked action and another one, with their places.
struct Pair<'state> {
    stands: &'state [Stand<'state>],
    action: &'state Action,
    acting: usize,
    partner: &'state Action,
    waiting: usize,
}

/// What makes the other one a partner.
const KIND: usize = 0;
const CHANNEL: usize = 1;
const COUNT: usize = 2;
const NAME: usize = 3;
const BLOCKED: usize = 4;
const DEPTH: usize = 5;
const OWN: usize = 6;
const ROOT: usize = 7;

/// Where this is not looked at, another list that is as deep will do.
const LIST: usize = 8;

impl Pair<'_> {
    /// The place of the ambient around a place, if it takes part in what these two do.
    fn ambient(&self, place: usize, kind: Kind) -> Option<usize> {
        match kind {
            Kind::InternalInput | Kind::Release => None,
            _ => self.stands[place].holder,
        }
    }

    /// The place of the ambient around the list where the two meet; none if that is the root, and nothing at all
    /// if there is no such list.
    fn list(&self, place: usize, kind: Kind) -> Option<Option<usize>> {
        match kind {
            Kind::InternalInput | Kind::Release => Some(self.stands[place].holder),
            _ => self.stands[place].holder.map(|own| self.stands[own].holder),
        }
    }

    /// Whether the lists where the two would meet are equally deep.
    fn as_deep(&self) -> bool {
        let depth = |(place, kind): (usize, Kind)| {
            let holder = self.list(place, kind)?;
            let around = |place: &usize| self.stands[*place].holder;
            Some(std::iter::successors(holder, around).count())
        };
        let [own, other] = self.sides().map(depth);
        own.is_some() && own == other
    }

    /// The two places with the kinds that stand there, or are to.
    fn sides(&self) -> [(usize, Kind); 2] {
        let kind = self.action.kind;
        [(self.acting, kind), (self.waiting, answer(kind))]
    }

    fn holds(&self, thing: usize) -> bool {
        let (action, partner) = (self.action, self.partner);
        let [own, other] = self.sides();
        let names = |action: &Action, (place, kind): (usize, Kind)| {
            let ambient = self.ambient(place, kind);
            let name = ambient.and_then(|place| self.stands[place].element.ambient());
            let name = name.map(|(name, _)| Reference::Name(name));
            action.target.is_none() || action.target == name
        };
        match thing {
            KIND => partner.kind == answer(action.kind),
            CHANNEL => partner.channel == action.channel,
            COUNT => partner.count() == action.count(),
            NAME => names(action, other) && names(partner, own),
            BLOCKED => self.stands[self.waiting].element.is_blocked(),
            DEPTH => {
                let list = self.list(own.0, own.1);
                list.is_some() && list == self.list(other.0, other.1)
            }
            OWN => {
                let ambient = self.ambient(own.0, own.1);
                ambient.is_none() || ambient != self.ambient(other.0, other.1)
            }
            _ => {
                let is_inside = self.list(own.0, own.1).flatten().is_some();
                is_inside || !matches!(action.kind, Kind::Leave | Kind::Release)
            }
        }
    }
}

/// The partners of a place where one of the things is not looked at.
fn counted_without(thing: usize, input: &[u8], place: u16) -> Vec<usize> {
    let state = read_state(input).expect("an accepted state");
    let stands = stands(&state);
    let acting = usize::from(place);
    let action_at = |place: usize| match stands[place].element {
        Element::Process(Process::Action(action, _)) => Some(action),
        element => element.blocked_action(),
    };
    let Some(action) = action_at(acting) else {
        return Vec::new();
    };
    let meets = |waiting: &usize| {
        let pair = |partner| Pair {
            stands: &stands,
            action,
            acting,
            partner,
            waiting: *waiting,
        };
        let holds = |pair: &Pair, other: usize| match (thing, other) {
            (LIST, DEPTH) => pair.as_deep(),
            _ => thing == other || pair.holds(other),
        };
        let pair = action_at(*waiting).map(pair);
        *waiting != acting
            && pair.is_some_and(|pair| (KIND..=ROOT).all(|other| holds(&pair, other)))
    };
    (0..stands.len()).filter(meets).collect()
}

/// Where this is not looked at, all that is to be is.
const NOTHING: usize = LIST + 1;

/// The second implementation, where one of the things is not looked at.
fn without<const THING: usize>(call: Call, input: &[u8], out: &mut [u8]) -> Answer {
    let outcome = second(call, input, out)?;
    let Call::Partners(place) = call else {
        return Ok(outcome);
    };
    let found = counted_without(THING, input, place);
    let lowest = found.first().map_or(NO_PARTNER, |lowest| *lowest as u16);
    Ok(Outcome {
        lowest: u32::from(lowest),
        count: found.len() as u32,
        ..outcome
    })
}

/// The second implementation, with another answer where there are partners; given the places of all.
macro_rules! found {
    ($change:expr) => {
        |call, input, out| {
            let outcome = second(call, input, out)?;
            match call {
                Call::Partners(place) if outcome.count > 0 => {
                    let state = read_state(input).expect("an accepted state");
                    let stands = stands(&state);
                    let places = counted_without(NOTHING, input, place);
                    let change: fn(&[Stand], &[usize], Outcome) -> Outcome = $change;
                    Ok(change(&stands, &places, outcome))
                }
                _ => Ok(outcome),
            }
        }
    };
}

/// The like where a call for partners has this answer; given the state and the place.
macro_rules! answered {
    ($change:expr) => {
        |call, input, out| {
            let due = second(call, input, out);
            match call {
                Call::Partners(place) => {
                    let change: fn(Answer, &[u8], usize) -> Answer = $change;
                    change(due, input, usize::from(place))
                }
                _ => due,
            }
        }
    };
}

/// The side that looks at everything, and so is right.
pub const RIGHT: Side = without::<NOTHING>;

/// How many of the places stand in the same list as this one.
fn in_one_list(stands: &[Stand], places: &[usize], one: usize) -> u32 {
    let holder = stands[one].holder;
    let there = places
        .iter()
        .filter(|place| stands[**place].holder == holder);
    there.count() as u32
}

/// What is answered where there is no partner.
const NONE: Outcome = Outcome {
    rule: 0,
    ending: 0,
    steps: 0,
    lowest: NO_PARTNER as u32,
    count: 0,
    result: 0,
};

/// A wrong side, with what is wrong in it.
pub type Wrong = (&'static str, Side);

pub fn wrong_partners() -> Vec<Wrong> {
    let all: &[Wrong] = &[
        // What is counted.
        ("actions of any kind", without::<KIND>),
        ("those on another channel", without::<CHANNEL>),
        ("those of another count", without::<COUNT>),
        ("those of another name", without::<NAME>),
        ("those that are not blocked", without::<BLOCKED>),
        ("those at any depth", without::<DEPTH>),
        ("those in a list that is as deep", without::<LIST>),
        ("those in the own ambient", without::<OWN>),
        ("those at the root for a leave", without::<ROOT>),
        // How many they are.
        (
            "counting stops at the first",
            found!(|_, _, outcome| Outcome {
                count: 1,
                ..outcome
            }),
        ),
        (
            "the number of the last ambient or list",
            found!(|stands, places, outcome| Outcome {
                count: in_one_list(stands, places, places[places.len() - 1]),
                ..outcome
            }),
        ),
        (
            "the number of the first ambient or list",
            found!(|stands, places, outcome| Outcome {
                count: in_one_list(stands, places, places[0]),
                ..outcome
            }),
        ),
        (
            "the number of ambients and lists that have one",
            found!(|stands, places, outcome| {
                let holders = places.iter().map(|place| stands[*place].holder);
                let count = holders.collect::<BTreeSet<_>>().len() as u32;
                Outcome { count, ..outcome }
            }),
        ),
        (
            "the lowest is not counted",
            found!(|_, _, outcome| Outcome {
                count: outcome.count - 1,
                ..outcome
            }),
        ),
        (
            "the number in one byte",
            found!(|_, _, outcome| Outcome {
                count: outcome.count % 256,
                ..outcome
            }),
        ),
        (
            "the number is 1,000 at most",
            found!(|_, _, outcome| Outcome {
                count: outcome.count.min(1_000),
                ..outcome
            }),
        ),
        // Which is the lowest.
        (
            "the last partner for the lowest",
            found!(|_, places, outcome| Outcome {
                lowest: places[places.len() - 1] as u32,
                ..outcome
            }),
        ),
        (
            "the ambient of the lowest partner",
            found!(|stands, places, outcome| Outcome {
                lowest: stands[places[0]].holder.unwrap_or(places[0]) as u32,
                ..outcome
            }),
        ),
        (
            "0 for no partner",
            answered!(|due, _, _| match due {
                Ok(NONE) => Ok(Outcome { lowest: 0, ..NONE }),
                due => due,
            }),
        ),
        (
            "the number of places for no partner",
            answered!(|due, input, _| match due {
                Ok(NONE) => {
                    let state = read_state(input).expect("an accepted state");
                    let lowest = stands(&state).len() as u32;
                    Ok(Outcome { lowest, ..NONE })
                }
                due => due,
            }),
        ),
        // What is refused.
        (
            "8 is not judged",
            answered!(|due, _, _| match due {
                Err(8) => Ok(NONE),
                due => due,
            }),
        ),
        (
            "a place past the end has none",
            answered!(|due, input, place| match due {
                Err(8) if place >= stands(&read_state(input).expect("a state")).len() => Ok(NONE),
                due => due,
            }),
        ),
        (
            "an unblocked ambient has none",
            answered!(|due, input, place| {
                let state = read_state(input);
                let stands = state.as_ref().map(stands).unwrap_or_default();
                let stand = stands.get(place).map(|stand| stand.element);
                match stand {
                    Some(Element::Ambient { blocked: false, .. }) => Ok(NONE),
                    _ => due,
                }
            }),
        ),
        (
            "a blocked action has partners",
            answered!(|due, input, place| {
                let state = read_state(input);
                let stands = state.as_ref().map(stands).unwrap_or_default();
                let stand = stands.get(place).map(|stand| stand.element);
                match stand {
                    Some(Element::BlockedAction(..)) => Ok(NONE),
                    _ => due,
                }
            }),
        ),
        (
            "8 before 7",
            answered!(|due, input, place| match due {
                Err(7) => {
                    let state = read_state_with_pairs(input).expect("7 is the only fault");
                    let stands = stands(&state);
                    let stand = stands.get(place);
                    if stand.is_some_and(|stand| can_act(stand.element)) {
                        due
                    } else {
                        Err(8)
                    }
                }
                due => due,
            }),
        ),
        (
            "7 is not judged",
            answered!(|due, _, _| match due {
                Err(7) => Ok(NONE),
                due => due,
            }),
        ),
        (
            "8 before 2 to 6",
            answered!(|due, _, place| match due {
                Err(2..=6) if place == usize::from(NO_PARTNER) => Err(8),
                due => due,
            }),
        ),
        ("a long state is cut off", |call, input, out| match call {
            Call::Partners(_) => second(call, &input[..input.len().min(32_768)], out),
            call => second(call, input, out),
        }),
        (
            "what steps by rules 29 to 34 is refused",
            answered!(|due, input, place| {
                let state = read_state(input);
                let stands = state.as_ref().map(stands).unwrap_or_default();
                let stand = stands.get(place).map(|stand| stand.element);
                match (due, stand) {
                    (Ok(_), Some(Element::Process(Process::Action(..)))) => due,
                    (Ok(_), _) => Err(8),
                    _ => due,
                }
            }),
        ),
        (
            "a replication has its action's partners",
            answered!(|due, input, place| {
                let Ok(mut state) = read_state(input) else {
                    return due;
                };
                let stands = stands(&state);
                let stand = stands.get(place).map(|stand| stand.element);
                let Some(Element::Process(Process::Replication(action, part))) = stand else {
                    return due;
                };
                let process = Process::Action(*action, part.clone());
                replace(
                    &mut state.elements,
                    &mut { place },
                    &Element::Process(process),
                );
                let bytes = state.encode();
                second(Call::Partners(place as u16), &bytes, &mut [])
            }),
        ),
    ];
    all.to_vec()
}

/// Puts the element in the place counted down on the way.
fn replace(list: &mut [Element], place: &mut usize, new: &Element) -> bool {
    for element in list {
        if *place == 0 {
            *element = new.clone();
            return true;
        }
        *place -= 1;
        if let Element::Ambient { contents, .. } = element {
            if replace(contents, place, new) {
                return true;
            }
        }
    }
    false
}
