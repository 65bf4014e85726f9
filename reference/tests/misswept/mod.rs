// Sides whose sweep is wrong in one thing each, made of the second implementation.

use reference::comparison::{second, Answer, Call, Outcome, Side};
use reference::machine::deliver;
use reference::spelling::{read_state, read_state_with_pairs, Spelled, LONGEST, NESTING};
use reference::sweeping::{is_thrown_away, name_counts, swept};
use reference::tree::{Action, Element, Process, Reference, State};

/// What a name is in.
#[derive(Clone, Copy, Debug, PartialEq, Eq)]
enum Part {
    /// An ambient that is an element, with whether it is empty.
    Element(bool),
    /// An ambient that is a process.
    Process,
    Target,
    Channel,
    /// Of the names sent the one of this number.
    Sent(usize),
}

/// What an action is in.
#[derive(Clone, Copy, Debug, PartialEq, Eq)]
enum Acting {
    Action,
    Replication,
    Blocked,
}

/// What stands around a name.
#[derive(Clone, Copy, Debug, Default)]
struct Around {
    behind_action: bool,
    behind_replication: bool,
    behind_blocked: bool,
    behind_input: bool,
    left: bool,
    right: bool,
    restricted: bool,
    in_ambient: bool,
    in_blocked: bool,
    /// How many processes, and how many elements, are around it.
    depth: usize,
    nesting: usize,
}

/// A place where a reference or an ambient's name stands.
#[derive(Clone, Copy, Debug)]
struct Place {
    reference: Reference,
    part: Part,
    /// The field that the action is in, and whether it has a spelled count.
    acting: Option<(Acting, bool)>,
    around: Around,
}

/// Every place of the elements.
fn places(list: &[Element], around: Around, found: &mut Vec<Place>) {
    for element in list {
        match element {
            Element::Ambient {
                blocked,
                name,
                contents,
            } => {
                found.push(Place {
                    reference: Reference::Name(*name),
                    part: Part::Element(contents.is_empty()),
                    acting: None,
                    around,
                });
                let inside = Around {
                    in_blocked: around.in_blocked || *blocked,
                    nesting: around.nesting + 1,
                    ..around
                };
                places(contents, inside, found);
            }
            Element::Process(process) => places_of_process(process, around, found),
            Element::BlockedAction(action, process) => {
                let behind = places_of_action(action, Acting::Blocked, around, found);
                places_of_process(process, behind, found);
            }
        }
    }
}

fn places_of_process(process: &Process, around: Around, found: &mut Vec<Place>) {
    let deeper = Around {
        depth: around.depth + 1,
        ..around
    };
    match process {
        Process::Null => {}
        Process::Parallel(left, right) => {
            let (mut first, mut second) = (deeper, deeper);
            first.left = true;
            second.right = true;
            places_of_process(left, first, found);
            places_of_process(right, second, found);
        }
        Process::Restriction(part) => {
            let restricted = true;
            places_of_process(
                part,
                Around {
                    restricted,
                    ..deeper
                },
                found,
            );
        }
        Process::Ambient(reference, part) => {
            found.push(Place {
                reference: *reference,
                part: Part::Process,
                acting: None,
                around,
            });
            let in_ambient = true;
            places_of_process(
                part,
                Around {
                    in_ambient,
                    ..deeper
                },
                found,
            );
        }
        Process::Action(action, part) => {
            let behind = places_of_action(action, Acting::Action, around, found);
            places_of_process(part, behind, found);
        }
        Process::Replication(action, part) => {
            let behind = places_of_action(action, Acting::Replication, around, found);
            places_of_process(part, behind, found);
        }
    }
}

/// Gives what stands around the process behind the action.
fn places_of_action(
    action: &Action,
    acting: Acting,
    around: Around,
    found: &mut Vec<Place>,
) -> Around {
    let target = action.target.map(|target| (Part::Target, target));
    let sent = action.message.references().enumerate();
    let sent = sent.map(|(index, name)| (Part::Sent(index), name));
    let parts = target.into_iter().chain([(Part::Channel, action.channel)]);
    for (part, reference) in parts.chain(sent) {
        found.push(Place {
            reference,
            part,
            acting: Some((acting, action.has_other_count())),
            around,
        });
    }
    Around {
        behind_action: around.behind_action || acting == Acting::Action,
        behind_replication: around.behind_replication || acting == Acting::Replication,
        behind_blocked: around.behind_blocked || acting == Acting::Blocked,
        behind_input: around.behind_input || action.kind.binds(),
        depth: around.depth + 1,
        ..around
    }
}

fn all_places(state: &State) -> Vec<Place> {
    let mut found = Vec::new();
    places(&state.elements, Around::default(), &mut found);
    found
}

/// How often each name stands in the places that are looked at.
fn counted(state: &State, is_seen: fn(&Place) -> bool) -> Vec<usize> {
    let mut counts = vec![0; 4_096];
    for place in all_places(state).iter().filter(|place| is_seen(place)) {
        if let Reference::Name(name) = place.reference {
            counts[usize::from(name)] += 1;
        }
    }
    counts
}

/// Whether an element goes, by the state, by how often each name stands in it, and by the list that it stands in.
type Goes = fn(&State, &Element, &[usize], List) -> bool;

/// The list that an element stands in: whether it is a 41's, and how many ambients are around it.
#[derive(Clone, Copy, Debug)]
struct List {
    blocked: bool,
    nesting: usize,
}

const ROOT: List = List {
    blocked: false,
    nesting: 0,
};

/// Removes the first element that goes; gives whether there was one.
fn remove_first(
    elements: &mut Vec<Element>,
    list: List,
    goes: &dyn Fn(&Element, List) -> bool,
) -> bool {
    if let Some(index) = elements.iter().position(|element| goes(element, list)) {
        elements.remove(index);
        return true;
    }
    elements.iter_mut().any(|element| match element {
        Element::Ambient {
            blocked, contents, ..
        } => {
            let inside = List {
                blocked: *blocked,
                nesting: list.nesting + 1,
            };
            remove_first(contents, inside, goes)
        }
        _ => false,
    })
}

/// Removes what goes, one after another, until nothing does.
fn one_by_one(state: &mut State, is_seen: fn(&Place) -> bool, goes: Goes) {
    loop {
        let counts = counted(state, is_seen);
        let now = state.clone();
        let goes = |element: &Element, list| goes(&now, element, &counts, list);
        if !remove_first(&mut state.elements, ROOT, &goes) {
            return;
        }
    }
}

/// Removes what goes, but what is emptied by that only in a later round, of which there are at most so many.
fn in_rounds(state: &mut State, most: usize) {
    for _ in 0..most {
        let counts = name_counts(state);
        let (now, free) = (state.clone(), state.free);
        let mut going = Vec::new();
        for_each(&now.elements, &mut |element| {
            if is_thrown_away(element, free, &counts) {
                going.extend(empty_name(element));
            }
        });
        let goes =
            |element: &Element, _| empty_name(element).is_some_and(|name| going.contains(&name));
        while remove_first(&mut state.elements, ROOT, &goes) {}
    }
}

/// Shows every element.
fn for_each(list: &[Element], visit: &mut dyn FnMut(&Element)) {
    for element in list {
        visit(element);
        if let Some((_, contents)) = element.ambient() {
            for_each(contents, visit);
        }
    }
}

/// What is to go, where names are counted at most once.
fn is_due(state: &State, element: &Element, counts: &[usize]) -> bool {
    empty_name(element).is_some_and(|name| is_unused(state, name, counts))
}

/// Whether a name is not free and stands at most once.
fn is_unused(state: &State, name: u16, counts: &[usize]) -> bool {
    name >= state.free && counts[usize::from(name)] <= 1
}

/// The name, if this is an empty ambient.
fn empty_name(element: &Element) -> Option<u16> {
    let (name, contents) = element.ambient()?;
    contents.is_empty().then_some(name)
}

/// The second implementation, where a sweep does this to a state that is read.
macro_rules! sweeping {
    ($change:expr) => {
        |call, input, out| match call {
            Call::Sweep => {
                let mut state = read_state(input).map_err(u32::from)?;
                let change: fn(&mut State) = $change;
                change(&mut state);
                of_length(deliver(&state.encode(), out))
            }
            call => second(call, input, out),
        }
    };
}

/// The like where some places of names are not looked at.
macro_rules! blind {
    ($is_seen:expr) => {
        sweeping!(
            |state| one_by_one(state, $is_seen, |state, element, counts, _| {
                is_due(state, element, counts)
            })
        )
    };
}

/// The like where this is what goes.
macro_rules! going {
    ($goes:expr) => {
        sweeping!(|state| one_by_one(state, |_| true, $goes))
    };
}

/// The like with this answer, given the input and the output.
macro_rules! answered {
    ($change:expr) => {
        |call, input, out| match call {
            Call::Sweep => {
                let change: fn(&[u8], &mut [u8]) -> Answer = $change;
                change(input, out)
            }
            call => second(call, input, out),
        }
    };
}

fn of_length(length: Result<usize, u8>) -> Answer {
    let outcome = |length: usize| Outcome {
        result: length as u32,
        ..Outcome::default()
    };
    length.map(outcome).map_err(u32::from)
}

fn sweep(input: &[u8], out: &mut [u8]) -> Answer {
    second(Call::Sweep, input, out)
}

/// The side that looks at everything, and so is right.
pub const RIGHT: Side = blind!(|_| true);

/// Makes the change to every list of elements, the inner ones first.
fn each_list(list: &mut Vec<Element>, change: fn(&mut Vec<Element>)) {
    for element in list.iter_mut() {
        if let Element::Ambient { contents, .. } = element {
            each_list(contents, change);
        }
    }
    change(list);
}

/// The bytes of what is left, where the ambients around what was removed have the lengths that they had.
fn with_old_lengths(before: &[Element], left: &[Element], counts: &[usize]) -> Vec<u8> {
    let mut out = Vec::new();
    let mut left = left.iter();
    for element in before {
        match element {
            Element::Ambient { name, .. } if counts[usize::from(*name)] == 0 => {}
            Element::Ambient { contents, .. } => {
                let kept = left.next().and_then(Element::ambient).expect("it is left");
                let old = element.encode();
                out.extend(&old[..5]);
                out.extend(with_old_lengths(contents, kept.1, counts));
            }
            other => {
                left.next();
                out.extend(other.encode());
            }
        }
    }
    out
}

/// A wrong side, with what is wrong in it.
pub type Wrong = (&'static str, Side);

pub fn wrong_sweeps() -> Vec<Wrong> {
    let all: &[Wrong] = &[
        // Where a name is looked for.
        (
            "names behind an action are not seen",
            blind!(|place| !place.around.behind_action),
        ),
        (
            "names behind a replication are not seen",
            blind!(|place| !place.around.behind_replication),
        ),
        (
            "names behind a blocked action are not seen",
            blind!(|place| !place.around.behind_blocked),
        ),
        (
            "names behind an input are not seen",
            blind!(|place| !place.around.behind_input),
        ),
        (
            "names in an action are not seen",
            blind!(|place| place
                .acting
                .is_none_or(|(acting, _)| acting != Acting::Action)),
        ),
        (
            "names in the action of a replication are not seen",
            blind!(|place| place
                .acting
                .is_none_or(|(acting, _)| acting != Acting::Replication)),
        ),
        (
            "names in a blocked action are not seen",
            blind!(|place| place
                .acting
                .is_none_or(|(acting, _)| acting != Acting::Blocked)),
        ),
        (
            "names in an action with a count are not seen",
            blind!(|place| place.acting.is_none_or(|(_, has_count)| !has_count)),
        ),
        (
            "targets are not seen",
            blind!(|place| place.part != Part::Target),
        ),
        (
            "channels are not seen",
            blind!(|place| place.part != Part::Channel),
        ),
        (
            "what is sent is not seen",
            blind!(|place| !matches!(place.part, Part::Sent(_))),
        ),
        (
            "of what is sent only the first is seen",
            blind!(|place| !matches!(place.part, Part::Sent(1..))),
        ),
        (
            "the last of four names is not seen",
            blind!(|place| place.part != Part::Sent(3)),
        ),
        (
            "names of process ambients are not seen",
            blind!(|place| place.part != Part::Process),
        ),
        (
            "names of empty ambients are not seen",
            blind!(|place| place.part != Part::Element(true)),
        ),
        (
            "names of ambients that hold something are not seen",
            blind!(|place| place.part != Part::Element(false)),
        ),
        (
            "names of ambients are not seen",
            blind!(|place| !matches!(place.part, Part::Element(_))),
        ),
        (
            "references are not seen",
            blind!(|place| matches!(place.part, Part::Element(_))),
        ),
        (
            "names in a blocked ambient are not seen",
            blind!(|place| !place.around.in_blocked),
        ),
        (
            "names in the left part of a parallel are not seen",
            blind!(|place| !place.around.left),
        ),
        (
            "names in the right part of a parallel are not seen",
            blind!(|place| !place.around.right),
        ),
        (
            "names in a restriction are not seen",
            blind!(|place| !place.around.restricted),
        ),
        (
            "names in a process ambient are not seen",
            blind!(|place| !place.around.in_ambient),
        ),
        (
            "names deeper than 31 are not seen",
            blind!(|place| place.around.depth < 31),
        ),
        (
            "names in the deepest ambient are not seen",
            blind!(|place| place.around.nesting + 1 < NESTING),
        ),
        (
            "names in ambients are not seen",
            blind!(|place| place.around.nesting == 0),
        ),
        (
            "names at the root are not seen",
            blind!(|place| place.around.nesting > 0),
        ),
        // How they are counted.
        (
            "a variable is the name of its number",
            going!(|state, element, counts, _| {
                let found = all_places(state);
                let is_variable = |name| {
                    let variable = Reference::Variable(name);
                    found.iter().any(|place| place.reference == variable)
                };
                is_due(state, element, counts) && !empty_name(element).is_some_and(is_variable)
            }),
        ),
        (
            "counts in one byte",
            going!(|state, element, counts, _| {
                let counts: Vec<usize> = counts.iter().map(|count| count % 256).collect();
                is_due(state, element, &counts)
            }),
        ),
        (
            "names in one byte",
            going!(|state, element, counts, _| {
                let of_byte = |name: u16| counts.iter().skip(usize::from(name % 256)).step_by(256);
                is_due(state, element, counts)
                    && empty_name(element).is_some_and(|name| of_byte(name).sum::<usize>() == 1)
            }),
        ),
        (
            "names modulo 2,048",
            going!(|state, element, counts, _| {
                let other = |name: u16| counts[usize::from((name + 2_048) % 4_096)];
                is_due(state, element, counts)
                    && empty_name(element).is_some_and(|name| other(name) == 0)
            }),
        ),
        (
            "names are not looked for",
            going!(|state, element, _, _| is_due(state, element, &[0; 4_096])),
        ),
        (
            "what stands twice goes",
            going!(|state, element, counts, _| {
                empty_name(element)
                    .is_some_and(|name| name >= state.free && counts[usize::from(name)] <= 2)
            }),
        ),
        (
            "of two empty ambients of one name one goes",
            sweeping!(|state| {
                let counts = name_counts(state);
                *state = swept(state);
                let twice = |element: &Element| {
                    empty_name(element).is_some_and(|name| counts[usize::from(name)] == 2)
                };
                let free = state.free;
                let goes =
                    |element: &Element, _| twice(element) && empty_name(element) >= Some(free);
                remove_first(&mut state.elements, ROOT, &goes);
            }),
        ),
        // Which names may go.
        (
            "free names go",
            going!(|_, element, counts, _| {
                empty_name(element).is_some_and(|name| counts[usize::from(name)] == 1)
            }),
        ),
        (
            "the last free name goes",
            going!(|state, element, counts, _| {
                let is_last = empty_name(element)
                    .is_some_and(|name| name + 1 == state.free && counts[usize::from(name)] == 1);
                is_last || is_due(state, element, counts)
            }),
        ),
        (
            "the name F stays",
            going!(|state, element, counts, _| {
                is_due(state, element, counts) && empty_name(element) != Some(state.free)
            }),
        ),
        (
            "the last name stays",
            going!(|state, element, counts, _| {
                is_due(state, element, counts) && empty_name(element) != Some(state.next - 1)
            }),
        ),
        (
            "the name 4,095 stays",
            going!(|state, element, counts, _| {
                is_due(state, element, counts) && empty_name(element) != Some(4_095)
            }),
        ),
        // What may go.
        (
            "41 stay",
            going!(|state, element, counts, _| {
                is_due(state, element, counts) && !element.is_blocked()
            }),
        ),
        (
            "40 stay",
            going!(|state, element, counts, _| {
                is_due(state, element, counts) && element.is_blocked()
            }),
        ),
        (
            "what is in a 41 stays",
            going!(|state, element, counts, list| {
                is_due(state, element, counts) && !list.blocked
            }),
        ),
        (
            "what is as deep as may be stays",
            going!(|state, element, counts, list| {
                is_due(state, element, counts) && list.nesting + 1 < NESTING
            }),
        ),
        (
            "only what is at the root goes",
            going!(|state, element, counts, list| {
                is_due(state, element, counts) && list.nesting == 0
            }),
        ),
        (
            "only what is in an ambient goes",
            going!(|state, element, counts, list| {
                is_due(state, element, counts) && list.nesting > 0
            }),
        ),
        (
            "what holds something goes",
            going!(|state, element, counts, _| {
                let is_wrong = |(name, _)| is_unused(state, name, counts);
                element.ambient().is_some_and(is_wrong)
            }),
        ),
        (
            "what holds only blocked ones goes",
            going!(|state, element, counts, _| {
                element.ambient().is_some_and(|(name, contents)| {
                    contents.iter().all(Element::is_blocked) && is_unused(state, name, counts)
                })
            }),
        ),
        (
            "what holds only a null goes",
            going!(|state, element, counts, _| {
                let null = Element::Process(Process::Null);
                element.ambient().is_some_and(|(name, contents)| {
                    contents.iter().all(|inner| *inner == null) && is_unused(state, name, counts)
                })
            }),
        ),
        (
            "what holds only empty ambients goes",
            going!(|state, element, counts, _| {
                element.ambient().is_some_and(|(name, contents)| {
                    contents.iter().all(|inner| empty_name(inner).is_some())
                        && is_unused(state, name, counts)
                })
            }),
        ),
        (
            "a null goes too",
            sweeping!(|state| {
                *state = swept(state);
                let null = Element::Process(Process::Null);
                remove_first(&mut state.elements, ROOT, &|element, _| *element == null);
            }),
        ),
        // How often, and where.
        ("only one round", sweeping!(|state| in_rounds(state, 1))),
        ("only two rounds", sweeping!(|state| in_rounds(state, 2))),
        (
            "a round too few",
            sweeping!(|state| in_rounds(state, NESTING - 1)),
        ),
        (
            "only the first goes",
            sweeping!(|state| {
                let counts = name_counts(state);
                let free = state.free;
                let goes = |element: &Element, _| is_thrown_away(element, free, &counts);
                remove_first(&mut state.elements, ROOT, &goes);
            }),
        ),
        ("nothing goes", sweeping!(|_| {})),
        // What else is changed.
        (
            "N is the name behind the last that is used",
            sweeping!(|state| {
                *state = swept(state);
                let last = name_counts(state).iter().rposition(|count| *count > 0);
                let next = last.map_or(0, |last| last as u16 + 1);
                state.next = next.max(state.free);
            }),
        ),
        (
            "N is lowered by as many as went",
            sweeping!(|state| {
                let before = all_places(state).len();
                *state = swept(state);
                state.next -= (before - all_places(state).len()) as u16;
            }),
        ),
        (
            "N is F where no name is left above F",
            sweeping!(|state| {
                *state = swept(state);
                let counts = name_counts(state);
                if counts[usize::from(state.free)..]
                    .iter()
                    .all(|count| *count == 0)
                {
                    state.next = state.free;
                }
            }),
        ),
        (
            "F is 0",
            sweeping!(|state| {
                *state = swept(state);
                state.free = 0;
            }),
        ),
        (
            "an emptied 41 is a 40 again",
            sweeping!(|state| {
                let before = state.clone();
                *state = swept(state);
                if *state != before {
                    each_list(&mut state.elements, |list| {
                        for element in list {
                            if let Element::Ambient {
                                blocked, contents, ..
                            } = element
                            {
                                *blocked = *blocked && !contents.is_empty();
                            }
                        }
                    });
                }
            }),
        ),
        (
            "an emptied 40 is blocked",
            sweeping!(|state| {
                let before = state.clone();
                *state = swept(state);
                if *state != before {
                    each_list(&mut state.elements, |list| {
                        for element in list {
                            if let Element::Ambient {
                                blocked, contents, ..
                            } = element
                            {
                                *blocked = *blocked || contents.is_empty();
                            }
                        }
                    });
                }
            }),
        ),
        (
            "what is left stands in the reverse order",
            sweeping!(|state| {
                let before = state.clone();
                *state = swept(state);
                if *state != before {
                    each_list(&mut state.elements, |list| list.reverse());
                }
            }),
        ),
        (
            "the last element takes the place of the first that went",
            sweeping!(|state| {
                let counts = name_counts(state);
                let free = state.free;
                let goes = |element: &Element| is_thrown_away(element, free, &counts);
                if let Some(index) = state.elements.iter().position(goes) {
                    state.elements.swap_remove(index);
                }
                *state = swept(state);
            }),
        ),
        (
            "the state's length is the old one",
            answered!(|input, out| {
                let outcome = sweep(input, out)?;
                out[1..3].copy_from_slice(&input[1..3]);
                Ok(outcome)
            }),
        ),
        (
            "the lengths of ambients are the old ones",
            answered!(|input, out| {
                let outcome = sweep(input, out)?;
                let before = read_state(input).expect("an accepted state");
                let left = swept(&before);
                let counts = name_counts(&left);
                let bytes = with_old_lengths(&before.elements, &left.elements, &counts);
                out[7..7 + bytes.len()].copy_from_slice(&bytes);
                Ok(outcome)
            }),
        ),
        // What is written, and what is answered.
        (
            "a byte behind the result",
            answered!(|input, out| {
                let outcome = sweep(input, out)?;
                if let Some(byte) = out.get_mut(outcome.result as usize) {
                    *byte ^= 1;
                }
                Ok(outcome)
            }),
        ),
        (
            "the rest of the buffer is cleared",
            answered!(|input, out| {
                let outcome = sweep(input, out)?;
                out[outcome.result as usize..].fill(0);
                Ok(outcome)
            }),
        ),
        (
            "the whole state is written first",
            answered!(|input, out| {
                let outcome = sweep(input, out)?;
                let room = out.len().min(input.len());
                out[..room].copy_from_slice(&input[..room]);
                sweep(input, out)?;
                Ok(outcome)
            }),
        ),
        (
            "the head is written on a refusal",
            answered!(|input, out| {
                sweep(input, out).inspect_err(|_| {
                    if let Some(byte) = out.first_mut() {
                        *byte = 0x11;
                    }
                })
            }),
        ),
        (
            "what fits is written where it does not fit",
            answered!(|input, out| {
                sweep(input, out).inspect_err(|number| {
                    if *number == 13 {
                        let mut whole = vec![0; input.len()];
                        let whole_length = sweep(input, &mut whole).map(|outcome| outcome.result);
                        assert!(whole_length.is_ok());
                        let room = out.len();
                        out.copy_from_slice(&whole[..room]);
                    }
                })
            }),
        ),
        (
            "the length of the state before",
            answered!(|input, out| {
                let outcome = sweep(input, out)?;
                let result = input.len() as u32;
                Ok(Outcome { result, ..outcome })
            }),
        ),
        (
            "how many went for the length",
            answered!(|input, out| {
                let outcome = sweep(input, out)?;
                let result = (input.len() as u32 - outcome.result) / 5;
                Ok(Outcome { result, ..outcome })
            }),
        ),
        // What is refused.
        (
            "a full buffer is refused",
            answered!(|input, out| {
                let room = out.len().max(1) - 1;
                sweep(input, &mut out[..room])
            }),
        ),
        (
            "a buffer of one byte too few will do",
            answered!(|input, out| match sweep(input, out) {
                Err(13) => {
                    let mut whole = vec![0; out.len() + 1];
                    let outcome = sweep(input, &mut whole)?;
                    let room = out.len();
                    out.copy_from_slice(&whole[..room]);
                    Ok(outcome)
                }
                answer => answer,
            }),
        ),
        (
            "13 goes by the state's length",
            answered!(|input, out| {
                if read_state(input).is_ok() && input.len() > out.len() {
                    return Err(13);
                }
                sweep(input, out)
            }),
        ),
        (
            "13 before 7",
            answered!(|input, out| match sweep(input, out) {
                Err(7) => {
                    let state = read_state_with_pairs(input).expect("7 is the only fault");
                    match swept(&state).encode().len() > out.len() {
                        true => Err(13),
                        false => Err(7),
                    }
                }
                answer => answer,
            }),
        ),
        (
            "13 before 2 to 6 and 14",
            answered!(|input, out| match sweep(input, out) {
                Err(2..=6 | 14) if input.len() > out.len() => Err(13),
                answer => answer,
            }),
        ),
        (
            "7 is not judged",
            answered!(|input, out| {
                let state = read_state_with_pairs(input).map_err(u32::from)?;
                of_length(deliver(&swept(&state).encode(), out))
            }),
        ),
        (
            "7 is judged in what is left",
            answered!(|input, out| match sweep(input, out) {
                Err(7) => {
                    let state = read_state_with_pairs(input).expect("7 is the only fault");
                    match swept(&state) == state {
                        true => Err(7),
                        false => of_length(deliver(&swept(&state).encode(), out)),
                    }
                }
                answer => answer,
            }),
        ),
        (
            "6 for 14",
            answered!(|input, out| match sweep(input, out) {
                Err(14) => Err(6),
                answer => answer,
            }),
        ),
        (
            "a long state is cut off",
            answered!(|input, out| sweep(&input[..input.len().min(LONGEST)], out)),
        ),
        (
            "a result has at most 32,767 bytes",
            answered!(|input, out| {
                let room = out.len().min(LONGEST - 1);
                sweep(input, &mut out[..room])
            }),
        ),
        (
            "what is left as it was is refused",
            answered!(|input, out| match sweep(input, out) {
                Ok(outcome) if outcome.result as usize == input.len() => Err(8),
                answer => answer,
            }),
        ),
    ];
    all.to_vec()
}
