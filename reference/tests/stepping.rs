// The rules one by one, the refusals 8 to 13, and what holds of every step, listing and run.

use reference::cases::every_case;
use reference::dice::{Counts, Dice};
use reference::machine::*;
use reference::spelling::{read_state, Spelled};
use reference::tree::{Action, Element, Kind, Process, Reference, State};
use std::collections::BTreeSet;
use std::slice::from_ref;

fn state(elements: Vec<Element>) -> State {
    State {
        free: 9,
        next: 9,
        elements,
    }
}

/// A step on these elements at the root.
fn after(elements: &[Element], place: u16, partner: u16) -> Result<(u8, Vec<Element>), u8> {
    let before = state(elements.to_vec());
    assert_eq!(read_state(&before.encode()), Ok(before.clone()));
    advance(&before, place, partner).map(|(rule, next)| (rule, next.elements))
}

/// A process that is told apart by its name.
fn mark(name: u16) -> Process {
    Process::Ambient(Reference::Name(name), Box::new(Process::Null))
}

/// A mark with the name of the variable just bound.
fn bound() -> Process {
    Process::Ambient(Reference::Variable(0), Box::new(Process::Null))
}

fn unblocked(kind: Kind, names: &[u16], part: Process) -> Element {
    Element::Process(Process::Action(Action::named(kind, names), Box::new(part)))
}

fn blocked(kind: Kind, names: &[u16], part: Process) -> Element {
    Element::BlockedAction(Action::named(kind, names), part)
}

fn marked(name: u16) -> Element {
    Element::Process(mark(name))
}

fn open(name: u16, contents: &[Element]) -> Element {
    Element::Ambient {
        blocked: false,
        name,
        contents: contents.to_vec(),
    }
}

fn shut(name: u16, contents: &[Element]) -> Element {
    Element::Ambient {
        blocked: true,
        name,
        contents: contents.to_vec(),
    }
}

/// The ambient around this action: blocked with it.
fn holder(action: &Element) -> fn(u16, &[Element]) -> Element {
    if action.is_blocked() {
        shut
    } else {
        open
    }
}

#[test]
fn rules_29_to_34() {
    let beside = blocked(Kind::Release, &[0], mark(1));
    let around =
        |inner: &[Element]| vec![open(0, &[from_ref(&beside), inner, &[marked(3)]].concat())];
    let becomes = |process: Process, rule: u8, outcome: &[Element]| {
        let before = around(&[Element::Process(process)]);
        assert_eq!(after(&before, 2, NO_PARTNER), Ok((rule, around(outcome))));
        assert_eq!(after(&before, 2, 1), Err(9));
        assert_eq!(after(&before, 2, 2), Err(9));
    };
    becomes(Process::Null, 31, &[]);
    let both = Process::Parallel(Box::new(mark(4)), Box::new(mark(5)));
    becomes(both, 32, &[marked(4), marked(5)]);
    let inner = [Element::Process(Process::Null)];
    becomes(mark(4), 34, &[open(4, &inner)]);

    let before = around(&[open(5, &[shut(6, &[]), beside.clone()])]);
    let blocked = around(&[shut(5, &[shut(6, &[]), beside.clone()])]);
    assert_eq!(after(&before, 2, NO_PARTNER), Ok((29, blocked.clone())));
    assert_eq!(after(&before, 0, NO_PARTNER), Err(8));
    assert_eq!(after(&before, 1, NO_PARTNER), Err(8));
    assert_eq!(after(&before, 3, NO_PARTNER), Err(8));
    assert_eq!(after(&before, 5, NO_PARTNER).unwrap().0, 34);
    assert_eq!(after(&before, 6, NO_PARTNER), Err(8));
    assert_eq!(after(&before, 65_535, NO_PARTNER), Err(8));
    assert_eq!(after(&blocked, 2, NO_PARTNER), Err(8));
    assert_eq!(
        after(&[open(1, &[])], 0, NO_PARTNER),
        Ok((29, vec![shut(1, &[])]))
    );
}

#[test]
fn replication_puts_the_copy_behind_the_action() {
    let action = Action::named(Kind::ExternalInput, &[2]);
    let copy = Process::Replication(action, Box::new(bound()));
    let both = Process::Parallel(Box::new(bound()), Box::new(copy.clone()));
    let expected = Element::Process(Process::Action(action, Box::new(both)));
    let outcome = after(&[Element::Process(copy)], 0, NO_PARTNER);
    assert_eq!(outcome, Ok((30, vec![expected])));
}

#[test]
fn restriction_takes_the_next_name() {
    // The binder is reached from under an input and under another restriction.
    let inner = |outer: Reference| {
        let references = [outer, Reference::Variable(0), Reference::Name(3)];
        let action = Action::of_references(Kind::SiblingOutput, 1, &references);
        Process::Action(
            action,
            Box::new(Process::Ambient(outer, Box::new(Process::Null))),
        )
    };
    let under_restriction = |outer| Process::Restriction(Box::new(inner(outer)));
    let under_input = |outer| {
        Process::Action(
            Action::named(Kind::InternalInput, &[0]),
            Box::new(inner(outer)),
        )
    };
    let both = |outer| {
        Process::Parallel(
            Box::new(under_restriction(outer)),
            Box::new(under_input(outer)),
        )
    };
    let before = Process::Restriction(Box::new(both(Reference::Variable(1))));
    let before = state(vec![Element::Process(before)]);
    let (rule, next) = advance(&before, 0, NO_PARTNER).unwrap();
    let expected = Element::Process(both(Reference::Name(9)));
    assert_eq!((rule, next.free, next.next), (33, 9, 10));
    assert_eq!(next.elements, vec![expected]);
}

/// Both sides of a pair, once with the first acting and once with the second.
fn both_ways(
    build: impl Fn(Element, Element) -> Vec<Element>,
    actions: [(Kind, &[u16], Process); 2],
    places: [u16; 2],
    first_rule: u8,
    expected: &[Element],
) {
    let [(kind, names, part), (other_kind, other_names, other_part)] = actions;
    let first = |make: fn(Kind, &[u16], Process) -> Element| make(kind, names, part.clone());
    let second = |make: fn(Kind, &[u16], Process) -> Element| {
        make(other_kind, other_names, other_part.clone())
    };
    for (elements, place, partner, rule) in [
        (
            build(first(unblocked), second(blocked)),
            places[0],
            places[1],
            first_rule,
        ),
        (
            build(first(blocked), second(unblocked)),
            places[1],
            places[0],
            first_rule + 1,
        ),
    ] {
        let outcome = after(&elements, place, partner);
        assert_eq!(outcome, Ok((rule, expected.to_vec())));
        assert_eq!(after(&elements, place, NO_PARTNER), Err(10));
        for wrong in 0..30 {
            if wrong != partner {
                assert_eq!(after(&elements, place, wrong), Err(9));
            }
        }
    }
}

#[test]
fn rules_35_and_36() {
    let build = |output: Element, input: Element| {
        vec![
            holder(&input)(1, &[shut(3, &[]), input]),
            marked(8),
            holder(&output)(
                0,
                &[blocked(Kind::Release, &[5], mark(5)), output, shut(4, &[])],
            ),
        ]
    };
    let actions: [(Kind, &[u16], Process); 2] = [
        (Kind::SiblingOutput, &[1, 2, 7], mark(6)),
        (Kind::ExternalInput, &[2], bound()),
    ];
    let expected = [
        open(1, &[shut(3, &[]), marked(7)]),
        marked(8),
        open(
            0,
            &[
                blocked(Kind::Release, &[5], mark(5)),
                marked(6),
                shut(4, &[]),
            ],
        ),
    ];
    both_ways(build, actions, [6, 2], 35, &expected);
}

#[test]
fn rules_37_and_38() {
    let build = |output: Element, input: Element| {
        vec![
            input,
            marked(8),
            holder(&output)(1, &[shut(3, &[]), output]),
        ]
    };
    let actions: [(Kind, &[u16], Process); 2] = [
        (Kind::ParentOutput, &[2, 7], mark(6)),
        (Kind::InternalInput, &[2], bound()),
    ];
    let expected = [marked(7), marked(8), open(1, &[shut(3, &[]), marked(6)])];
    both_ways(build, actions, [4, 0], 37, &expected);
}

/// A blocked or unblocked action at the mover's top level, beside the one that moves it.
fn companion(make: fn(Kind, &[u16], Process) -> Element) -> Element {
    make(Kind::Accept, &[5], mark(5))
}

/// An ambient inside the mover, which stays as it is.
fn lower() -> Element {
    shut(4, &[blocked(Kind::Leave, &[6], mark(5))])
}

fn mover(action: Element) -> Element {
    holder(&action)(0, &[companion(blocked), action, lower()])
}

#[test]
fn rules_39_and_40() {
    // The mover stands before its host, and behind it. Only its top level is unblocked.
    let host = |accept: Element| {
        holder(&accept)(
            1,
            &[shut(3, &[]), accept, blocked(Kind::Release, &[8], mark(5))],
        )
    };
    let actions: [(Kind, &[u16], Process); 2] = [
        (Kind::Enter, &[1, 2], mark(6)),
        (Kind::Accept, &[2], mark(7)),
    ];
    let moved = open(0, &[companion(unblocked), marked(6), lower()]);
    let entered = open(
        1,
        &[
            shut(3, &[]),
            marked(7),
            moved,
            blocked(Kind::Release, &[8], mark(5)),
        ],
    );
    let before = |enter, accept| vec![mover(enter), marked(8), host(accept)];
    let expected = [marked(8), entered.clone()];
    both_ways(before, actions.clone(), [2, 8], 39, &expected);
    let behind = |enter, accept| vec![host(accept), marked(8), mover(enter)];
    let expected = [entered, marked(8)];
    both_ways(behind, actions, [7, 2], 39, &expected);
}

#[test]
fn rules_41_and_42() {
    let build = |leave: Element, release: Element| {
        vec![
            marked(3),
            open(1, &[shut(3, &[]), mover(leave), release]),
            marked(8),
        ]
    };
    let actions: [(Kind, &[u16], Process); 2] =
        [(Kind::Leave, &[2], mark(6)), (Kind::Release, &[2], mark(7))];
    let moved = open(0, &[companion(unblocked), marked(6), lower()]);
    let left = open(1, &[shut(3, &[]), marked(7)]);
    let expected = [marked(3), left, moved, marked(8)];
    both_ways(build, actions, [5, 8], 41, &expected);
}

#[test]
fn an_action_without_partner_blocks() {
    let blocks = |elements: &[Element], place: u16| {
        assert_eq!(
            after(elements, place, NO_PARTNER).map(|(rule, _)| rule),
            Ok(43)
        );
        for partner in 0..12 {
            assert_eq!(after(elements, place, partner), Err(9));
        }
    };
    let null = || Process::Null;
    // Outside every ambient only an internal input meets a partner.
    for kind in Kind::ALL {
        let partner = open(1, &[blocked(answer(kind), &[1, 1, 1][..], null())]);
        let own = unblocked(kind, &[1, 1, 1], null());
        if kind == Kind::InternalInput {
            assert_eq!(after(&[own, partner], 0, 2).unwrap().0, 38);
        } else {
            blocks(&[own, partner], 0);
        }
    }
    // An ambient is not its own sibling; a leave at the root's edge finds no release.
    let output = unblocked(Kind::SiblingOutput, &[1, 2, 3], null());
    let input = blocked(Kind::ExternalInput, &[2], null());
    blocks(
        &[open(1, &[output.clone(), input.clone()]), shut(1, &[])],
        1,
    );
    let leave = open(1, &[unblocked(Kind::Leave, &[2], null())]);
    blocks(&[leave, blocked(Kind::Release, &[2], null())], 1);
    // The nearest sibling does not answer, but a farther one does.
    let deaf = shut(1, &[blocked(Kind::ExternalInput, &[3], null())]);
    let siblings = [open(0, &[output]), deaf, shut(1, &[input])];
    assert_eq!(after(&siblings, 1, NO_PARTNER), Err(10));
    assert_eq!(after(&siblings, 1, 3), Err(9));
    assert_eq!(after(&siblings, 1, 5).unwrap().0, 35);
}

#[test]
fn results_beyond_the_limits() {
    // Replication is two deeper afterwards.
    for (depth, number) in [(31, None), (32, Some(12)), (33, Some(12))] {
        let part = (1..depth).fold(Process::Null, |part, _| {
            Process::Restriction(Box::new(part))
        });
        let action = Action::named(Kind::Accept, &[0]);
        let process = Process::Replication(action, Box::new(part));
        let outcome = after(&[Element::Process(process)], 0, NO_PARTNER);
        assert_eq!(outcome.err(), number);
    }
    // A process ambient inside seven and inside eight.
    for (levels, number) in [(7, None), (8, Some(12))] {
        let inner = (0..levels).fold(marked(1), |inner, _| open(0, &[inner]));
        assert_eq!(after(&[inner], levels, NO_PARTNER).err(), number);
    }
    // An ambient that enters takes all it holds one deeper; 12 comes before 13.
    for (levels, number) in [(6, Ok(39)), (7, Err(12))] {
        let held = (0..levels).fold(vec![], |inner, _| vec![shut(0, &inner)]);
        let enter = unblocked(Kind::Enter, &[1, 2], Process::Null);
        let mover = open(0, &[vec![enter], held].concat());
        let host = shut(1, &[blocked(Kind::Accept, &[2], Process::Null)]);
        let before = state(vec![mover, host]).encode();
        let mut out = [0xEE; 1_000];
        let partner = levels + 3;
        let outcome = step(&before, 1, partner, &mut out);
        assert_eq!(outcome.map(|(rule, _)| rule), number);
        let tight = if number.is_ok() { Err(13) } else { Err(12) };
        assert_eq!(step(&before, 1, partner, &mut out[..9]), tight);
    }
}

/// Every call on one state; gives the rules that were used.
fn check_calls(bytes: &[u8], rules: &mut BTreeSet<u8>) {
    let state = read_state(bytes).unwrap();
    let before = weight(&state);
    let places = acting_places(&state);
    assert_eq!(places.is_empty(), before == 0);

    let mut out = vec![0xEE; 2 * places.len() + 3];
    assert_eq!(list(bytes, &mut out), Ok(2 * places.len()));
    let listed: Vec<u8> = places
        .iter()
        .flat_map(|place| place.to_be_bytes())
        .collect();
    assert_eq!(out, [&listed[..], &[0xEE; 3]].concat());
    if let Some(short) = (2 * places.len()).checked_sub(1) {
        let mut out = vec![0xEE; short];
        assert_eq!(list(bytes, &mut out), Err(13));
        assert!(out.iter().all(|byte| *byte == 0xEE));
    }

    let count = paths(&state).len() as u16;
    for place in 0..=count {
        let can_act = places.contains(&place);
        let partners = if can_act {
            partner_places(&state, place)
        } else {
            vec![]
        };
        for partner in (0..=count).chain([NO_PARTNER]) {
            let mut out = [0xEE; 4_000];
            let outcome = step(bytes, place, partner, &mut out);
            let named = partner != NO_PARTNER;
            let due = match (can_act, named) {
                (false, _) => Some(8),
                (true, true) if !partners.contains(&partner) => Some(9),
                (true, false) if !partners.is_empty() => Some(10),
                _ => None,
            };
            match outcome {
                Err(number) => {
                    assert!(due == Some(number) || due.is_none() && (11..=13).contains(&number));
                    assert!(out.iter().all(|byte| *byte == 0xEE));
                }
                Ok((rule, length)) => {
                    assert_eq!(due, None);
                    rules.insert(rule);
                    assert!(out[length..].iter().all(|byte| *byte == 0xEE));
                    // What comes out is a good state, and lighter by one unless two actions met.
                    let after = weigh(&out[..length]).unwrap();
                    assert_eq!(named, (35..=42).contains(&rule));
                    assert!(named || after + 1 == before);
                    let mut short = vec![0xEE; length - 1];
                    assert_eq!(step(bytes, place, partner, &mut short), Err(13));
                    assert!(short.iter().all(|byte| *byte == 0xEE));
                }
            }
        }
    }
}

#[test]
fn every_call_on_many_states() {
    let mut rules = BTreeSet::new();
    let mut turn = 0;
    every_case(Counts::All, 3, 1, &mut |group, bytes| {
        turn += 1;
        let chosen = match group {
            "printed" => true,
            "reached states" => turn % 3 == 0,
            "random states" => turn % 20 == 0,
            _ => false,
        };
        if chosen && bytes.len() < 300 && read_state(bytes).is_ok() {
            check_calls(bytes, &mut rules);
        }
    });
    assert_eq!(
        rules.into_iter().collect::<Vec<u8>>(),
        (29..=43).collect::<Vec<u8>>()
    );
}

/// A run told by single steps: the ending, the count and the last state.
fn run_by_steps(bytes: &[u8], budget: u16, room: usize) -> (Ending, u16, Vec<u8>) {
    let mut present = bytes.to_vec();
    let mut steps = 0;
    loop {
        let state = read_state(&present).unwrap();
        if weight(&state) == 0 {
            return (Ending::Blocked, steps, present);
        }
        if steps == budget {
            return (Ending::Spent, steps, present);
        }
        let place = acting_places(&state)[0];
        let partners = partner_places(&state, place);
        let partner = partners.first().copied().unwrap_or(NO_PARTNER);
        let mut out = vec![0; room];
        match step(&present, place, partner, &mut out) {
            Ok((_, length)) => present = out[..length].to_vec(),
            Err(number) => return (Ending::Limit(number), steps, present),
        }
        steps += 1;
    }
}

/// The run into a buffer of this length ends so, after so many steps, and writes the last state alone.
fn assert_run(first: &[u8], budget: u16, room: usize, due: (Ending, u16, &[u8])) {
    let (ending, steps, last) = due;
    let length = last.len();
    let mut out = vec![0xEE; room];
    assert_eq!(
        run(first, budget, &mut out),
        Ok(Run {
            ending,
            steps,
            length
        })
    );
    assert_eq!(out[..length], *last);
    assert!(out[length..].iter().all(|byte| *byte == 0xEE));
}

#[test]
fn runs_are_their_steps() {
    let mut dice = Dice::new(Counts::All, 11);
    let mut endings = BTreeSet::new();
    for turn in 0..3_000 {
        let size = 5 + dice.below(40);
        let mut bytes = vec![0; 4_000];
        if turn % 2 == 0 {
            let Ok(length) = load(&dice.job(size).encode(), &mut bytes) else {
                continue;
            };
            bytes.truncate(length);
        } else {
            bytes = dice.state(size).encode();
        }
        if read_state(&bytes).is_err() {
            continue;
        }
        for (budget, room) in [(0, 4_000), (3, 4_000), (80, 4_000), (80, bytes.len() + 20)] {
            let room = room.max(bytes.len());
            let (ending, steps, last) = run_by_steps(&bytes, budget, room);
            assert_run(&bytes, budget, room, (ending, steps, &last));
            endings.insert(format!("{ending:?}"));
        }
        // A first state that does not fit is turned down before any ending.
        let mut short = vec![0xEE; bytes.len() - 1];
        assert_eq!(run(&bytes, 0, &mut short), Err(13));
        assert!(short.iter().all(|byte| *byte == 0xEE));
    }
    for ending in ["Blocked", "Spent", "Limit(13)"] {
        assert!(endings.contains(ending), "no run ended in {ending}");
    }
}

#[test]
fn runs_end_at_the_limits_with_the_last_good_state() {
    let last_name = reference::shapes::state_at_name(4_096);
    let deep = (0..8).fold(marked(1), |inner, _| open(0, &[inner]));
    let deep = state(vec![Element::Process(Process::Null), deep]);
    let mut grown = deep.clone();
    grown.elements.remove(0);
    for (first, last, steps, number) in [(&last_name, &last_name, 0, 11), (&deep, &grown, 1, 12)] {
        let (first, last) = (first.encode(), last.encode());
        assert_run(&first, 9, 200, (Ending::Limit(number), steps, &last));
        // A spent budget outranks the limit.
        assert_run(&first, steps, 200, (Ending::Spent, steps, &last));
    }
}
