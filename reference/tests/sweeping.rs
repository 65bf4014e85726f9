// Sweeps: what goes and what stays, spelled by hand and as it was made; the refusals in their order; what holds of every
// sweep; that a run that is swept at every turn goes on as the other; and that a wrong sweep is noticed. The answers are
// shown of the second implementation, and of the proved library where that sweeps.

use misswept::{wrong_sweeps, RIGHT};
use reference::cabinets::cabinet_jobs;
use reference::cases::{every_case, loaded};
use reference::choices::every_choice;
use reference::comparison::{proved, second, Call, Comparison, Outcome, Side};
use reference::counts::bytes;
use reference::dice::{with_name, Counts, Dice};
use reference::machine::{acting_places, advance, lowest_choice, partner_places, session, weight};
use reference::machine::{Choice, NO_PARTNER};
use reference::proved::SWEEPING;
use reference::sessions::example;
use reference::shapes::*;
use reference::spelling::{read_job, read_state, Spelled};
use reference::sweeping::{is_thrown_away, name_counts, swept};
use reference::throwaways::*;
use reference::tree::{Element, Kind, State};
use reference::uses::Use;
use std::collections::{BTreeMap, BTreeSet};

mod misswept;

/// The sides that can be called here.
fn sides() -> Vec<Side> {
    if SWEEPING {
        vec![second, proved]
    } else {
        vec![second]
    }
}

/// What every side leaves of a state, or the refusal; into a buffer that is longer than the state, as long as what is
/// left, and a byte too short. Nothing else is told, and no other byte changed.
fn left_of(state: &[u8]) -> Result<Vec<u8>, u32> {
    let mut due = None;
    for side in sides() {
        let lent = state.to_vec();
        let mut out = vec![0xA5; state.len() + 9];
        let answer = side(Call::Sweep, &lent, &mut out).map(|outcome| {
            let Outcome { result, .. } = outcome;
            let alone = Outcome {
                result,
                ..Outcome::default()
            };
            assert_eq!(outcome, alone);
            result as usize
        });
        assert_eq!(lent, state);
        let written = answer.unwrap_or(0);
        assert!(out[written..].iter().all(|byte| *byte == 0xA5));
        let left = answer.map(|length| out[..length].to_vec());
        if let Ok(left) = &left {
            let mut exact = vec![0xA5; left.len()];
            let length = side(Call::Sweep, &lent, &mut exact).map(|outcome| outcome.result);
            assert_eq!((length, &exact), (Ok(left.len() as u32), left));
            let mut short = vec![0xA5; left.len() - 1];
            assert_eq!(side(Call::Sweep, &lent, &mut short), Err(13));
            assert_eq!(side(Call::Sweep, &lent, &mut []), Err(13));
            assert!(short.iter().all(|byte| *byte == 0xA5));
        }
        assert_eq!(*due.get_or_insert(left.clone()), left);
    }
    due.expect("there is a side")
}

/// The bytes of a state with these F, N and elements.
fn spelled(free: u16, next: u16, elements: &str) -> Vec<u8> {
    let elements = bytes(elements);
    let mut state = vec![0x11];
    for number in [elements.len() as u16 + 4, free, next] {
        state.extend(number.to_be_bytes());
    }
    [state, elements].concat()
}

#[test]
fn by_hand() {
    for (what, free, next, before, after) in [
        ("nothing", 0, 0, "", ""),
        ("an empty 40", 0, 1, "40 0002 0000", ""),
        ("an empty 41", 0, 1, "41 0002 0000", ""),
        ("both", 1, 3, "40 0002 0001 41 0002 0002", ""),
        // Names below F.
        ("a free name", 1, 1, "40 0002 0000", "40 0002 0000"),
        ("a free name", 3, 9, "41 0002 0002", "41 0002 0002"),
        ("the name F", 3, 9, "41 0002 0003", ""),
        ("the last name", 1024, 4096, "40 0002 0FFF", ""),
        (
            "below F and above",
            2,
            4,
            "40 0002 0003 40 0002 0001 41 0002 0002 41 0002 0000",
            "40 0002 0001 41 0002 0000",
        ),
        // In each other.
        (
            "nested",
            0,
            3,
            "40 000C 0002 40 0007 0000 41 0002 0001",
            "",
        ),
        (
            "nested in a free one",
            1,
            3,
            "40 000C 0000 41 0007 0002 41 0002 0001",
            "40 0002 0000",
        ),
        (
            "a free one in two others",
            1,
            3,
            "40 000C 0001 40 0007 0002 41 0002 0000",
            "40 000C 0001 40 0007 0002 41 0002 0000",
        ),
        (
            "emptied by the sweep, among others",
            1,
            4,
            "42 0003 20 0000 40 000C 0001 40 0002 0002 40 0002 0003 41 0002 0000",
            "42 0003 20 0000 41 0002 0000",
        ),
        // In a 41.
        ("in a 41", 1, 2, "41 0007 0000 41 0002 0001", "41 0002 0000"),
        (
            "in a 41, beside a blocked action",
            1,
            2,
            "41 0012 0000 41 0002 0001 43 0008 36 0002 0000 20 0000",
            "41 000D 0000 43 0008 36 0002 0000 20 0000",
        ),
        // Twice.
        (
            "two of one name",
            1,
            2,
            "40 0002 0001 41 0002 0001",
            "40 0002 0001 41 0002 0001",
        ),
        (
            "one in another of its name",
            1,
            2,
            "40 0007 0001 40 0002 0001",
            "40 0007 0001 40 0002 0001",
        ),
        (
            "one in another list of its name",
            1,
            3,
            "40 000C 0000 40 0002 0001 41 0002 0002 40 0002 0001",
            "40 0007 0000 40 0002 0001 40 0002 0001",
        ),
        // With something in it.
        (
            "a null in it",
            0,
            1,
            "40 0008 0000 42 0003 20 0000",
            "40 0008 0000 42 0003 20 0000",
        ),
        (
            "a blocked action in it, on its own name",
            0,
            2,
            "41 000D 0000 43 0008 36 0002 0001 20 0000",
            "41 000D 0000 43 0008 36 0002 0001 20 0000",
        ),
        // In processes and actions.
        (
            "a process ambient",
            0,
            1,
            "40 0002 0000 42 0008 23 0005 0000 20 0000",
            "40 0002 0000 42 0008 23 0005 0000 20 0000",
        ),
        (
            "behind an action",
            1,
            2,
            "40 0002 0001 42 0010 24 000D 36 0002 0000 23 0005 0001 20 0000",
            "40 0002 0001 42 0010 24 000D 36 0002 0000 23 0005 0001 20 0000",
        ),
        (
            "behind an action, another name",
            1,
            3,
            "40 0002 0002 42 0010 24 000D 36 0002 0000 23 0005 0001 20 0000",
            "42 0010 24 000D 36 0002 0000 23 0005 0001 20 0000",
        ),
        (
            "behind a blocked action",
            1,
            2,
            "41 0002 0001 43 000D 36 0002 0000 23 0005 0001 20 0000",
            "41 0002 0001 43 000D 36 0002 0000 23 0005 0001 20 0000",
        ),
        (
            "the channel of a blocked action",
            1,
            2,
            "43 0008 37 0002 0001 20 0000 41 0002 0001",
            "43 0008 37 0002 0001 20 0000 41 0002 0001",
        ),
        (
            "the target of an enter",
            1,
            2,
            "42 000D 24 000A 34 0004 0001 0000 20 0000 41 0002 0001",
            "42 000D 24 000A 34 0004 0001 0000 20 0000 41 0002 0001",
        ),
        (
            "the action of a replication",
            1,
            2,
            "42 000B 25 0008 35 0002 0001 20 0000 41 0002 0001",
            "42 000B 25 0008 35 0002 0001 20 0000 41 0002 0001",
        ),
        (
            "sent in a message of three",
            1,
            4,
            "42 0012 24 000F 39 0009 0000 03 0001 0000 0002 20 0000 40 0002 0001 41 0002 0003 40 0002 0002",
            "42 0012 24 000F 39 0009 0000 03 0001 0000 0002 20 0000 40 0002 0001 40 0002 0002",
        ),
        // A variable is no name.
        (
            "the variable 0 and the name 0",
            0,
            1,
            "42 000B 22 0008 23 0005 8000 20 0000 41 0002 0000",
            "42 000B 22 0008 23 0005 8000 20 0000",
        ),
    ] {
        let state = spelled(free, next, before);
        assert_eq!(left_of(&state), Ok(spelled(free, next, after)), "{what}");
    }
}

#[test]
fn what_was_made_to_go_goes() {
    let check = |littered: &Littered| {
        let left = left_of(&littered.state.encode());
        assert_eq!(left, Ok(littered.left.encode()), "{:?}", littered.state);
        littered.state != littered.left
    };
    // Every part in every way, where the ambient goes and where it does not.
    let mut seen = BTreeSet::new();
    each_use(&mut |part, standing, littered| {
        seen.insert((format!("{part:?}"), standing, check(littered)));
    });
    let parts = Use::all().len();
    assert_eq!(parts, 51);
    // The name of a process ambient is in no action.
    assert_eq!(seen.len(), 2 * (parts * Standing::ALL.len() - 2));
    let mut seen = BTreeSet::new();
    each_nest(&mut |stay, littered| {
        seen.insert((stay, check(littered)));
    });
    assert_eq!(seen.len(), 1 + 2 * Stay::ALL.len());
    each_variable(&mut |littered| assert!(check(littered)));
}

#[test]
fn long_ones() {
    let mut most = 0;
    let mut lengths = BTreeSet::new();
    for littered in long_states() {
        let (state, left) = (littered.state.encode(), littered.left.encode());
        assert_eq!(left_of(&state), Ok(left.clone()));
        most = most.max((state.len() - left.len()) / 5);
        lengths.extend([state.len(), left.len()]);
    }
    assert_eq!(most, 4_096);
    assert!([7, 32_765, 32_766, 32_767, 32_768]
        .iter()
        .all(|length| lengths.contains(length)));
    for size in [32_769, 32_770] {
        let state = too_long(size).encode();
        assert_eq!((state.len(), left_of(&state)), (size, Err(1)));
    }
    for size in [4_096, 32_768] {
        for state in none_to_remove(size) {
            let bytes = state.encode();
            assert_eq!((bytes.len(), left_of(&bytes)), (size, Ok(bytes.clone())));
        }
        for (name, state) in timed_sweeps(size) {
            assert_eq!(state.encode().len(), size, "{name}");
            let removed = (size - swept(&state).encode().len()) / 5;
            let due = match name {
                "all go" | "all go, in columns" => ((size - 30) / 5).min(4_095),
                "some go" => {
                    assert!(removed > size / 60 && removed < size / 10);
                    removed
                }
                _ => 0,
            };
            assert_eq!(removed, due, "{name}");
        }
    }
}

#[test]
fn refusals_in_their_order() {
    let sides = sides();
    let refused = |state: &[u8], number: u32| {
        for side in &sides {
            for room in [0, 1, state.len(), state.len() + 1, 70_000] {
                let mut out = vec![0xA5; room];
                assert_eq!(side(Call::Sweep, state, &mut out), Err(number));
                assert!(out.iter().all(|byte| *byte == 0xA5));
            }
        }
    };
    let thrown = ambient(2, vec![]);
    let receiver = blocked(Kind::InternalInput, &[1]);
    let sender = |blocked: fn(Kind, &[u16]) -> Element| blocked(Kind::ParentOutput, &[1, 0]);
    let with = |sender: Element| State {
        free: 2,
        next: 3,
        elements: vec![receiver.clone(), ambient(0, vec![sender]), thrown.clone()],
    };
    let good = with(sender(unblocked)).encode();
    let left = left_of(&good).unwrap();
    assert_eq!(left.len() + 5, good.len());
    // 7, whether or not what is left would fit.
    refused(&with(sender(blocked)).encode(), 7);
    // 1 to 6 and 14.
    refused(&too_long(32_769).encode(), 1);
    refused(&[&good[..], &[0; 40_000]].concat(), 1);
    refused(&[], 2);
    refused(&good[..good.len() - 1], 2);
    refused(&[0x10, 0, 5, 0, 1, 0x20, 0, 0], 3);
    refused(&[&good[..], &[0]].concat(), 4);
    let nested = (0..9).fold(vec![], |inner, _| vec![ambient(2, inner)]);
    let mut deep = root(2, nested);
    deep.next = 3;
    refused(&deep.encode(), 5);
    // A name that is not there is no throwaway's.
    refused(&spelled(1, 2, "40 0002 0002"), 6);
    refused(&spelled(0, 4_096, "40 0002 1000"), 6);
    refused(&spelled(0, 1, "40 0002 8000"), 6);
    refused(&spelled(1_025, 1_025, "40 0002 0000"), 6);
    refused(&spelled(3, 2, ""), 6);
    refused(&spelled(0, 4_097, ""), 6);
    refused(&spelled(0, 1, "41 0008 0000 42 0003 20 0000"), 3);
    refused(&spelled(0, 1, "43 0009 3A 0003 0000 01 20 0000"), 14);
    refused(&spelled(0, 1, "43 0009 3A 0003 0000 05 20 0000"), 14);
}

/// The elements that are left have all that was there but ambients that held nothing, or only such ambients: gives the
/// names of these.
fn gone(before: &[Element], left: &[Element], counts: &[usize]) -> Vec<u16> {
    let mut names = Vec::new();
    let mut left = left.iter();
    for element in before {
        match element {
            Element::Ambient { name, contents, .. } if counts[usize::from(*name)] == 0 => {
                names.push(*name);
                names.extend(gone(contents, &[], counts));
            }
            Element::Ambient {
                blocked,
                name,
                contents,
            } => {
                let Some(Element::Ambient {
                    blocked: is_blocked,
                    name: own,
                    contents: kept,
                }) = left.next()
                else {
                    panic!("the ambient {name} is not left in its place");
                };
                assert_eq!((is_blocked, own), (blocked, name));
                names.extend(gone(contents, kept, counts));
            }
            other => assert_eq!(left.next(), Some(other)),
        }
    }
    assert_eq!(left.next(), None);
    names
}

/// How often each rule is taken by a step from here, rule 29 left out; none at all if a result would be too deep.
fn steps_from(state: &State) -> Option<BTreeMap<Result<u8, u8>, usize>> {
    let mut counts = BTreeMap::new();
    for place in acting_places(state) {
        let partners = partner_places(state, place);
        let alone = partners.is_empty().then_some(NO_PARTNER);
        for partner in partners.into_iter().chain(alone) {
            let rule = advance(state, place, partner).map(|(rule, _)| rule);
            if rule == Err(12) {
                return None;
            }
            if rule != Ok(29) {
                *counts.entry(rule).or_default() += 1;
            }
        }
    }
    Some(counts)
}

/// What holds of every sweep. Gives how many ambients went.
fn check_laws(state: &State) -> usize {
    let bytes = state.encode();
    let left_bytes = left_of(&bytes).expect("an accepted state");
    let left = read_state(&left_bytes).expect("what is left is accepted");
    assert_eq!(left.encode(), left_bytes);
    assert_eq!((left.free, left.next), (state.free, state.next));
    assert!(left_bytes.len() <= bytes.len() && weight(&left) <= weight(state));
    assert_eq!(left_of(&left_bytes), Ok(left_bytes.clone()));
    // What went was to go, and nothing that is to go is left.
    let counts = [name_counts(state), name_counts(&left)];
    let names = gone(&state.elements, &left.elements, &counts[1]);
    assert_eq!(bytes.len() - left_bytes.len(), 5 * names.len());
    let gone: BTreeSet<usize> = names.iter().map(|name| usize::from(*name)).collect();
    for (name, (before, after)) in counts[0].iter().zip(&counts[1]).enumerate() {
        if gone.contains(&name) {
            assert!(name >= usize::from(state.free));
            assert_eq!((*before, *after), (1, 0));
        } else {
            assert_eq!(before, after);
        }
    }
    fn is_clean(list: &[Element], free: u16, counts: &[usize]) -> bool {
        list.iter().all(|element| {
            let inner = element.ambient().map(|(_, contents)| contents);
            !is_thrown_away(element, free, counts)
                && inner.is_none_or(|contents| is_clean(contents, free, counts))
        })
    }
    assert!(is_clean(&left.elements, left.free, &counts[1]));
    // Every step but 29 is still there, and no other has come.
    if bytes.len() < 300 && !names.is_empty() {
        if let (Some(before), Some(after)) = (steps_from(state), steps_from(&left)) {
            assert_eq!(before, after);
        }
    }
    names.len()
}

#[test]
fn what_holds_of_every_sweep() {
    let mut counts: BTreeMap<usize, usize> = BTreeMap::new();
    let mut check = |state: &State| {
        if read_state(&state.encode()).is_ok() {
            *counts.entry(check_laws(state).min(10)).or_default() += 1;
        }
    };
    let mut dice = Dice::new(Counts::All, 3);
    for _ in 0..6_000 {
        check(&thrown_state(&mut dice));
    }
    each_nest(&mut |_, littered| check(&littered.state));
    long_states()
        .iter()
        .for_each(|littered| check(&littered.state));
    let mut turn = 0;
    let mut check_some = |bytes: &[u8]| {
        turn += 1;
        if turn % 10 == 0 && bytes.len() < 2_000 {
            if let Ok(state) = read_state(bytes) {
                check(&state);
            }
        }
    };
    every_choice(Counts::All, 3, 1, &mut |_, bytes, _| check_some(bytes));
    every_case(Counts::All, 3, 1, &mut |_, bytes| check_some(bytes));
    println!("{counts:?}");
    assert!((0..=10).all(|count| counts[&count] >= 100));
}

/// The most steps of a run that is compared.
const STEPS: usize = 3_000;

/// A run that is swept at every turn, and one that is not: they take the same steps but for rule 29, and what a sweep
/// leaves of the last state of the one is the last state of the other. Gives how many steps were saved, if the runs end
/// before so many steps and not because a result is too deep.
fn check_run(first: State) -> Option<usize> {
    let mut state = first.clone();
    let mut rules = Vec::new();
    while let Some((place, partner)) = lowest_choice(&state) {
        match advance(&state, place, partner) {
            Ok((rule, next)) if rules.len() < STEPS => {
                rules.push(rule);
                state = next;
            }
            Err(11) => break,
            _ => return None,
        }
    }
    let mut swept_rules = Vec::new();
    let last = sweep_turns(first, &mut lowest_choice, &mut |turn| {
        let (place, partner): Choice = turn.choice;
        let stepped = advance(turn.before, place, partner);
        let (rule, after) = stepped.expect("the step was taken");
        assert_eq!((&after, &swept(&after)), (turn.after, turn.left));
        swept_rules.push(rule);
    });
    assert_eq!(swept(&state), last);
    let saved = rules.len() - swept_rules.len();
    for rules in [&mut rules, &mut swept_rules] {
        rules.retain(|rule| *rule != 29);
    }
    assert_eq!(rules, swept_rules);
    Some(saved)
}

#[test]
fn a_run_swept_at_every_turn_goes_on_as_the_other() {
    let mut saved = Vec::new();
    saved.extend(check_run(loaded(announced_reels())));
    // A hundred announcements until the names are used up.
    let mut announcing = loaded(announcing_job());
    announcing.next = 4_096 - 100;
    let most = check_run(announcing).expect("it ends");
    assert!((99..=100).contains(&most));
    for (_, job) in cabinet_jobs() {
        saved.extend(check_run(loaded(job)));
    }
    let mut dice = Dice::new(Counts::All, 8);
    for turn in 0..3_000 {
        let job = match turn % 3 {
            0 => with_name(dice.job(30)),
            _ => thrown_job(&mut dice),
        };
        saved.extend(check_run(loaded(job)));
    }
    let [none, one, more] = [0..1, 1..2, 2..STEPS]
        .map(|range| saved.iter().filter(|count| range.contains(count)).count());
    println!("{none} {one} {more} of {}", saved.len());
    assert!(none >= 200 && one >= 200 && more >= 200);
}

#[test]
fn a_long_run_stays_small() {
    let mut turns = 0;
    let mut longest = 0;
    let first = loaded(announcing_job());
    let last = sweep_turns(first, &mut lowest_choice, &mut |turn| {
        turns += 1;
        longest = longest.max(turn.after.encode().len());
    });
    // Each of the names is a throwaway ambient's once, and at last there is none for another.
    println!("{turns} turns, at most {longest} bytes");
    assert!(turns > 4_093 * 5 && longest < 150);
    assert_eq!(last.next, 4_096);
    let (place, partner) = lowest_choice(&last).expect("it could go on");
    assert_eq!(advance(&last, place, partner), Err(11));
}

#[test]
fn the_announced_reels() {
    let job = example("throwaways");
    assert_eq!(job, announced_reels().encode());
    let text = session(&job);
    print!("{text}");
    assert!(text.lines().last().unwrap().starts_with("blocked "));
    let mut state = loaded(read_job(&job).unwrap());
    while let Some((place, partner)) = lowest_choice(&state) {
        state = advance(&state, place, partner).unwrap().1;
    }
    // Four throwaway ambients, one of them in another, and the reels, which are free names.
    assert_eq!((state.free, state.next), (5, 9));
    let left = left_of(&state.encode()).unwrap();
    println!("{} bytes, {} are left", state.encode().len(), left.len());
    assert_eq!(state.encode().len(), left.len() + 4 * 5);
    let left = read_state(&left).unwrap();
    let cabinet = left.elements[0].ambient().unwrap().1;
    let mut reels: Vec<u16> = cabinet
        .iter()
        .filter_map(|element| element.ambient().map(|(name, _)| name))
        .collect();
    reels.sort();
    assert_eq!(reels, [1, 2, 3]);
    assert_eq!(weight(&left), 0);
}

#[test]
fn wrong_sweeps_are_noticed() {
    let mut parts = Vec::new();
    let mut turn = 0;
    each_use(&mut |_, _, littered| {
        turn += 1;
        // The names come in rows of 16.
        if turn % 16 < 6 || turn % 7 == 0 {
            parts.push(littered.state.encode());
        }
    });
    each_nest(&mut |_, littered| {
        turn += 1;
        if turn % 5 == 0 {
            parts.push(littered.state.encode());
        }
    });
    each_variable(&mut |littered| parts.push(littered.state.encode()));
    let mut dice = Dice::new(Counts::All, 6);
    parts.extend((0..600).map(|_| thrown_state(&mut dice).encode()));
    parts.extend([255, 256, 257].map(|count| used_often(count).encode()));
    parts.push(behind_actions(32_768).encode());
    parts.push(too_long(32_769).encode());
    every_case(Counts::All, 6, 1, &mut |_, bytes| {
        turn += 1;
        if turn % 100 == 0 && bytes.len() < 200 {
            parts.push(bytes.to_vec());
        }
    });
    let differs = |side: Side| {
        let mut comparison = Comparison::new(side);
        parts.iter().any(|bytes| {
            comparison.compare("sweeps", bytes, &[Call::Sweep]);
            comparison.differences > 0
        })
    };
    assert!(!differs(second) && !differs(RIGHT));
    let wrong = wrong_sweeps();
    println!("{} wrong sides", wrong.len());
    for (name, side) in wrong {
        assert!(differs(side), "not noticed: {name}");
    }
}
