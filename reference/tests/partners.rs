// The partners of a place: the lowest and the exact number, for each kind of action; what is none by one thing; the
// refusals in their order; and that the number is that of the partners with which a step is taken. All of it is
// shown of the second implementation, and of the proved library where that counts partners.

use miscounted::{wrong_partners, RIGHT};
use reference::cases::{every_case, loaded};
use reference::choices::every_choice;
use reference::comparison::{proved, second, Call, Comparison, Outcome, Side};
use reference::dice::{Counts, Dice};
use reference::machine::{acting_places, advance, answer, lowest_choice, session, NO_PARTNER};
use reference::partners::stands;
use reference::proved::COUNTING;
use reference::sessions::example;
use reference::shapes::*;
use reference::spelling::{read_job, read_state, Spelled};
use reference::tree::{Action, Element, Kind, Process, State};
use reference::waiting::*;
use std::collections::{BTreeMap, BTreeSet};

mod miscounted;

/// The sides that can be called here.
fn sides() -> Vec<Side> {
    if COUNTING {
        vec![second, proved]
    } else {
        vec![second]
    }
}

/// What every side answers: the lowest and the number, or the refusal. Nothing else is told, and no byte changed.
fn asked_of(bytes: &[u8], place: u16) -> Result<(u32, u32), u32> {
    let mut due = None;
    for side in sides() {
        let lent = bytes.to_vec();
        let mut out = [0xA5; 40];
        let answer = side(Call::Partners(place), &lent, &mut out).map(|outcome| {
            let Outcome { lowest, count, .. } = outcome;
            let alone = Outcome {
                lowest,
                count,
                ..Outcome::default()
            };
            assert_eq!(outcome, alone);
            (lowest, count)
        });
        assert_eq!((lent, out), (bytes.to_vec(), [0xA5; 40]));
        assert_eq!(*due.get_or_insert(answer), answer);
    }
    due.expect("there is a side")
}

fn asked(state: &State, place: u16) -> Result<(u32, u32), u32> {
    asked_of(&state.encode(), place)
}

const NONE: Result<(u32, u32), u32> = Ok((NO_PARTNER as u32, 0));

fn shut(name: u16, contents: Vec<Element>) -> Element {
    Element::Ambient {
        blocked: true,
        name,
        contents,
    }
}

#[test]
fn partners_of_actions_in_ambients_beside_each_other() {
    // Rules 35, 36, 39 and 40: the action of the ambient 0 and the waiting ones of the ambients 1.
    for (kind, names) in [
        (Kind::SiblingOutput, &[1, 2, 3][..]),
        (Kind::Enter, &[1, 2]),
    ] {
        let other = answer(kind);
        let own = || ambient(0, vec![unblocked(kind, names)]);
        let waiting = || blocked(other, &[2]);
        let state = |list: Vec<Element>| root(5, list);
        assert_eq!(asked(&state(vec![own()]), 1), NONE);
        let one = vec![own(), shut(1, vec![waiting()])];
        assert_eq!(asked(&state(one), 1), Ok((3, 1)));
        // Before, behind, several in one, with others between them, and in an ambient of another name.
        let some = vec![
            shut(1, vec![blocked(other, &[4]), waiting()]),
            shut(4, vec![waiting()]),
            own(),
            ambient(1, vec![unblocked(other, &[2]), waiting(), waiting()]),
            shut(1, vec![shut(1, vec![waiting()])]),
            shut(1, vec![waiting()]),
        ];
        assert_eq!(asked(&state(some), 6), Ok((2, 4)));
        // The own ambient is none beside itself, whatever its name.
        let own = ambient(1, vec![unblocked(kind, names), waiting()]);
        assert_eq!(asked(&state(vec![own.clone()]), 1), NONE);
        let both = vec![own, shut(1, vec![waiting()])];
        assert_eq!(asked(&state(both), 1), Ok((4, 1)));
        // At the root it stands in no ambient.
        let bare = vec![unblocked(kind, names), shut(1, vec![waiting()])];
        assert_eq!(asked(&state(bare), 0), NONE);
    }
    for (kind, names) in [
        (Kind::ExternalInput, &[1, 2, 3][..]),
        (Kind::Accept, &[1, 2]),
    ] {
        let other = answer(kind);
        let own = || ambient(1, vec![unblocked(kind, &[2])]);
        let waiting = || blocked(other, names);
        let to_another = [&[4], &names[1..]].concat();
        let some = vec![
            shut(0, vec![blocked(other, &to_another), waiting()]),
            own(),
            shut(1, vec![waiting(), waiting()]),
            shut(4, vec![shut(4, vec![waiting()]), waiting()]),
        ];
        assert_eq!(asked(&root(5, some), 4), Ok((2, 4)));
        let none = vec![shut(0, vec![blocked(other, &to_another)]), own()];
        assert_eq!(asked(&root(5, none), 3), NONE);
    }
}

#[test]
fn partners_of_actions_in_the_list_around_and_within() {
    for kind in [Kind::ParentOutput, Kind::Leave] {
        let names = &[2, 3][..if kind.has_message() { 2 } else { 1 }];
        let waiting = || blocked(answer(kind), &[2]);
        let own = || ambient(0, vec![unblocked(kind, names), waiting()]);
        let deeper = || shut(1, vec![waiting()]);
        let list = vec![waiting(), own(), deeper(), waiting(), waiting()];
        let inside = root(5, vec![waiting(), ambient(4, list.clone()), waiting()]);
        assert_eq!(asked(&inside, 4), Ok((2, 3)));
        let at_root = if kind == Kind::Leave {
            NONE
        } else {
            Ok((0, 3))
        };
        assert_eq!(asked(&root(5, list), 2), at_root);
        let none = vec![own(), blocked(answer(kind), &[3]), deeper()];
        assert_eq!(asked(&root(5, vec![ambient(4, none)]), 2), NONE);
    }
    for kind in [Kind::InternalInput, Kind::Release] {
        let names = &[2, 3][..if kind.binds() { 2 } else { 1 }];
        let waiting = || blocked(answer(kind), names);
        let own = || unblocked(kind, &[2]);
        let one = || shut(1, vec![waiting()]);
        let list = vec![
            one(),
            shut(0, vec![shut(1, vec![waiting()])]),
            own(),
            waiting(),
            shut(1, vec![waiting(), waiting()]),
            one(),
        ];
        let inside = root(5, vec![one(), ambient(4, list.clone())]);
        assert_eq!(asked(&inside, 8), Ok((4, 4)));
        let at_root = if kind == Kind::Release {
            NONE
        } else {
            Ok((1, 4))
        };
        assert_eq!(asked(&root(5, list), 5), at_root);
    }
}

#[test]
fn counts_and_channels_have_to_agree() {
    for kind in Kind::ALL {
        for turn in 0..5 * 5 * 2 {
            let (count, other) = (turn % 5, turn / 5 % 5);
            let channel = if turn < 25 { 2 } else { 3 };
            let names = [1, 2, 4, 4, 4, 4];
            let of = |kind: Kind, count, channel| {
                let mut names = names;
                names[1] = channel;
                Action::counted(kind, count, &names[usize::from(!kind.has_target())..])
            };
            let acting = Process::Action(of(kind, count, 2), Box::new(Process::Null));
            let acting = Element::Process(acting);
            let waiting = Element::BlockedAction(of(answer(kind), other, channel), Process::Null);
            let list = match kind {
                Kind::ParentOutput | Kind::Leave => vec![ambient(1, vec![acting]), waiting],
                Kind::InternalInput | Kind::Release => vec![acting, ambient(1, vec![waiting])],
                _ => vec![ambient(1, vec![acting]), ambient(1, vec![waiting])],
            };
            let state = root(5, vec![ambient(0, list)]);
            let answers = asked(&state, acting_places(&state)[0]);
            let agree = channel == 2 && (count == other || !kind.has_count());
            assert_eq!(answers.map(|(_, count)| count), Ok(u32::from(agree)));
            assert_eq!(answers == NONE, !agree);
        }
    }
}

/// As many are counted as were put in; if the state has a blocked pair it is refused.
fn check_made(waited: &Waited) {
    let Waited {
        kind,
        state,
        partners,
    } = waited;
    match asked(state, waited.place()) {
        Err(number) => assert_eq!(number, 7),
        Ok((lowest, count)) => {
            assert_eq!(count, u32::from(*partners), "{kind:?} {state:?}");
            assert_eq!(lowest == u32::from(NO_PARTNER), count == 0);
        }
    }
}

#[test]
fn what_is_none_by_one_thing_is_not_counted() {
    let mut seen = BTreeSet::new();
    let mut dice = Dice::new(Counts::All, 4);
    each_alone(&mut dice, &mut |waiting, waited| {
        check_made(waited);
        seen.insert((waited.kind as u8, waiting, waited.partners));
    });
    for kind in Kind::ALL {
        for waiting in Waiting::for_kind(kind) {
            let more = u16::from(waiting == Waiting::Partner);
            for partners in [0, 1, 2, 4] {
                let key = (kind as u8, waiting, partners + more);
                assert!(seen.contains(&key), "{key:?}");
            }
        }
    }
}

#[test]
fn as_many_are_counted_as_wait() {
    let mut dice = Dice::new(Counts::All, 7);
    some_scenes(&mut dice, 4_000, &mut check_made);
    let mut largest = 0;
    for waited in crowds() {
        check_made(&waited);
        assert!(waited.state.encode().len() > 32_000);
        largest = largest.max(waited.partners);
    }
    // Internal inputs in as many bytes as a state may have.
    assert_eq!(largest, 2_976);
}

#[test]
fn rules_29_to_34_have_no_partner() {
    let waiting = || ambient(0, vec![blocked(Kind::ParentOutput, &[1, 0])]);
    let null = || Process::Null;
    for process in [
        again(Kind::InternalInput, &[1], null()),
        null(),
        parallel(acting(Kind::InternalInput, &[1], null()), null()),
        restriction(acting(Kind::InternalInput, &[1], null())),
        in_ambient(0, acting(Kind::InternalInput, &[1], null())),
    ] {
        let state = root(2, vec![Element::Process(process), waiting()]);
        assert_eq!(asked(&state, 0), NONE);
        // The ambient of the one that waits, whose contents are all blocked.
        assert_eq!(asked(&state, 1), NONE);
        assert_eq!(asked(&state, 2), Err(8));
    }
    assert_eq!(asked(&root(1, vec![ambient(0, vec![])]), 0), NONE);
}

#[test]
fn refusals_in_their_order() {
    let receiver = || blocked(Kind::InternalInput, &[1]);
    let sender = || unblocked(Kind::ParentOutput, &[1, 0]);
    let good = root(2, vec![receiver(), ambient(0, vec![sender()])]);
    assert_eq!(asked(&good, 2), Ok((0, 1)));
    // 8: a blocked action, an ambient with unblocked contents, past the end, a blocked ambient.
    for place in [0, 1, 3, 4, 255, 256, 65_534, 65_535] {
        assert_eq!(asked(&good, place), Err(8));
    }
    assert_eq!(asked(&root(1, vec![shut(0, vec![])]), 0), Err(8));
    assert_eq!(asked(&root(0, vec![]), 0), Err(8));
    // 7 before 8, whatever the place.
    for place in [0, 1, 2, 5, 65_535] {
        assert_eq!(asked(&printed_pair(false), place), Err(7));
    }
    assert_eq!(asked(&printed_pair(true), 0), NONE);
    assert_eq!(asked(&printed_pair(true), 1), Err(8));
    // 1 to 6 and 14 before all.
    let bytes = good.encode();
    for place in [0, 2, 9, 65_535] {
        let refused = |bytes: &[u8], number: u32| assert_eq!(asked_of(bytes, place), Err(number));
        let mut long = timed_states(32_768, 1).swap_remove(0).1.encode();
        assert!(asked_of(&long, 0).is_ok());
        long.push(0);
        refused(&long, 1);
        refused(&[], 2);
        refused(&bytes[..bytes.len() - 1], 2);
        refused(&[0x10, 0, 5, 0, 0, 0x20, 0, 0], 3);
        refused(&[&bytes[..], &[0]].concat(), 4);
        refused(&root(1, inside(9, vec![])).encode(), 5);
        refused(&root(4_097, vec![]).encode(), 6);
        let wrong_count = [0x3A, 0, 3, 0, 1, 1];
        let body = [&[0, 2, 0, 2, 0x43, 0, 9][..], &wrong_count, &[0x20, 0, 0]].concat();
        refused(&[&[0x11, 0, body.len() as u8][..], &body].concat(), 14);
    }
}

/// The number of partners is that of the places with which a step is not refused with 9, the lowest is the first of
/// these, and a step with none is refused with 10 exactly if there is one.
fn check_by_steps(side: Side, bytes: &[u8], counts: &mut BTreeMap<u32, usize>) {
    let state = read_state(bytes).expect("an accepted state");
    let count = stands(&state).len() as u16;
    let acting = acting_places(&state);
    let mut out = vec![0; 4_000];
    for place in (0..count + 2).chain([NO_PARTNER]) {
        let answer = side(Call::Partners(place), bytes, &mut out);
        let mut step = |partner| side(Call::Step(place, partner), bytes, &mut out).err();
        if !acting.contains(&place) {
            assert_eq!((answer, step(NO_PARTNER)), (Err(8), Some(8)));
            continue;
        }
        let found: Vec<u16> = (0..count + 2)
            .filter(|partner| step(*partner) != Some(9))
            .collect();
        let lowest = found.first().copied().unwrap_or(NO_PARTNER);
        let due = Outcome {
            lowest: u32::from(lowest),
            count: found.len() as u32,
            ..Outcome::default()
        };
        assert_eq!(answer, Ok(due));
        assert_eq!(step(NO_PARTNER) == Some(10), !found.is_empty());
        *counts.entry(due.count).or_default() += 1;
    }
}

#[test]
fn the_number_is_that_of_the_steps() {
    for side in sides() {
        let mut counts = BTreeMap::new();
        let mut check = |bytes: &[u8]| {
            if bytes.len() < 400 && read_state(bytes).is_ok() {
                check_by_steps(side, bytes, &mut counts);
            }
        };
        let mut dice = Dice::new(Counts::All, 5);
        some_scenes(&mut dice, 2_000, &mut |waited| {
            check(&waited.state.encode())
        });
        each_alone(&mut dice, &mut |_, waited| check(&waited.state.encode()));
        let mut turn = 0;
        every_choice(Counts::All, 5, 1, &mut |_, bytes, _| {
            turn += 1;
            if turn % 20 == 0 {
                check(bytes);
            }
        });
        every_case(Counts::All, 5, 1, &mut |group, bytes| {
            turn += 1;
            if turn % 20 == 0 && ["reached states", "random states"].contains(&group) {
                check(bytes);
            }
        });
        println!("{counts:?}");
        assert!((0..=6).all(|count| counts[&count] >= 20));
    }
}

#[test]
fn wrong_partners_are_noticed() {
    let mut parts = Vec::new();
    let mut add = |bytes: &[u8], calls: Vec<Call>| parts.push((bytes.to_vec(), calls));
    let every_place = |state: &State| {
        let count = stands(state).len() as u16;
        (0..count + 2)
            .chain([NO_PARTNER])
            .map(Call::Partners)
            .collect()
    };
    let mut dice = Dice::new(Counts::All, 6);
    each_alone(&mut dice, &mut |_, waited| {
        add(&waited.state.encode(), every_place(&waited.state))
    });
    some_scenes(&mut dice, 800, &mut |waited| {
        add(&waited.state.encode(), every_place(&waited.state))
    });
    let crowd = crowds().swap_remove(0);
    add(&crowd.state.encode(), vec![Call::Partners(crowd.place())]);
    let mut turn = 0;
    every_case(Counts::All, 6, 1, &mut |_, bytes| {
        turn += 1;
        if turn % 100 == 0 && bytes.len() < 200 || bytes.len() == 32_769 {
            let places = [0, (turn % 700 / 100) as u16, NO_PARTNER];
            add(bytes, places.map(Call::Partners).to_vec());
        }
    });
    let differs = |side: Side| {
        let mut comparison = Comparison::new(side);
        parts.iter().any(|(bytes, calls)| {
            comparison.compare("partners", bytes, calls);
            comparison.differences > 0
        })
    };
    assert!(!differs(second) && !differs(RIGHT));
    let wrong = wrong_partners();
    println!("{} wrong sides", wrong.len());
    for (name, side) in wrong {
        assert!(differs(side), "not noticed: {name}");
    }
}

/// The lines of a session where two meet: place, partner, rule and number.
fn meetings(text: &str) -> Vec<Vec<&str>> {
    let lines = text.lines().map(|line| line.split(' ').collect());
    let lines = lines.filter(|words: &Vec<&str>| words.len() == 4 && words[1] != "-");
    lines.collect()
}

#[test]
fn sessions_show_how_many_wait() {
    for kind in Kind::ALL {
        for count in [1, 2, 3, 11, 120] {
            let text = session(&waiting_job(kind, count, 4).encode());
            let numbers: Vec<String> = meetings(&text)
                .iter()
                .map(|words| words[3].to_string())
                .collect();
            // One that moves is gone.
            let moves = matches!(kind, Kind::Enter | Kind::Leave);
            let times = if moves { 1 } else { count.min(4) };
            let due: Vec<String> = (0..times).map(|turn| (count - turn).to_string()).collect();
            assert_eq!(numbers, due, "{kind:?} {count}");
            let others = text.lines().filter(|line| line.contains(" - "));
            assert!(others.clone().count() > 3);
            assert!({ others }.all(|line| line.ends_with(" 0")));
        }
    }
}

#[test]
fn the_adapters_that_wait() {
    let text = session(&example("waiting-adapters"));
    let numbers: Vec<(&str, &str)> = meetings(&text)
        .iter()
        .map(|words| (words[2], words[3]))
        .collect();
    assert_eq!(numbers, [("40", "3"), ("40", "2"), ("40", "1")]);
    // Before the first of them all three wait, at the places that the program prints.
    let mut state = loaded(read_job(&example("waiting-adapters")).unwrap());
    let (place, partner) = loop {
        let (place, partner) = lowest_choice(&state).expect("the session goes on");
        if partner != NO_PARTNER {
            break (place, partner);
        }
        state = advance(&state, place, partner).unwrap().1;
    };
    assert_eq!((place, partner), (8, 2));
    assert_eq!(asked(&state, place), Ok((2, 3)));
}
