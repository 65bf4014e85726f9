// How deep ambients nest: what each call reads, what a step and a run leave, and what the listing alone reads; what the
// states cover, and that wrong sides are noticed. What is said of a call holds of the second implementation, and of the
// proved library where that is linked.

use misnested::{wrong_nestings, wrong_panels, RIGHT, RIGHT_PANEL};
use noticing::{all_noticed, Part};
use reference::accesses::{self, step_by_panel, Access, PanelComparison};
use reference::cases::loaded;
use reference::choices::limits;
use reference::comparison::{proved, second, Call, Comparison, Side};
use reference::dice::{Counts, Dice};
use reference::machine::{acting_places, advance, lowest_choice, run, session, Ending};
use reference::machine::{lowest_partner, NO_PARTNER};
use reference::nested::{every_nested, nested_jobs, ANY_NESTING, NESTINGS};
use reference::runs::{every_run, MOST_STEPS};
use reference::sessions::example;
use reference::shapes::{ambient, blocked, inside, listed_state, root, unblocked};
use reference::spelling::{read_job, read_nested_with_pairs, read_state, Spelled};
use reference::spelling::{LISTED_NESTING, LONGEST, NESTING};
use reference::tree::{Element, Kind, Process, Reference, State};
use std::collections::{BTreeMap, BTreeSet};

mod misnested;
mod noticing;

/// The sides that can be called here.
fn sides() -> Vec<Side> {
    if cfg!(proved) {
        vec![second, proved]
    } else {
        vec![second]
    }
}

fn panels() -> Vec<accesses::Side> {
    if cfg!(proved) {
        vec![accesses::second, accesses::proved]
    } else {
        vec![accesses::second]
    }
}

/// The refusal of a call, or 0. With a refusal every byte stays.
fn number(side: Side, call: Call, state: &State) -> u32 {
    let mut out = vec![0xA5; 400];
    let refusal = side(call, &state.encode(), &mut out).err().unwrap_or(0);
    assert!(refusal == 0 || out.iter().all(|byte| *byte == 0xA5));
    refusal
}

#[test]
fn every_call_reads_eight_deep_and_the_listing_sixteen() {
    assert_eq!((NESTING, LISTED_NESTING), (8, 16));
    let null = || vec![Element::Process(Process::Null)];
    for nesting in 1..=20 {
        let state = root(1, inside(nesting, null()));
        let (place, past) = (nesting as u16, nesting as u16 + 1);
        let due = if nesting > 8 { 5 } else { 0 };
        for side in sides() {
            for call in [
                Call::Weight,
                Call::Step(place, NO_PARTNER),
                Call::Run(0),
                Call::Run(3),
                Call::Partners(place),
                Call::Sweep,
            ] {
                assert_eq!(number(side, call, &state), due, "{call} of {nesting}");
            }
            // 5 comes before 8, 9 and 13.
            let due_past = if nesting > 8 { 5 } else { 8 };
            for call in [Call::Step(past, 0), Call::Partners(past)] {
                assert_eq!(number(side, call, &state), due_past, "{call} of {nesting}");
            }
            let listed = side(Call::List, &state.encode(), &mut [0; 2]);
            let listed = listed.map(|outcome| outcome.result);
            assert_eq!(listed, if nesting > 16 { Err(5) } else { Ok(2) });
            let short = side(Call::List, &state.encode(), &mut [0; 1]);
            assert_eq!(short.err(), Some(if nesting > 16 { 5 } else { 13 }));
        }
        for side in panels() {
            let stepped = step_by_panel(side, &state.encode(), (place, NO_PARTNER));
            assert_eq!(stepped, if nesting > 8 { Err(5) } else { Ok(31) });
        }
    }
}

#[test]
fn a_blocked_pair_is_looked_for_as_deep_as_the_listing_reads() {
    for levels in 0..=16 {
        for (channel, is_pair) in [(2, true), (3, false)] {
            let mover = ambient(0, vec![blocked(Kind::Enter, &[1, 2])]);
            let host = ambient(1, vec![blocked(Kind::Accept, &[channel])]);
            let state = root(4, inside(levels, vec![mover, host]));
            let due = |limit: usize| match levels + 1 > limit {
                true => 5,
                false => 7 * u32::from(is_pair),
            };
            for side in sides() {
                assert_eq!(number(side, Call::List, &state), due(16), "{levels}");
                for call in [Call::Weight, Call::Run(0), Call::Sweep] {
                    assert_eq!(number(side, call, &state), due(8), "{call} {levels}");
                }
            }
        }
    }
}

#[test]
fn what_could_still_move_is_listed() {
    // An ambient that is not blocked and holds nothing, and a process behind it, in each list.
    for levels in 0..16 {
        let list = vec![ambient(0, vec![]), Element::Process(Process::Null)];
        let state = root(1, inside(levels, list));
        for side in sides() {
            let mut out = [0xA5; 9];
            let listed = side(Call::List, &state.encode(), &mut out);
            assert_eq!(listed.map(|outcome| outcome.result), Ok(4));
            let [first, second] = [levels as u8, levels as u8 + 1];
            assert_eq!(out[..5], [0, first, 0, second, 0xA5]);
        }
    }
}

/// The nesting of the result of the lowest choice, were there no limit.
fn result_nesting(state: &State, place: u16) -> usize {
    let partner = lowest_partner(state, place);
    let stepped = reference::machine::advance_at_any_depth(state, place, partner);
    stepped.map_or(0, |(_, next)| next.nesting())
}

#[test]
fn results_nest_eight_deep() {
    // A process ambient becomes an ambient.
    let process = || Process::Ambient(Reference::Name(0), Box::new(Process::Null));
    for levels in 0..=8 {
        let state = root(1, inside(levels, vec![Element::Process(process())]));
        check_step(&state, levels as u16, 34, levels + 1);
    }
    // An ambient enters, or is accepted, with what it holds.
    for (one, other, rule) in [
        (
            unblocked as fn(Kind, &[u16]) -> Element,
            blocked as fn(Kind, &[u16]) -> Element,
            39,
        ),
        (blocked, unblocked, 40),
    ] {
        for levels in 0..8 {
            for held in 0..8 - levels {
                let mut inner = inside(held, vec![]);
                inner.insert(0, one(Kind::Enter, &[1, 2]));
                let mover = ambient(0, inner);
                let host = ambient(1, vec![other(Kind::Accept, &[2])]);
                let state = root(4, inside(levels, vec![mover, host]));
                let place = acting_places(&state)
                    .into_iter()
                    .find(|place| lowest_partner(&state, *place) != NO_PARTNER);
                check_step(&state, place.unwrap(), rule, levels + held + 2);
            }
        }
    }
}

/// Steps at the place by the rule, which leaves a state that nests so deep, or is refused.
fn check_step(state: &State, place: u16, rule: u8, nesting: usize) {
    let partner = lowest_partner(state, place);
    assert_eq!(result_nesting(state, place), nesting);
    let due = if nesting > 8 { Err(12) } else { Ok(rule) };
    for side in sides() {
        let mut out = vec![0; 400];
        let stepped = side(Call::Step(place, partner), &state.encode(), &mut out);
        assert_eq!(
            stepped.map(|outcome| outcome.rule as u8),
            due.map_err(u32::from)
        );
        if let Ok(outcome) = stepped {
            let next = read_state(&out[..outcome.result as usize]).unwrap();
            assert_eq!(next.nesting(), nesting);
        }
    }
    for side in panels() {
        let stepped = step_by_panel(side, &state.encode(), (place, partner));
        assert_eq!(stepped, due);
    }
}

#[test]
fn jobs_that_nest_deeper_load_and_end_at_12() {
    let mut endings: BTreeMap<(usize, bool), usize> = BTreeMap::new();
    for (nesting, job) in nested_jobs() {
        let bytes = job.encode();
        let state = loaded(job);
        for side in sides() {
            let mut out = vec![0; LONGEST];
            let outcome = side(Call::Load, &bytes, &mut out).unwrap();
            assert_eq!(out[..outcome.result as usize], state.encode());
            let ran = side(Call::Run(MOST_STEPS), &state.encode(), &mut out).unwrap();
            assert_eq!(ran.ending, if nesting > 8 { 12 } else { 0 }, "{nesting}");
            let last = read_state(&out[..ran.result as usize]).unwrap();
            assert!(last.nesting() <= 8);
        }
        // The last step that is not taken makes an ambient of a process, or lets one enter.
        let mut state = state;
        let mut choice = lowest_choice(&state);
        while let Some((place, partner)) = choice {
            match advance(&state, place, partner) {
                Ok((_, next)) => state = next,
                Err(number) => {
                    assert_eq!(number, 12);
                    *endings.entry((nesting, partner != NO_PARTNER)).or_default() += 1;
                    break;
                }
            }
            choice = lowest_choice(&state);
        }
    }
    println!("{endings:?}");
    for nesting in NESTINGS.into_iter().filter(|nesting| *nesting > 8) {
        assert!(endings[&(nesting, false)] >= 3, "{nesting}");
    }
    assert!(endings[&(9, true)] >= 2);
}

#[test]
fn the_nested_job_ends_at_12() {
    let bytes = example("nested");
    let job = read_job(&bytes).unwrap();
    let text = session(&bytes);
    assert!(text.lines().last().unwrap().starts_with("12 "), "{text}");
    let ran = run(&loaded(job).encode(), MOST_STEPS, &mut vec![0; LONGEST]).unwrap();
    assert_eq!((ran.ending, ran.steps), (Ending::Limit(12), 7));
}

#[test]
fn the_states_nest_around_both_limits() {
    let mut nestings: BTreeMap<(&str, usize), usize> = BTreeMap::new();
    let mut answers: BTreeMap<&str, BTreeMap<u32, usize>> = BTreeMap::new();
    let mut acting: BTreeMap<usize, BTreeSet<&str>> = BTreeMap::new();
    let mut out = vec![0; LONGEST];
    every_nested(1, 1, &mut |group, input, calls| {
        for call in calls {
            let number = second(*call, input, &mut out).err().unwrap_or(0);
            *answers
                .entry(call.name())
                .or_default()
                .entry(number)
                .or_default() += 1;
        }
        let Ok(state) = read_nested_with_pairs(input, ANY_NESTING) else {
            return;
        };
        *nestings.entry((group, state.nesting())).or_default() += 1;
        gather(&state.elements, 0, &mut acting);
    });
    println!("{nestings:?}");
    println!("{answers:?}");
    for nesting in NESTINGS {
        assert!(nestings[&("nested states", nesting)] >= 200, "{nesting}");
        assert!(nestings[&("nested pairs", nesting)] >= 100, "{nesting}");
    }
    for nesting in [8, 9, 10, 16, 17, 18] {
        assert!(nestings[&("nested faults", nesting)] >= 50, "{nesting}");
    }
    for nesting in NESTING + 1..=LISTED_NESTING + 1 {
        assert!(
            nestings[&("nested at random", nesting)] >= 1_000,
            "{nesting}"
        );
    }
    // Each thing that can act, and each that cannot, stands in every list.
    for level in 0..=LISTED_NESTING {
        println!("{level}: {:?}", acting[&level]);
        assert_eq!(acting[&level].len(), SORTS, "{level}");
    }
    let list = &answers["list"];
    for (number, least) in [
        (0, 10_000),
        (2, 50),
        (3, 50),
        (4, 20),
        (5, 1_000),
        (6, 30),
        (7, 500),
        (14, 10),
    ] {
        assert!(list[&number] >= least, "{number}: {}", list[&number]);
        for call in ["weight", "step", "run", "partners"] {
            assert!(answers[call][&number] >= 10, "{call} {number}");
        }
    }
    assert!(answers["step"][&12] >= 2);
}

/// How many sorts of element are told apart below.
const SORTS: usize = 12;

/// The sorts of elements in each list, by how many ambients are around it.
fn gather(list: &[Element], level: usize, found: &mut BTreeMap<usize, BTreeSet<&'static str>>) {
    for element in list {
        let sort = match element {
            Element::Process(Process::Null) => "null",
            Element::Process(Process::Parallel(..)) => "parallel",
            Element::Process(Process::Restriction(_)) => "restriction",
            Element::Process(Process::Ambient(..)) => "process ambient",
            Element::Process(Process::Action(..)) => "action",
            Element::Process(Process::Replication(..)) => "replication",
            Element::BlockedAction(..) => "blocked action",
            Element::Ambient {
                blocked, contents, ..
            } => match (blocked, contents.is_empty()) {
                (true, true) => "empty 41",
                (true, false) => "41",
                (false, true) => "empty 40",
                (false, false) if contents.iter().all(Element::is_blocked) => "40 all blocked",
                (false, false) => "40",
            },
        };
        found.entry(level).or_default().insert(sort);
        if let Some((_, contents)) = element.ambient() {
            gather(contents, level + 1, found);
        }
    }
}

#[test]
fn the_comparison_counts_the_deep_ones() {
    let mut comparison = Comparison::new(second);
    every_nested(1, 1, &mut |group, input, calls| {
        comparison.compare(group, input, calls)
    });
    let deep = &comparison.deep;
    println!("{deep}");
    assert_eq!(comparison.differences, 0);
    assert!(deep.states >= 10_000 && deep.accepted >= 20_000);
    assert!(deep.refused(5) >= 2_000 && deep.refused(7) >= 2_000 && deep.refused(13) >= 5_000);
    assert_eq!(
        deep.refusals.keys().copied().collect::<Vec<u32>>(),
        [5, 7, 13]
    );
    assert_eq!(deep.others.keys().copied().collect::<Vec<u32>>(), [5]);
    assert!(deep.places >= 2 * deep.accepted);
}

/// The states that nest around the limits, those at the limits of a step, and some runs.
fn some_parts() -> Vec<Part> {
    let mut all = Vec::new();
    let mut turn = 0;
    every_nested(1, 1, &mut |group, input, calls| {
        turn += 1;
        let is_state = input.first() == Some(&0x11);
        if ["nested faults", "nested jobs"].contains(&group) || turn % 3 == 0 {
            let sweep = is_state.then_some(Call::Sweep);
            let calls = calls.iter().copied().chain(sweep).collect();
            all.push((group, input.to_vec(), calls));
        }
    });
    limits(&mut |group, state, choices| {
        if state.len() < 500 {
            let steps = choices.iter();
            let steps = steps.map(|(place, partner)| Call::Step(*place, *partner));
            let calls = steps.chain([Call::Run(4), Call::List]).collect();
            all.push((group, state.to_vec(), calls));
        }
    });
    every_run(Counts::All, 1, 0, &mut |group, state, budgets| {
        if state.len() < 500 && group == "runs to an end" {
            let calls = budgets.iter().map(|budget| Call::Run(*budget)).collect();
            all.push((group, state.to_vec(), calls));
        }
    });
    all
}

#[test]
fn wrong_nesting_is_noticed() {
    let parts = some_parts();
    all_noticed(&parts, &wrong_nestings());
    let mut comparison = Comparison::new(RIGHT);
    for (group, input, calls) in &parts {
        comparison.compare(group, input, calls);
    }
    assert_eq!(comparison.differences, 0);
}

#[test]
fn a_wrong_panel_is_noticed() {
    let mut parts = Vec::new();
    let mut dice = Dice::new(Counts::All, 1);
    let mut add = |group, series: &accesses::Series| {
        // Not those of long states.
        if matches!(series.accesses[0], Access::Start(..500)) {
            parts.push((group, series.clone()));
        }
    };
    accesses::nested(&mut dice, 1, 1, &mut add);
    accesses::states_at_the_limits(&mut dice, &mut add);
    let differs = |side: accesses::Side| {
        let mut comparison = PanelComparison::new(side);
        parts.iter().any(|(group, series)| {
            comparison.compare(group, series);
            comparison.all.differences > 0
        })
    };
    assert!(!differs(accesses::second) && !differs(RIGHT_PANEL));
    for (name, side) in wrong_panels() {
        assert!(differs(side), "not noticed: {name}");
    }
}

#[test]
fn the_timed_listing_is_as_deep_as_may_be() {
    for size in [4_096, LONGEST] {
        let state = listed_state(size);
        let bytes = state.encode();
        assert_eq!((state.nesting(), bytes.len()), (LISTED_NESTING, size));
        for side in sides() {
            assert!(side(Call::List, &bytes, &mut vec![0; LONGEST]).is_ok());
            assert_eq!(side(Call::Weight, &bytes, &mut []).err(), Some(5));
        }
    }
}
