// What the comparison covers, gone through with the second implementation on both sides, and that
// it notices what is wrong.

use noticing::{all_noticed, Part};
use reference::cases::{every_case, loaded};
use reference::choices::{every_choice, random_play};
use reference::comparison::{second, Answer, Asked, Call, Comparison, Outcome, Side};
use reference::comparison::{Steps, Tally, LEAST_CLEARING, LEAST_SWEEPS};
use reference::comparison::{LEAST_JOBS, LEAST_LOADED, LEAST_MIXED_UP};
use reference::comparison::{LEAST_LISTED, LEAST_TOO_DEEP, LEAST_WITH_PAIR};
use reference::dice::{Counts, Dice};
use reference::machine::{lowest_choice, partner_places, run, step, Choice, Ending, NO_PARTNER};
use reference::processes::every_process;
use reference::runs::{every_run, MOST_STEPS};
use reference::shapes::{asking_job, counted_run, counted_state, handing_state};
use reference::shapes::{crowded_states, endless_jobs, limited_jobs, meeting_state};
use reference::shapes::{timed_choices, timed_runs, timed_states, TIMED_RUN};
use reference::spelling::{blocked_pair, comes_to_count, read_nested, read_process, read_state};
use reference::spelling::{Spelled, LISTED_NESTING};
use reference::tree::{Action, Element, Process, State};
use std::collections::{BTreeMap, BTreeSet};

mod noticing;

/// Each of these was due at least so often.
fn all_due(counts: &BTreeMap<u32, usize>, keys: impl IntoIterator<Item = u32>, least: usize) {
    let keys: BTreeSet<u32> = keys.into_iter().collect();
    assert_eq!(counts.keys().copied().collect::<BTreeSet<u32>>(), keys);
    for (key, count) in counts {
        assert!(*count >= least, "{key} was due {count} times");
    }
}

#[test]
fn the_comparison_meets_every_number_and_every_rule() {
    let mut comparison = Comparison::new(second);
    comparison.go_through(1, 1);
    for (name, tally) in comparison.groups.iter().chain(&comparison.calls) {
        println!("{name}: {tally}");
    }
    assert_eq!(comparison.differences, 0);
    let tally = |name| -> &Tally { &comparison.calls[name] };
    let steps = tally("step");
    all_due(&steps.numbers, 0..=14, 50);
    all_due(&steps.rules, 29..=43, 1_000);
    // A third of the steps have to do with a count other than one.
    println!("{}", comparison.steps);
    let Steps {
        calls,
        on_states,
        at_actions,
    } = comparison.steps;
    assert_eq!(calls, steps.calls);
    assert!(calls >= 2_000_000);
    assert!(3 * on_states >= calls && 3 * at_actions >= calls);
    all_due(&tally("list").numbers, (0..=7).chain([13, 14]), 50);
    all_due(&tally("load").numbers, (0..=6).chain(13..=15), 20);
    let loadings = &comparison.loadings;
    println!("{loadings}");
    assert!(loadings.jobs() >= LEAST_JOBS && loadings.accepted >= LEAST_LOADED);
    assert!(loadings.mixed_up() >= LEAST_MIXED_UP);
    assert!(loadings.calls < tally("load").calls);
    assert_eq!(loadings.mixed_up(), tally("load").numbers[&15]);
    // The listing alone takes a state that nests deeper.
    let deep = &comparison.deep;
    println!("{deep}");
    assert!(deep.accepted >= LEAST_LISTED && deep.refused(5) >= LEAST_TOO_DEEP);
    assert!(deep.refused(7) >= LEAST_WITH_PAIR);
    assert_eq!(deep.others.keys().copied().collect::<Vec<u32>>(), [5]);
    assert!(deep.others[&5] >= 200_000);
    // Every state of a job that is refused with 15 is accepted by every other call.
    let states = &comparison.groups["states of mixed-up jobs"];
    all_due(&states.numbers, [0, 8, 10, 13], 100);
    all_due(&states.rules, 29..=43, 5);
    all_due(&tally("weight").numbers, (0..=7).chain([14]), 20);
    assert!(tally("weight").rules.is_empty());
    let runs = tally("run");
    assert!(runs.calls >= 500_000);
    all_due(&runs.numbers, (0..=7).chain([13, 14]), 50);
    all_due(&runs.endings, [0, 1, 11, 12, 13], 200);
    assert!(runs.rules.is_empty() && steps.endings.is_empty());
    let writings = tally("write");
    assert!(writings.inputs >= 100_000 && writings.calls >= 400_000);
    all_due(&writings.numbers, (0..=6).chain([13, 14]), 50);
    assert!(writings.rules.is_empty() && writings.endings.is_empty());
    let asked = tally("partners");
    println!("{}", comparison.asked);
    assert!(asked.calls >= 1_000_000 && asked.calls == comparison.asked.calls);
    all_due(&asked.numbers, (0..=8).chain([14]), 30);
    assert!(asked.rules.is_empty() && asked.endings.is_empty());
    let Asked {
        none,
        one,
        more,
        thousands,
        largest,
        ..
    } = comparison.asked;
    assert_eq!(none + one + more, asked.numbers[&0]);
    assert!(none >= 100_000 && one >= 20_000 && more >= 10_000 && thousands >= 30);
    assert!(largest >= 2_900);
    let sweeps = &comparison.sweeps;
    println!("{sweeps}");
    assert_eq!(sweeps.calls, tally("sweep").calls);
    all_due(&tally("sweep").numbers, (0..=7).chain([13, 14]), 100);
    assert!(sweeps.accepted() >= LEAST_SWEEPS && sweeps.clearing() >= LEAST_CLEARING);
    assert_eq!(sweeps.accepted(), tally("sweep").numbers[&0]);
    assert!(sweeps.none >= 100_000 && sweeps.one >= 20_000 && sweeps.more >= 50_000);
    assert!(sweeps.again >= 20_000 && sweeps.most == 4_096);
    all_due(
        &comparison.groups["limits of a process"].numbers,
        (0..=6).chain([13]),
        50,
    );
    all_due(
        &comparison.groups["random runs"].endings,
        [0, 1, 11, 12, 13],
        50,
    );
    // Most states made for steps are accepted, so that the choice decides.
    for group in [
        "a name in each part",
        "a variable of the same number",
        "ambients in each other",
        "an action and a blocked one",
        "every choice",
        "limits of a step",
        "played and swept",
        "random play",
        "random runs",
        "runs of small states",
        "runs to an end",
        "runs without an end",
        "swept at every turn",
        "two counts",
        "two counts in two lists",
    ] {
        let numbers = &comparison.groups[group].numbers;
        assert!(
            !(1..=7).any(|number| numbers.contains_key(&number)),
            "{group}"
        );
    }
}

#[test]
fn random_play_meets_every_rule_and_every_number_of_a_choice() {
    let mut rules = BTreeMap::new();
    let mut numbers = BTreeMap::new();
    random_play(&mut Dice::new(Counts::All, 2), &mut |_, state, choices| {
        assert!(read_state(state).is_ok());
        for (place, partner) in choices {
            let mut out = vec![0; state.len() + 20];
            let (counts, key) = match step(state, *place, *partner, &mut out) {
                Ok((rule, _)) => (&mut rules, rule),
                Err(number) => (&mut numbers, number),
            };
            *counts.entry(u32::from(key)).or_default() += 1;
        }
    });
    println!("{rules:?} {numbers:?}");
    all_due(&rules, 29..=43, 50);
    all_due(&numbers, 8..=13, 10);
}

#[test]
fn the_choices_and_budgets_are_fixed_by_their_seed() {
    let gather = |seed| {
        let mut sum = 0u64;
        every_choice(Counts::All, seed, 1, &mut |_, state, choices| {
            let last = state.last().copied().unwrap_or(0);
            sum = sum.wrapping_mul(31).wrapping_add(u64::from(last));
            for (place, partner) in choices {
                let choice = u64::from(*place) * 65_536 + u64::from(*partner);
                sum = sum.wrapping_mul(31).wrapping_add(choice);
            }
        });
        every_run(Counts::All, seed, 1, &mut |_, state, budgets| {
            let last = state.last().copied().unwrap_or(0);
            sum = sum.wrapping_mul(31).wrapping_add(u64::from(last));
            for budget in budgets {
                sum = sum.wrapping_mul(31).wrapping_add(u64::from(*budget));
            }
        });
        sum
    };
    assert_eq!(gather(5), gather(5));
    assert_ne!(gather(5), gather(6));
}

/// Part of the cases and choices.
fn some_parts() -> Vec<Part> {
    let mut parts = Vec::new();
    let mut turn = 0;
    every_case(Counts::All, 1, 1, &mut |group, input| {
        turn += 1;
        if turn % 50 == 0 && input.len() < 500 {
            let calls = vec![Call::Load, Call::List, Call::Step(0, 1)];
            parts.push((group, input.to_vec(), calls));
        }
    });
    every_choice(Counts::All, 1, 1, &mut |group, state, choices| {
        turn += 1;
        if turn % 20 == 0 && state.len() < 500 {
            let steps = choices.iter();
            let steps = steps.map(|(place, partner)| Call::Step(*place, *partner));
            let calls = steps.chain([Call::List]).collect();
            parts.push((group, state.to_vec(), calls));
        }
    });
    parts
}

/// Part of the runs.
fn some_runs() -> Vec<Part> {
    let mut parts = Vec::new();
    let mut turn = 0;
    every_run(Counts::All, 1, 1, &mut |group, state, budgets| {
        turn += 1;
        if turn % 10 == 0 && state.len() < 500 {
            let calls = budgets.iter().map(|budget| Call::Run(*budget)).collect();
            parts.push((group, state.to_vec(), calls));
        }
    });
    parts
}

/// Part of the processes: those at the limits, and some others that are short.
fn some_processes() -> Vec<Part> {
    let mut parts = Vec::new();
    let mut turn = 0;
    every_process(Counts::All, 1, 1, &mut |group, process, counts| {
        turn += 1;
        if group == "limits of a process" || turn % 50 == 0 && process.len() < 500 {
            let calls = counts.iter().map(|free| Call::Write(*free)).collect();
            parts.push((group, process.to_vec(), calls));
        }
    });
    parts
}

/// Changes the byte behind an accepted result, where there is one.
fn with_byte_behind(call: Call, input: &[u8], out: &mut [u8]) -> Answer {
    let outcome = second(call, input, out)?;
    if let Some(byte) = out.get_mut(outcome.result as usize) {
        *byte ^= 1;
    }
    Ok(outcome)
}

/// The second implementation with another rule where one is due.
fn with_rule<const DUE: u32, const GIVEN: u32>(call: Call, input: &[u8], out: &mut [u8]) -> Answer {
    let outcome = second(call, input, out)?;
    let rule = if outcome.rule == DUE {
        GIVEN
    } else {
        outcome.rule
    };
    Ok(Outcome { rule, ..outcome })
}

/// The second implementation with another number where one is due.
fn with_number<const DUE: u32, const GIVEN: u32>(
    call: Call,
    input: &[u8],
    out: &mut [u8],
) -> Answer {
    let changed = |number| if number == DUE { GIVEN } else { number };
    second(call, input, out).map_err(changed)
}

/// The second implementation with another ending of a run where one is due.
fn with_ending<const DUE: u32, const GIVEN: u32>(
    call: Call,
    input: &[u8],
    out: &mut [u8],
) -> Answer {
    let outcome = second(call, input, out)?;
    let ending = if outcome.ending == DUE {
        GIVEN
    } else {
        outcome.ending
    };
    Ok(Outcome { ending, ..outcome })
}

#[test]
fn a_wrong_run_is_noticed() {
    // All of these calls are runs.
    let wrong: [(&str, Side); 10] = [
        ("blocked for spent", with_ending::<1, 0>),
        ("spent for blocked", with_ending::<0, 1>),
        ("no ending at 11", with_ending::<11, 13>),
        ("no ending at 12", with_ending::<12, 13>),
        ("blocked for 13", with_ending::<13, 0>),
        ("a step too many is counted", |call, input, out| {
            let outcome = second(call, input, out)?;
            let steps = outcome.steps + 1;
            Ok(Outcome { steps, ..outcome })
        }),
        ("a spent budget outranks all blocked", |call, input, out| {
            let outcome = second(call, input, out)?;
            let is_spent = call == Call::Run(outcome.steps as u16);
            let ending = if is_spent { 1 } else { outcome.ending };
            Ok(Outcome { ending, ..outcome })
        }),
        ("a limit outranks a spent budget", |call, input, out| {
            let outcome = second(call, input, out)?;
            let more = match call {
                Call::Run(budget) if budget < MOST_STEPS => Call::Run(budget + 1),
                call => call,
            };
            let ahead = second(more, input, out)?;
            let ending = if ahead.steps == outcome.steps {
                ahead.ending
            } else {
                outcome.ending
            };
            Ok(Outcome { ending, ..outcome })
        }),
        (
            "the states on the way are left behind",
            |call, input, out| {
                let outcome = second(call, input, out)?;
                out[..input.len()].copy_from_slice(input);
                second(call, input, out)?;
                Ok(outcome)
            },
        ),
        ("a first state too long ends the run", |call, input, out| {
            let ending = 13;
            match second(call, input, out) {
                Err(13) => Ok(Outcome {
                    ending,
                    ..Outcome::default()
                }),
                answer => answer,
            }
        }),
    ];
    all_noticed(&some_runs(), &wrong);
}

/// The count of free names; all of the calls are writings.
fn free_of(call: Call) -> u16 {
    match call {
        Call::Write(free) => free,
        call => panic!("{call} writes no job"),
    }
}

/// The parts of a job put together unread, if they fit.
fn unread(call: Call, process: &[u8], out: &mut [u8]) -> Answer {
    let length = process.len() + 5;
    if length > out.len().min(32_768) {
        return Err(13);
    }
    out[..3].copy_from_slice(&[0x10, ((length - 3) >> 8) as u8, (length - 3) as u8]);
    out[3..5].copy_from_slice(&free_of(call).to_be_bytes());
    out[5..length].copy_from_slice(process);
    let result = length as u32;
    Ok(Outcome {
        result,
        ..Outcome::default()
    })
}

/// As above, once the process was read with another count of free names.
fn read_with(free: u16, call: Call, process: &[u8], out: &mut [u8]) -> Answer {
    read_process(free, process).map_err(u32::from)?;
    unread(call, process, out)
}

#[test]
fn a_wrong_writing_is_noticed() {
    let wrong: [(&str, Side); 20] = [
        ("the process is not read", unread),
        ("F has no limit", |call, process, out| {
            read_with(free_of(call).min(1_024), call, process, out)
        }),
        ("F is less than its limit", |call, process, out| {
            if free_of(call) == 1_024 {
                return Err(6);
            }
            second(call, process, out)
        }),
        ("F comes before the length", |call, process, out| {
            if free_of(call) > 1_024 {
                return Err(6);
            }
            second(call, process, out)
        }),
        ("F comes behind the process", |call, process, out| {
            read_process(free_of(call).min(1_024), process).map_err(u32::from)?;
            second(call, process, out)
        }),
        ("F does not limit the names", |call, process, out| {
            let free = free_of(call).max(1_024);
            read_with(free, call, process, out)
        }),
        ("one name more", |call, process, out| {
            let free = free_of(call);
            let free = if free < 1_024 { free + 1 } else { free };
            read_with(free, call, process, out)
        }),
        ("one name fewer", |call, process, out| {
            let free = free_of(call);
            let free = if free > 1_024 { free } else { free.max(1) - 1 };
            read_with(free, call, process, out)
        }),
        (
            "a process too deep is written",
            |call, process, out| match second(call, process, out) {
                Err(5) => unread(call, process, out),
                answer => answer,
            },
        ),
        (
            "bytes left behind are written",
            |call, process, out| match second(call, process, out) {
                Err(4) => unread(call, process, out),
                answer => answer,
            },
        ),
        (
            "the rest of a long process is not read",
            |call, process, out| second(call, &process[..process.len().min(32_768)], out),
        ),
        (
            "the buffer comes before the process",
            |call, process, out| {
                if (out.len()..=32_768).contains(&(process.len() + 4)) {
                    return Err(13);
                }
                second(call, process, out)
            },
        ),
        ("a full buffer is refused", |call, process, out| {
            let room = out.len().max(1) - 1;
            second(call, process, &mut out[..room])
        }),
        ("a job has at most 32,767 bytes", |call, process, out| {
            let room = out.len().min(32_767);
            second(call, process, &mut out[..room])
        }),
        ("only the process has to fit", |call, process, out| {
            let fits = process.len() <= out.len().min(32_768);
            match second(call, process, out) {
                Err(13) if fits => Ok(Outcome::default()),
                answer => answer,
            }
        }),
        ("the length of the process", |call, process, out| {
            let outcome = second(call, process, out)?;
            let result = outcome.result - 5;
            Ok(Outcome { result, ..outcome })
        }),
        ("F with its low byte first", |call, process, out| {
            let outcome = second(call, process, out)?;
            out[3..5].reverse();
            Ok(outcome)
        }),
        (
            "the length of the process in the head",
            |call, process, out| {
                let outcome = second(call, process, out)?;
                out[1..3].copy_from_slice(&(process.len() as u16).to_be_bytes());
                Ok(outcome)
            },
        ),
        ("a byte behind the job", with_byte_behind),
        ("the head on a refusal", |call, process, out| {
            second(call, process, out).inspect_err(|_| {
                if let Some(byte) = out.first_mut() {
                    *byte = 0x10;
                }
            })
        }),
    ];
    all_noticed(&some_processes(), &wrong);
}

#[test]
fn what_is_wrong_is_noticed() {
    let wrong: [(&str, Side); 12] = [
        ("a rule of the other side", with_rule::<40, 39>),
        ("no rule", with_rule::<29, 0>),
        ("8 for 9", with_number::<9, 8>),
        ("9 for 10", with_number::<10, 9>),
        ("no 12", with_number::<12, 13>),
        ("no 7", with_number::<7, 8>),
        ("a byte behind the result", with_byte_behind),
        ("a byte on a refusal", |call, input, out| {
            second(call, input, out).inspect_err(|_| {
                if let Some(byte) = out.first_mut() {
                    *byte ^= 1;
                }
            })
        }),
        ("a length one too long", |call, input, out| {
            let outcome = second(call, input, out)?;
            let result = outcome.result + 1;
            Ok(Outcome { result, ..outcome })
        }),
        ("a full buffer is refused", |call, input, out| {
            let outcome = second(call, input, out)?;
            if outcome.result as usize == out.len() {
                return Err(13);
            }
            Ok(outcome)
        }),
        (
            "the partner is not looked at",
            |call, input, out| match call {
                Call::Step(place, _) => {
                    let state = read_state(input).map_err(u32::from)?;
                    let partner = match lowest_choice(&state) {
                        Some((lowest, partner)) if lowest == place => partner,
                        _ => NO_PARTNER,
                    };
                    second(Call::Step(place, partner), input, out)
                }
                call => second(call, input, out),
            },
        ),
        (
            "the buffer's length comes before the choice",
            |call, input, out| match call {
                Call::Step(..) if out.len() < 7 && read_state(input).is_ok() => Err(13),
                call => second(call, input, out),
            },
        ),
    ];
    all_noticed(&some_parts(), &wrong);
}

/// Makes the change to every action of the elements, also behind others.
fn change_actions(elements: &mut [Element], change: fn(&mut Action)) {
    fn in_process(process: &mut Process, change: fn(&mut Action)) {
        match process {
            Process::Null => {}
            Process::Parallel(left, right) => {
                in_process(left, change);
                in_process(right, change);
            }
            Process::Restriction(part) | Process::Ambient(_, part) => in_process(part, change),
            Process::Action(action, part) | Process::Replication(action, part) => {
                change(action);
                in_process(part, change);
            }
        }
    }
    for element in elements {
        match element {
            Element::Ambient { contents, .. } => change_actions(contents, change),
            Element::Process(process) => in_process(process, change),
            Element::BlockedAction(action, process) => {
                change(action);
                in_process(process, change);
            }
        }
    }
}

/// The state with no counts: its outputs hand over nothing, its inputs bind nothing.
fn without_counts(mut state: State) -> State {
    change_actions(&mut state.elements, |action| {
        *action = Action::of_references(
            action.kind,
            0,
            &[action.target.as_slice(), &[action.channel]].concat(),
        )
    });
    state
}

/// The bytes of a state with the names of every message in the reverse order.
fn reversed(state: &[u8]) -> Option<Vec<u8>> {
    let mut state = read_state(state).ok()?;
    change_actions(&mut state.elements, |action| action.message.reverse());
    Some(state.encode())
}

#[test]
fn a_wrong_count_is_noticed() {
    let wrong: [(&str, Side); 7] = [
        ("there are no counts", |call, input, out| {
            if comes_to_count(call.form(), input) {
                return Err(3);
            }
            second(call, input, out)
        }),
        ("6 for 14", with_number::<14, 6>),
        ("2 for 14", with_number::<14, 2>),
        ("4 for 14", with_number::<14, 4>),
        ("names in the reverse order", |call, input, out| {
            let Some(turned) = reversed(input) else {
                return second(call, input, out);
            };
            let outcome = second(call, &turned, out)?;
            if matches!(call, Call::Step(..) | Call::Run(_)) {
                let length = outcome.result as usize;
                let back = reversed(&out[..length]).expect("a good state");
                out[..length].copy_from_slice(&back);
            }
            Ok(outcome)
        }),
        ("partners of another count", |call, input, out| {
            let answer = second(call, input, out);
            if let (Call::Step(place, NO_PARTNER), Ok(Outcome { rule: 43, .. })) = (call, answer) {
                let state = read_state(input).expect("the step is accepted");
                if !partner_places(&without_counts(state), place).is_empty() {
                    return Err(10);
                }
            }
            answer
        }),
        ("pairs of another count", |call, input, out| {
            let answer = second(call, input, out);
            if let (Call::List, Ok(_)) = (call, answer) {
                let state = read_nested(input, LISTED_NESTING).expect("the listing is accepted");
                if blocked_pair(&without_counts(state).elements, false) {
                    return Err(7);
                }
            }
            answer
        }),
    ];
    all_noticed(&some_parts(), &wrong);
}

#[test]
fn the_timed_steps_are_accepted() {
    let rule = |state: &State, (place, partner): Choice| {
        let outcome = step(&state.encode(), place, partner, &mut vec![0; 32_768]);
        outcome.map(|(rule, _)| rule)
    };
    for (size, seeds) in [(4_096, 1..=8), (32_768, 1..=1)] {
        let counted = seeds.clone().map(|seed| counted_state(size, seed));
        let plain = seeds.flat_map(|seed| timed_states(size, seed));
        for (shape, state) in plain.chain(counted) {
            for choice in timed_choices(&state) {
                assert!(
                    rule(&state, choice).is_ok(),
                    "{shape} of {size}: {choice:?}"
                );
            }
        }
        for (state, due) in [(meeting_state(size), 39), (handing_state(size), 35)] {
            assert_eq!(state.encode().len(), size);
            assert_eq!(rule(&state, timed_choices(&state)[0]), Ok(due));
        }
    }
    for (crowd, many, _) in crowded_states() {
        assert_eq!(rule(&many, timed_choices(&many)[0]), Ok(29), "{crowd}");
    }
}

#[test]
fn the_timed_and_the_endless_runs_play_to_their_budget() {
    let mut out = vec![0; 32_768];
    for (name, job) in endless_jobs().into_iter().chain([("asking", asking_job())]) {
        let ended = run(&loaded(job).encode(), MOST_STEPS, &mut out).unwrap();
        assert_eq!((ended.ending, ended.steps), (Ending::Spent, MOST_STEPS));
        assert!(ended.length < 300, "{name}: {} bytes", ended.length);
    }
    for (shape, state) in timed_runs().into_iter().chain([counted_run()]) {
        assert!(TIMED_RUN - state.encode().len() < 5);
        let ended = run(&state.encode(), 100, &mut out).unwrap();
        assert_eq!((ended.ending, ended.steps), (Ending::Spent, 100), "{shape}");
    }
}

#[test]
fn the_limited_runs_end_at_their_limit() {
    for (number, job) in limited_jobs() {
        let ended = run(&loaded(job).encode(), MOST_STEPS, &mut vec![0; 32_768]).unwrap();
        assert_eq!(ended.ending, Ending::Limit(number), "{ended:?}");
    }
}
