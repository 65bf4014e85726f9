// The file of stored cases: it is what the command writes, its cases hold, its controls do not, and
// what it covers.

use edges::{edge, Edge};
use miscounted::wrong_partners;
use misloaded::wrong_loadings;
use misnamed::{is_due, wrong_namings};
use misnested::{wrong_nestings, RIGHT_PANEL};
use misswept::wrong_sweeps;
use reference::accesses::{self, told, Access};
use reference::cabinets::{cabinet_jobs, each_state, job_of_parts, rests, BEFORE_FREE, FREES};
use reference::cases::loaded;
use reference::comparison::{proved, second, Call, Outcome, Side};
use reference::counts::{bytes, in_every_form, two_blocked_counts, two_counts};
use reference::counts::{SPELLED, WITH_COUNT};
use reference::machine::{advance_at_any_depth, NO_PARTNER};
use reference::mixed_up::{every_mix_up, renamed};
use reference::nested::{ANY_NESTING, NESTINGS};
use reference::panel::Panel;
use reference::partners::stands;
use reference::spelling::{read_nested_with_pairs, read_process, read_state, Spelled};
use reference::spelling::{LISTED_NESTING, NESTING};
use reference::stored::{encode, stored_groups, BLANK, CONTROLS, LONGEST_ROOM};
use reference::stored::{PANEL, PARTNERS, SWEEPING};
use reference::stored_panel::{self, read_access, ACCESS, LONGEST_BUFFER, LONGEST_RESULT};
use reference::tree::{Element, Kind, Process, MOST_COUNT};
use roots::{roots, ROOTS};
use std::collections::{BTreeMap, BTreeSet};
use wrong::wrong_panels;

mod edges;
mod miscounted;
mod misloaded;
mod misnamed;
mod misnested;
mod misswept;
mod roots;
mod wrong;

/// The longest the file may be, and of it the cases of the panel, of the partners and of sweeps.
const LONGEST_FILE: usize = 3_150_000;
const LONGEST_OF_PANEL: usize = 160_000;
const LONGEST_OF_PARTNERS: usize = 200_000;
const LONGEST_OF_SWEEPS: usize = 165_000;

/// A case of a call as it is read from the file.
struct Case {
    group: usize,
    call: Call,
    input: Vec<u8>,
    room: usize,
    /// Refusal, rule or ending or lowest partner, steps or weight or count of partners, length of the result.
    numbers: [u32; 4],
    result: Vec<u8>,
}

/// A case of the panel as it is read from the file.
struct Series {
    group: usize,
    accesses: Vec<Access>,
    state: Vec<u8>,
    room: usize,
    result: Vec<u8>,
}

/// The words, the input and the result of a case.
type Parts<'bytes> = (Vec<u16>, &'bytes [u8], &'bytes [u8]);

fn checked_in() -> Vec<u8> {
    let path = concat!(env!("CARGO_MANIFEST_DIR"), "/../crates/vectors/stdin");
    std::fs::read(path).expect("the file of stored cases")
}

fn take<'bytes>(bytes: &mut &'bytes [u8], count: usize) -> &'bytes [u8] {
    let (front, rest) = bytes.split_at(count);
    *bytes = rest;
    front
}

/// The parts of all cases, in their order.
fn parts(mut bytes: &[u8]) -> Vec<Parts<'_>> {
    let mut parts = Vec::new();
    while !bytes.is_empty() {
        let words = take(&mut bytes, 20).chunks(2);
        let words: Vec<u16> = words
            .map(|two| u16::from_be_bytes([two[0], two[1]]))
            .collect();
        let input = take(&mut bytes, usize::from(words[2]));
        let result = take(&mut bytes, usize::from(words[9]));
        parts.push((words, input, result));
    }
    parts
}

/// The cases of the calls.
fn cases(bytes: &[u8]) -> Vec<Case> {
    let calls = parts(bytes).into_iter();
    let calls = calls.filter(|(words, ..)| words[1] != stored_panel::CALL);
    let made = calls.map(|(words, input, result)| Case {
        group: usize::from(words[0]),
        call: match words[1] {
            0 => Call::Weight,
            1 => Call::Load,
            2 => Call::List,
            3 => Call::Step(words[3], words[4]),
            4 => Call::Run(words[3]),
            5 => Call::Write(words[3]),
            7 => Call::Partners(words[3]),
            8 => Call::Sweep,
            number => panic!("no call has the number {number}"),
        },
        input: input.to_vec(),
        room: usize::from(words[5]),
        numbers: [words[6], words[7], words[8], words[9]].map(u32::from),
        result: result.to_vec(),
    });
    made.collect()
}

/// The cases of the panel.
fn series(bytes: &[u8]) -> Vec<Series> {
    let panel = parts(bytes).into_iter();
    let panel = panel.filter(|(words, ..)| words[1] == stored_panel::CALL);
    let made = panel.map(|(words, input, result)| {
        assert_eq!([words[4], words[6], words[7], words[8]], [0; 4]);
        let (accesses, state) = input.split_at(usize::from(words[3]));
        let accesses = accesses.chunks(ACCESS).map(read_access);
        Series {
            group: usize::from(words[0]),
            accesses: accesses.collect::<Option<_>>().expect("whole accesses"),
            state: state.to_vec(),
            room: usize::from(words[5]),
            result: result.to_vec(),
        }
    });
    made.collect()
}

impl Series {
    /// Whether a side gives the result.
    fn holds(&self, side: accesses::Side) -> bool {
        stored_panel::result(side, &self.accesses, &self.state, self.room) == self.result
    }

    /// Makes the accesses by the second implementation and shows each, with the record after it; a step also
    /// with the edge at which it stands.
    fn watch(&self, watcher: &mut dyn FnMut(Access, &Panel, Option<Edge>)) {
        let mut panel = Panel::started(0);
        let mut state = self.state.clone();
        let mut spare = vec![BLANK; self.room];
        for access in &self.accesses {
            let lent = access.room().min(self.room);
            let edge = access
                .is_step()
                .then(|| edge(&panel, &state, lent))
                .flatten();
            accesses::second(*access, &mut panel, &mut state, &mut spare[..lent]);
            watcher(*access, &panel, edge);
        }
    }
}

impl Case {
    /// Whether a side gives the numbers, writes the result, and nothing else.
    fn holds(&self, side: Side) -> bool {
        let mut out = vec![BLANK; self.room];
        let answer = side(self.call, &self.input, &mut out);
        let Outcome {
            rule,
            ending,
            steps,
            lowest,
            count,
            result,
        } = answer.unwrap_or_default();
        let (outcome, count, length) = match self.call {
            Call::Weight => (0, result, 0),
            Call::Partners(_) => (lowest, count, 0),
            _ => (rule + ending, steps, result),
        };
        let numbers = [answer.err().unwrap_or(0), outcome, count, length];
        let mut due = self.result.clone();
        due.resize(self.room.max(due.len()), BLANK);
        numbers == self.numbers && out == due
    }
}

#[test]
fn the_file_is_what_the_command_writes() {
    let bytes = checked_in();
    assert!(bytes.len() <= LONGEST_FILE, "{} bytes", bytes.len());
    assert!(bytes == encode(&stored_groups()), "write the file anew");
}

#[test]
fn the_cases_hold_and_the_controls_do_not() {
    let bytes = checked_in();
    // Those of the panel stand behind the others, then those of the partners, and those of sweeps last, with controls of
    // their own.
    let mut groups: Vec<usize> = parts(&bytes)
        .iter()
        .map(|(words, ..)| usize::from(words[0]))
        .collect();
    groups.dedup();
    assert_eq!(groups[..7], [0, 1, 2, 3, 4, 5, CONTROLS]);
    let later = [PANEL, PARTNERS, SWEEPING].map(|group| [group, CONTROLS]);
    assert_eq!(groups[7..], later.concat());
    for (index, case) in cases(&bytes).iter().enumerate() {
        let is_control = case.group == CONTROLS;
        let holds = case.holds(second);
        assert_eq!(holds, !is_control, "case {index}: {}", case.call);
        // So it is of the proved library, where that is linked.
        assert!(!cfg!(proved) || case.holds(proved) == holds, "case {index}");
        assert!(case.room <= LONGEST_ROOM);
    }
    for (index, series) in series(&bytes).iter().enumerate() {
        let is_control = series.group == CONTROLS;
        assert_eq!(
            series.holds(accesses::second),
            !is_control,
            "series {index}"
        );
        assert!(!cfg!(proved) || series.holds(accesses::proved) != is_control);
        assert!(series.state.len().max(series.room) <= LONGEST_BUFFER);
        assert!(series.result.len() <= LONGEST_RESULT);
        assert!(matches!(series.accesses[0], Access::Start(_)));
    }
}

#[test]
fn the_panel_is_stored() {
    let bytes = checked_in();
    let of_panel = |(words, input, result): &Parts| {
        let is_panel = words[1] == stored_panel::CALL;
        is_panel.then_some(20 + input.len() + result.len())
    };
    let length: usize = parts(&bytes).iter().filter_map(of_panel).sum();
    assert!(length <= LONGEST_OF_PANEL, "{length} bytes");
    let series = series(&bytes);
    let (controls, series): (Vec<Series>, Vec<Series>) = series
        .into_iter()
        .partition(|series| series.group == CONTROLS);
    assert!((200..=400).contains(&series.len()) && controls.len() == 4);

    let mut answers: BTreeMap<Result<u8, u8>, usize> = BTreeMap::new();
    let mut written = BTreeSet::new();
    let mut read = BTreeSet::new();
    let mut lines = BTreeSet::new();
    let mut edges: BTreeMap<Edge, usize> = BTreeMap::new();
    let (mut bare_sessions, mut sessions) = (0, 0);
    for case in &series {
        let mut rules = Vec::new();
        case.watch(&mut |access, panel, edge| {
            match access {
                Access::Write(address, value, _) => {
                    written.insert((address, value));
                }
                Access::Read(address) => drop(read.insert(address)),
                Access::Line => drop(lines.insert((panel.read(1), panel.line()))),
                Access::Start(_) => {}
            }
            if access.is_step() {
                *answers.entry(told(panel)).or_default() += 1;
                rules.extend(told(panel).ok());
            }
            if let Some(edge) = edge {
                *edges.entry(edge).or_default() += 1;
                assert_eq!(told(panel).is_ok(), edge.fits());
            }
        });
        // In the cabinet there is one step more.
        let printed = [32, 34, 43, 29, 34, 40, 31, 31, 29, 29, 29];
        bare_sessions += usize::from(rules == printed[..10]);
        sessions += usize::from(rules == printed);
    }
    assert!(bare_sessions >= 3 && sessions >= 2);
    // A state of more than 32,768 bytes is too long for a case.
    let due: BTreeSet<Result<u8, u8>> = (29..=43).map(Ok).chain((2..=14).map(Err)).collect();
    assert_eq!(answers.keys().copied().collect::<BTreeSet<_>>(), due);
    println!("{answers:?} {edges:?}");
    assert_eq!(edges.len(), Edge::ALL.len());
    assert!(edges.values().all(|count| *count >= 2));
    for (answer, count) in answers {
        assert!(count >= 5, "{answer:?} {count}");
    }
    assert_eq!(read, (0..=255).collect());
    let addresses: BTreeSet<u8> = written.iter().map(|(address, _)| *address).collect();
    assert_eq!(addresses, (0..=255).collect());
    assert!((0..=255).all(|value| written.contains(&(0, value))));
    // The line is low whatever the flags are, and high whenever there are any.
    let flags = [0, 1, 2, 3, 4, 5].map(|flags| (flags, 0));
    let high = [1, 2, 3, 4, 5].map(|flags| (flags, 1));
    assert_eq!(lines, flags.into_iter().chain(high).collect());

    let [from_a_start, _] = wrong_panels();
    for (name, side) in from_a_start {
        let is_noticed = series.iter().any(|series| !series.holds(side));
        assert!(is_noticed, "not noticed: {name}");
    }
}

/// The kind of the action at the place of a case of the partners, if one stands there.
fn asked_kind(case: &Case) -> Option<Kind> {
    let Call::Partners(place) = case.call else {
        return None;
    };
    let state = read_state(&case.input).ok()?;
    let stands = stands(&state);
    match stands.get(usize::from(place))?.element {
        Element::Process(Process::Action(action, _)) => Some(action.kind),
        _ => None,
    }
}

#[test]
fn the_partners_are_stored() {
    let bytes = checked_in();
    let of_partners = |(words, input, _): &Parts| (words[1] == 7).then_some(20 + input.len());
    let length: usize = parts(&bytes).iter().filter_map(of_partners).sum();
    assert!(length <= LONGEST_OF_PARTNERS, "{length} bytes");
    let is_asked = |case: &Case| matches!(case.call, Call::Partners(_));
    let cases = cases(&bytes).into_iter().filter(is_asked);
    let (controls, cases): (Vec<Case>, Vec<Case>) = cases.partition(|case| case.group == CONTROLS);
    assert!((200..=700).contains(&cases.len()) && controls.len() == 4);
    assert!(cases.iter().all(|case| case.group == PARTNERS));
    assert!(cases.iter().all(|case| case.result.is_empty()));

    let refusals: BTreeSet<u32> = cases.iter().map(|case| case.numbers[0]).collect();
    assert_eq!(refusals, (0..=8).chain([14]).collect());
    // Every kind has none, one, two and more; some have thousands.
    let mut counts: BTreeMap<u8, BTreeSet<u32>> = BTreeMap::new();
    for case in &cases {
        let [refusal, lowest, count, length] = case.numbers;
        assert_eq!(length, 0);
        assert_eq!(refusal == 0 && count == 0, lowest == 65_535);
        if let (0, Some(kind)) = (refusal, asked_kind(case)) {
            counts.entry(kind as u8).or_default().insert(count);
        }
    }
    println!("{counts:?}");
    for kind in Kind::ALL {
        let counts = &counts[&(kind as u8)];
        assert!((0..=3).all(|count| counts.contains(&count)), "{kind:?}");
        assert!(counts.iter().any(|count| *count > 4), "{kind:?}");
    }
    let thousands = cases.iter().filter(|case| case.numbers[2] > 1_000);
    assert!(thousands.count() >= 3);

    assert!(cases.iter().all(|case| case.holds(miscounted::RIGHT)));
    for (name, side) in wrong_partners() {
        let is_noticed = cases.iter().any(|case| !case.holds(side));
        assert!(is_noticed, "not noticed: {name}");
    }
}

#[test]
fn the_sweeps_are_stored() {
    let bytes = checked_in();
    let of_sweeps = |(words, input, result): &Parts| {
        assert!(words[1] != 8 || [words[3], words[4], words[7], words[8]] == [0; 4]);
        (words[1] == 8).then_some(20 + input.len() + result.len())
    };
    let length: usize = parts(&bytes).iter().filter_map(of_sweeps).sum();
    assert!(length <= LONGEST_OF_SWEEPS, "{length} bytes");
    let is_sweep = |case: &Case| case.call == Call::Sweep;
    let cases = cases(&bytes).into_iter().filter(is_sweep);
    let (controls, cases): (Vec<Case>, Vec<Case>) = cases.partition(|case| case.group == CONTROLS);
    assert!((300..=600).contains(&cases.len()) && controls.len() == 4);
    assert!(cases.iter().all(|case| case.group == SWEEPING));

    // How many ambients go.
    let mut counts: BTreeMap<usize, usize> = BTreeMap::new();
    for case in cases.iter().filter(|case| case.numbers[0] == 0) {
        let removed = (case.input.len() - case.result.len()) / 5;
        *counts.entry(removed).or_default() += 1;
    }
    println!("{counts:?}");
    assert!((0..=8).all(|count| counts[&count] >= 5));
    assert!(counts.keys().any(|count| *count > 200));
    let has = |is_wanted: &dyn Fn(&Case) -> bool| cases.iter().any(is_wanted);
    // Buffers that are as long as what is left, a byte too short, and a byte longer, where something goes and not.
    for goes in [false, true] {
        let is_such = |case: &Case, more: usize| {
            let left = case.result.len();
            case.room == left + more && (case.input.len() > left) == goes
        };
        assert!(has(&|case| case.numbers[0] == 0 && is_such(case, 0)));
        assert!(has(&|case| case.numbers[0] == 0 && is_such(case, 1)));
    }
    for short in [0, 1] {
        assert!(has(&|case| case.numbers[0] == 13 && case.room == short));
    }
    assert!(has(
        &|case| case.result.len() == 32_768 && case.room == 32_768
    ));
    assert!(has(&|case| case.result.len() == 7));

    assert!(cases.iter().all(|case| case.holds(misswept::RIGHT)));
    for (name, side) in wrong_sweeps() {
        let is_noticed = cases.iter().any(|case| !case.holds(side));
        assert!(is_noticed, "not noticed: {name}");
    }
}

#[test]
fn the_judging_of_names_is_stored() {
    let cases = cases(&checked_in());
    let (controls, cases): (Vec<Case>, Vec<Case>) =
        cases.into_iter().partition(|case| case.group == CONTROLS);
    let of_number = |number: u32| {
        let loads = cases.iter().filter(|case| case.call == Call::Load);
        let found = loads.filter(|case| case.numbers[0] == number);
        found.collect::<Vec<&Case>>()
    };
    let mixed_up = of_number(15);
    assert!(mixed_up.len() >= 150 && of_number(0).len() >= 200);
    // The state would fit, just would not, or there is no room at all.
    for room in [|_| 0, |length| length + 9, |length| length + 10] {
        let has_room = |case: &&Case| case.room == room(case.input.len());
        assert!(mixed_up.iter().any(has_room));
    }
    // Near each other, and far apart.
    assert!(mixed_up.iter().any(|case| case.input.len() < 20));
    assert!(mixed_up.iter().any(|case| case.input.len() >= 400));
    // What is refused before it, with names that are mixed up.
    let mut numbers = BTreeSet::new();
    let loaded_jobs = cases.iter().filter(|case| case.call == Call::Load);
    let loaded_jobs: BTreeSet<&[u8]> = loaded_jobs.map(|case| &case.input[..]).collect();
    every_mix_up(&mut |group, job, number| {
        if group == "mixed up and faulty" && loaded_jobs.contains(job) {
            numbers.insert(number);
        }
    });
    assert_eq!(numbers, [2, 3, 4, 5, 6, 14, 15].into());
    // Jobs that are written, and states that are read, listed, run and stepped.
    let is_written = |case: &Case| match case.call {
        Call::Write(free) => read_process(free, &case.input).is_ok_and(|process| is_due(&process)),
        _ => false,
    };
    let written = cases.iter().filter(|case| is_written(case));
    assert!(written.clone().count() >= 20 && written.clone().all(|case| case.numbers[0] != 15));
    let mut states = BTreeSet::new();
    for (turn, (_, job)) in cabinet_jobs().into_iter().enumerate() {
        each_state("", turn, renamed(job), &mut |_, state, _| {
            states.insert(state.to_vec());
        });
    }
    let played = cases.iter().filter(|case| states.contains(&case.input));
    let mut calls = BTreeSet::new();
    let mut rules = BTreeSet::new();
    for case in played {
        assert_eq!(case.numbers[0], 0, "{}", case.call);
        calls.insert(case.call.name());
        if let Call::Step(..) = case.call {
            rules.insert(case.numbers[1]);
        }
    }
    assert!(["weight", "list", "run", "step"]
        .iter()
        .all(|call| calls.contains(call)));
    println!("{} cases of 15; steps by {rules:?}", mixed_up.len());
    let meetings = rules.iter().filter(|rule| (35..=42).contains(*rule));
    assert!(meetings.count() >= 5);
    let expected = controls.iter().filter(|case| case.call == Call::Load);
    let expected: BTreeSet<u32> = expected.map(|case| case.numbers[0]).collect();
    assert!([0, 13, 15].iter().all(|number| expected.contains(number)));

    let [wrong, _] = wrong_namings();
    println!("{} wrong sides", wrong.len());
    for (name, side) in wrong {
        let is_noticed = cases.iter().any(|case| !case.holds(side));
        assert!(is_noticed, "not noticed: {name}");
    }
}

#[test]
fn the_nesting_is_stored() {
    let bytes = checked_in();
    let cases = cases(&bytes);
    let (controls, cases): (Vec<Case>, Vec<Case>) =
        cases.into_iter().partition(|case| case.group == CONTROLS);
    // By the calls, the nesting and the answer.
    let mut found: BTreeMap<(&str, usize), BTreeSet<u32>> = BTreeMap::new();
    let mut results: BTreeMap<(u32, usize), usize> = BTreeMap::new();
    for case in &cases {
        let Ok(state) = read_nested_with_pairs(&case.input, ANY_NESTING) else {
            continue;
        };
        let (nesting, name) = (state.nesting(), case.call.name());
        found
            .entry((name, nesting))
            .or_default()
            .insert(case.numbers[0]);
        if let Call::Step(place, partner) = case.call {
            if let Ok((rule, next)) = advance_at_any_depth(&state, place, partner) {
                let key = (u32::from(rule), next.nesting());
                *results.entry(key).or_default() += usize::from(nesting <= NESTING);
            }
        }
    }
    println!("{found:?}");
    println!("{results:?}");
    let calls = ["weight", "step", "run", "partners", "sweep"];
    for nesting in NESTINGS {
        for call in calls {
            let numbers = &found[&(call, nesting)];
            match nesting > NESTING {
                true => assert_eq!(*numbers, [5].into(), "{call} {nesting}"),
                false => assert!(numbers.contains(&0) && !numbers.contains(&5), "{call}"),
            }
        }
        let listed = &found[&("list", nesting)];
        match nesting > LISTED_NESTING {
            true => assert_eq!(*listed, [5].into()),
            false => assert!([0, 7].iter().all(|number| listed.contains(number))),
        }
    }
    // Results at the limit and one level deeper.
    for rule in [34, 39, 40] {
        for nesting in [NESTING, NESTING + 1] {
            assert!(results[&(rule, nesting)] >= 1, "{rule} {nesting}");
        }
    }
    for rule in [41, 42] {
        assert!(
            results.contains_key(&(rule, NESTING - 1)) || results.contains_key(&(rule, NESTING))
        );
    }
    // The controls are of such states too.
    for call in ["weight", "list", "step", "run", "partners", "sweep"] {
        let is_such = |case: &&Case| {
            let state = read_nested_with_pairs(&case.input, ANY_NESTING);
            case.call.name() == call && state.is_ok_and(|state| state.nesting() > NESTING)
        };
        assert!(controls.iter().any(|case| is_such(&case)), "{call}");
    }

    assert!(cases.iter().all(|case| case.holds(misnested::RIGHT)));
    let wrong = wrong_nestings();
    println!("{} wrong sides", wrong.len());
    for (name, side) in wrong {
        let is_noticed = cases.iter().any(|case| !case.holds(side));
        assert!(is_noticed, "not noticed: {name}");
    }
    let series = series(&bytes);
    let series: Vec<&Series> = series
        .iter()
        .filter(|series| series.group != CONTROLS)
        .collect();
    assert!(series.iter().all(|series| series.holds(RIGHT_PANEL)));
    for (name, side) in misnested::wrong_panels() {
        let is_noticed = series.iter().any(|series| !series.holds(side));
        assert!(is_noticed, "not noticed: {name}");
    }
}

#[test]
fn every_refusal_rule_and_ending_is_stored() {
    let mut counts: BTreeMap<(usize, &str, u32), usize> = BTreeMap::new();
    let cases = cases(&checked_in());
    for case in &cases {
        let [refusal, other, ..] = case.numbers;
        let key = match refusal {
            0 => (case.group, "accepted", other),
            number => (case.group, "refused", number),
        };
        *counts.entry(key).or_default() += 1;
    }
    let all_stored = |group: usize, kind: &str, due: &[u32], least: usize| {
        let keys = counts.keys();
        let keys = keys.filter(|(of, this, _)| (*of, *this) == (group, kind));
        let found: BTreeSet<u32> = keys.map(|(_, _, number)| *number).collect();
        assert_eq!(found, due.iter().copied().collect(), "{group} {kind}");
        for number in due {
            // Inputs that are too long take much of the file.
            let least = if *number == 1 && kind == "refused" {
                1
            } else {
                least
            };
            let count = counts[&(group, kind, *number)];
            assert!(count >= least, "{group} {kind} {number}: {count}");
        }
    };
    let numbers = |last: u32| -> Vec<u32> { (1..=last).chain([14]).collect() };
    let with_length = |last: u32| [numbers(last), vec![13]].concat();
    for group in 0..3 {
        all_stored(group, "accepted", &[0], 100);
    }
    all_stored(0, "refused", &numbers(7), 10);
    all_stored(1, "refused", &[with_length(6), vec![15]].concat(), 10);
    all_stored(2, "refused", &with_length(7), 10);
    all_stored(3, "refused", &(1..=14).collect::<Vec<u32>>(), 20);
    all_stored(3, "accepted", &(29..=43).collect::<Vec<u32>>(), 40);
    all_stored(4, "refused", &with_length(7), 20);
    all_stored(4, "accepted", &[0, 1, 11, 12, 13], 20);
    all_stored(5, "refused", &with_length(6), 10);
    all_stored(5, "accepted", &[0], 90);
    all_stored(SWEEPING, "refused", &with_length(7), 10);
    all_stored(SWEEPING, "accepted", &[0], 300);
    // Every call has controls of its own.
    let controls = cases.iter().filter(|case| case.group == CONTROLS);
    let calls: BTreeSet<&str> = controls.map(|case| case.call.name()).collect();
    let all = [
        "weight", "load", "list", "step", "run", "write", "partners", "sweep",
    ];
    assert_eq!(calls, all.into_iter().collect());
}

#[test]
fn the_counts_are_stored() {
    let cases = cases(&checked_in());
    let has = |call: Call, input: &[u8], refusal: u32| {
        let mut found = cases.iter().filter(|case| case.group != CONTROLS);
        found.any(|case| case.call == call && case.input == input && case.numbers[0] == refusal)
    };
    let step = Call::Step(0, NO_PARTNER);
    for (text, number) in SPELLED {
        let forms = in_every_form(&bytes(text));
        for call in [
            Call::Weight,
            Call::Load,
            Call::List,
            step,
            Call::Run(1),
            Call::Write(2),
        ] {
            let is_stored = forms
                .iter()
                .any(|(_, bytes)| has(call, bytes, u32::from(*number)));
            assert!(is_stored, "{call} {text}");
        }
    }
    // Two of every two counts are a pair, and meet, only where the counts agree.
    for kind in WITH_COUNT {
        for count in 0..=MOST_COUNT {
            for other in 0..=MOST_COUNT {
                let agrees = count == other;
                let blocked = two_blocked_counts(kind, count, other).encode();
                assert!(has(Call::Weight, &blocked, if agrees { 7 } else { 0 }));
                let state = two_counts(kind, count, other, false).encode();
                let steps = cases.iter().filter(|case| case.input == state);
                let steps = steps.filter(|case| case.group == 3);
                let answers: BTreeSet<u32> = steps.map(|case| case.numbers[0]).collect();
                assert!(answers.contains(&0) && (agrees || answers.contains(&9)));
                assert_eq!(answers.contains(&10), agrees);
            }
        }
    }
}

#[test]
fn the_sizes_at_the_limits_are_stored() {
    let cases = cases(&checked_in());
    let has = |is_wanted: &dyn Fn(&Case) -> bool| cases.iter().any(is_wanted);
    // A job becomes a state that is ten bytes longer, and a process becomes a job that is five bytes longer.
    for (call, longest) in [(Call::Load, 32_758), (Call::Write(1), 32_763)] {
        assert!(has(&|case| case.call == call
            && case.input.len() == longest
            && case.result.len() == 32_768));
        for (length, refusal) in [(longest + 1, 13), (32_764, 13), (32_768, 13), (32_769, 1)] {
            let due = [refusal, 0, 0, 0];
            assert!(has(&|case| case.call == call
                && case.input.len() == length
                && case.numbers == due));
        }
    }
    for (free, refusal) in [(0, 6), (1, 0), (1_024, 0), (1_025, 6), (65_535, 6)] {
        assert!(has(&|case| case.call == Call::Write(free)
            && case.input == [0x20, 0, 0]
            && case.numbers[0] == refusal));
    }
    assert!(has(&|case| case.input.len() == 33_000));
    let is_step = |case: &Case| matches!(case.call, Call::Step(..));
    let is_run = |case: &Case| matches!(case.call, Call::Run(_));
    for is_call in [is_step, is_run] {
        assert!(has(&|case| is_call(case) && case.result.len() == 32_768));
    }
    assert!(has(&|case| is_step(case)
        && case.room > 32_768
        && case.numbers[0] == 13));
    assert!(has(&|case| is_run(case)
        && case.room > 32_768
        && case.numbers[1] == 13));
    for budget in [0, 1, 65_535] {
        assert!(has(
            &|case| case.call == Call::Run(budget) && case.numbers[1] == 1
        ));
    }
}

#[test]
fn the_loading_is_stored() {
    let cases = cases(&checked_in());
    let cases: Vec<&Case> = cases.iter().filter(|case| case.group != CONTROLS).collect();
    let has = |call: Call, input: &[u8], refusal: u8| {
        let mut found = cases.iter().filter(|case| case.call == call);
        found.any(|case| case.input == input && case.numbers[0] == u32::from(refusal))
    };
    // 6 at F comes before all that is wrong behind it, and behind all that is wrong before it.
    for (rest, number) in rests() {
        for free in FREES {
            let is_wrong = !(1..=1_024).contains(&free);
            let number = match (free, number) {
                _ if is_wrong => 6,
                (1, number) => number,
                // More names are there.
                (_, number) if number != 6 => number,
                _ => continue,
            };
            assert!(has(Call::Load, &job_of_parts(free, &rest), number));
            // Writing does not judge the names.
            let number = if number == 15 { 0 } else { number };
            assert!(has(Call::Write(free), &rest, number));
        }
    }
    for (text, number) in BEFORE_FREE {
        assert!(has(Call::Load, &bytes(text), number), "{text}");
    }
    // Each buffer that is a byte too short, as long as the state, and a byte longer.
    for (more, refusal) in [(9, 13), (10, 0), (11, 0)] {
        let mut found = cases.iter().filter(|case| case.call == Call::Load);
        assert!(found.any(|case| case.room == case.input.len() + more
            && case.numbers
                == [
                    refusal,
                    0,
                    0,
                    u32::from(refusal == 0) * (case.input.len() as u32 + 10)
                ]));
    }
    for (name, job) in cabinet_jobs() {
        assert!(has(Call::Load, &job.encode(), 0), "{name}");
        assert!(has(Call::Run(65_535), &loaded(job).encode(), 0), "{name}");
    }
    // All roots that a state may have besides a cabinet.
    let states = cases.iter().filter_map(|case| read_state(&case.input).ok());
    let mut found = BTreeMap::new();
    for state in states {
        for root in roots(&state) {
            *found.entry(root).or_insert(0) += 1;
        }
    }
    println!("{found:?}");
    assert_eq!(found.len(), ROOTS);
    assert!(found.values().all(|count| *count >= 50));

    assert!(cases.iter().all(|case| case.holds(second)));
    let [wrong, _] = wrong_loadings();
    println!("{} wrong sides", wrong.len());
    for (name, side) in wrong {
        let is_noticed = cases.iter().any(|case| !case.holds(side));
        assert!(is_noticed, "not noticed: {name}");
    }
}
