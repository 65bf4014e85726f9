// The cabinet that a job is loaded in: what is refused, what is written, who meets it; what the inputs cover, and that
// a wrong loading is noticed. What is said of a call holds of the second implementation, and of the proved library where
// that is linked.

use misloaded::wrong_loadings;
use noticing::{all_noticed, Part};
use reference::cabinets::*;
use reference::cases::{bare, every_case, loaded};
use reference::choices::every_choice;
use reference::comparison::{proved, second, Call, Side};
use reference::counts::bytes;
use reference::dice::Counts;
use reference::machine::{advance, element_at, lowest_choice, paths, run_watched, session, Turn};
use reference::machine::{Choice, CABINET, NO_PARTNER};
use reference::processes::every_process;
use reference::sessions::example;
use reference::shapes::job_of_size;
use reference::spelling::{read_job, read_state, Spelled, LONGEST, LONGEST_JOB};
use reference::tree::{Element, Job, Process, State};
use roots::{roots, ROOTS};
use std::collections::{BTreeMap, BTreeSet};

mod misloaded;
mod noticing;
mod roots;

/// The sides that can be called here.
fn sides() -> Vec<Side> {
    if cfg!(proved) {
        vec![second, proved]
    } else {
        vec![second]
    }
}

/// Loads into a buffer of this length; gives the state or the refusal. All bytes behind the state, or all if it is
/// refused, are as they were.
fn loading(side: Side, job: &[u8], room: usize) -> Result<Vec<u8>, u32> {
    let mut out = vec![0xA5; room];
    let answer = side(Call::Load, job, &mut out).map(|outcome| outcome.result as usize);
    let rest = &out[answer.unwrap_or(0)..];
    assert!(rest.iter().all(|byte| *byte == 0xA5));
    answer.map(|length| out[..length].to_vec())
}

#[test]
fn a_job_is_loaded_into_one_ambient_named_0() {
    let printed: [(&str, &str); 4] = [
        (
            "10 0005 0001 20 0000",
            "11 000F 0001 0001 40 0008 0000 42 0003 20 0000",
        ),
        (
            "10 0005 0400 20 0000",
            "11 000F 0400 0400 40 0008 0000 42 0003 20 0000",
        ),
        // A process that is an ambient of the cabinet's name is one more.
        (
            "10 000A 0003 23 0005 0000 20 0000",
            "11 0014 0003 0003 40 000D 0000 42 0008 23 0005 0000 20 0000",
        ),
        ("10 000B 0002 22 0006 21 0003 20 0000", "2"),
    ];
    for side in sides() {
        for (job, state) in printed {
            let due = match state {
                "2" => Err(2),
                state => Ok(bytes(state)),
            };
            assert_eq!(loading(side, &bytes(job), 100), due, "{job}");
        }
        for (_, job) in cabinet_jobs() {
            let state = loading(side, &job.encode(), 400).unwrap();
            let read = read_state(&state).unwrap();
            assert_eq!((read.free, read.next), (job.free, job.free));
            assert_eq!(read, loaded(job));
        }
    }
}

#[test]
fn a_count_of_free_names_out_of_range_is_6_where_it_stands() {
    for side in sides() {
        for (rest, number) in rests() {
            for free in FREES {
                let answer = loading(side, &job_of_parts(free, &rest), 200);
                let written = side(Call::Write(free), &rest, &mut [0; 200]);
                let is_in_range = (1..=1_024).contains(&free);
                let due = match is_in_range {
                    false => 6,
                    // A reference may be in range where there are more names.
                    true => match (free, number) {
                        (2.., 6) => read_job(&job_of_parts(free, &rest)).err().unwrap_or(0),
                        _ => number,
                    },
                };
                let due = u32::from(due);
                assert_eq!(answer.err().unwrap_or(0), due, "{free} {rest:x?}");
                // Writing does not judge the names.
                let due = if due == 15 { 0 } else { due };
                assert_eq!(written.err().unwrap_or(0), due, "{free} {rest:x?}");
            }
        }
        for (text, number) in BEFORE_FREE {
            let answer = loading(side, &bytes(text), 100);
            assert_eq!(answer, Err(u32::from(number)), "{text}");
        }
        // A state may have none, and says so in all calls.
        for state in ["11 0004 0000 0000", "11 000A 0000 0000 42 0003 20 0000"] {
            assert!(side(Call::Weight, &bytes(state), &mut []).is_ok());
            assert!(side(Call::List, &bytes(state), &mut [0; 9]).is_ok());
            assert!(side(Call::Run(9), &bytes(state), &mut [0; 20]).is_ok());
        }
    }
}

#[test]
fn the_longest_job_has_32_758_bytes() {
    for side in sides() {
        for size in LONGEST_JOB - 1..=LONGEST + 1 {
            let job = job_of_size(size).encode();
            let state = size + 10;
            for room in [size, size + 4, size + 5, size + 9, size + 10, size + 11]
                .into_iter()
                .chain(LONGEST - 3..=LONGEST + 3)
                .chain([70_000])
            {
                let answer = loading(side, &job, room).map(|state| state.len());
                let due = match size {
                    _ if size > LONGEST => Err(1),
                    _ if state > room.min(LONGEST) => Err(13),
                    _ => Ok(state),
                };
                assert_eq!(answer, due, "{size} into {room}");
            }
            // All that is wrong with it comes before 13.
            let mut none = job.clone();
            none[3..5].fill(0);
            let mut wrong = job.clone();
            wrong[size - 3] = 0xFF;
            let behind = [&job[..], &[0]].concat();
            for (job, number) in [(none, 6), (wrong, 3), (behind, 4)] {
                let due = if job.len() > LONGEST { 1 } else { number };
                for room in [0, LONGEST, 70_000] {
                    assert_eq!(loading(side, &job, room), Err(due), "{size}");
                }
            }
        }
        for size in [8, 11, 42, 100, 4_096] {
            let job = job_of_size(size).encode();
            for room in 0..size + 40 {
                let is_loaded = loading(side, &job, room).is_ok();
                assert_eq!(is_loaded, room >= size + 10, "{size} into {room}");
            }
        }
    }
}

/// What the cabinet does in a step, where it takes part: the ambient named 0 that stands highest.
fn part_of_cabinet(
    state: &State,
    (place, partner): Choice,
    rule: u8,
) -> Option<(u8, &'static str)> {
    let paths = paths(state);
    let cabinet = paths.iter().find(|path| {
        let ambient = element_at(&state.elements, path).ambient();
        ambient.is_some_and(|(name, _)| name == CABINET)
    })?;
    let acting = &paths[usize::from(place)];
    if rule == 29 {
        return (acting == cabinet).then_some((29, "blocked"));
    }
    let waiting = paths.get(usize::from(partner))?;
    // The ambient of the sender or mover, and the list in which the other action stands.
    let (first, second) = if rule % 2 == 1 {
        (acting, waiting)
    } else {
        (waiting, acting)
    };
    let holder = |path: &[usize]| path[..path.len() - 1].to_vec();
    let is_first = holder(first) == *cabinet;
    let is_second = holder(second) == *cabinet;
    match rule {
        35 | 36 if is_first => Some((rule, "sends")),
        35 | 36 if is_second => Some((rule, "listens")),
        37 | 38 if is_first => Some((rule, "tells")),
        37 | 38 if is_second => Some((rule, "is told")),
        39 | 40 if is_first => Some((rule, "enters")),
        39 | 40 if is_second => Some((rule, "is entered")),
        41 | 42 if is_first => Some((rule, "leaves")),
        41 | 42 if is_second => Some((rule, "is left")),
        _ => None,
    }
}

/// Whether the first ambient named 0 is blocked.
fn is_blocked(state: &State) -> bool {
    let found = state.elements.iter().find(|element| {
        let ambient = element.ambient();
        ambient.is_some_and(|(name, _)| name == CABINET)
    });
    found.is_some_and(Element::is_blocked)
}

#[test]
fn the_cabinet_takes_part_in_every_way() {
    let mut parts: BTreeMap<(u8, &str), usize> = BTreeMap::new();
    let mut woken = BTreeSet::new();
    for (_, job) in cabinet_jobs() {
        let state = loaded(job).encode();
        let mut watcher = |turn: &Turn| {
            let choice = (turn.place, turn.partner);
            if let Some(part) = part_of_cabinet(turn.before, choice, turn.rule) {
                *parts.entry(part).or_default() += 1;
            }
            if is_blocked(turn.before) && !is_blocked(turn.after) {
                woken.insert(turn.rule);
            }
        };
        run_watched(&state, 300, &mut vec![0; LONGEST], &mut watcher).unwrap();
    }
    println!("{parts:?}, woken by {woken:?}");
    let due = [
        (29, "blocked"),
        (35, "listens"),
        (36, "listens"),
        (35, "sends"),
        (36, "sends"),
        (37, "is told"),
        (38, "is told"),
        (39, "is entered"),
        (40, "is entered"),
        (39, "enters"),
        (40, "enters"),
        (41, "is left"),
        (42, "is left"),
        (41, "leaves"),
    ];
    for part in due {
        assert!(parts.contains_key(&part), "{part:?}");
    }
    // It is blocked on the way and unblocked by what comes from outside.
    assert!(
        [35, 36, 39, 40].iter().all(|rule| woken.contains(rule)),
        "{woken:?}"
    );
}

/// The rules of the meetings in the run of a job.
fn meetings(job: &Job) -> Vec<u8> {
    let mut rules = Vec::new();
    let mut watcher = |turn: &Turn| rules.extend((turn.partner != NO_PARTNER).then_some(turn.rule));
    let state = loaded(job.clone()).encode();
    run_watched(&state, 300, &mut vec![0; LONGEST], &mut watcher).unwrap();
    rules
}

#[test]
fn the_cabinet_is_no_sibling_of_what_it_holds_and_not_its_own() {
    for (name, job) in cabinet_jobs() {
        let due: &[u8] = match name {
            "a deck in the cabinet sends to the cabinet's name"
            | "a deck in the cabinet would enter the cabinet"
            | "the cabinet would leave the root"
            | "the cabinet sends to its own name" => &[],
            "a deck that left sends to the cabinet on another channel"
            | "a deck that left tells nobody" => &[41],
            _ => {
                assert!(!meetings(&job).is_empty(), "{name}");
                continue;
            }
        };
        let found = meetings(&job);
        assert_eq!(found.len(), due.len(), "{name}: {found:?}");
        assert!(found.iter().all(|rule| [41, 42].contains(rule)));
    }
    for (name, job) in twin_jobs() {
        let found = meetings(&job);
        let due: &[u8] = match name {
            "the twin sends to itself" => &[41],
            "the twin sends to the cabinet" => &[41, 35],
            "the cabinet sends to the twin" => &[41, 36],
            "the twin enters the cabinet" => &[41, 39],
            _ => &[41, 40],
        };
        assert_eq!(found, due, "{name}");
    }
}

#[test]
fn the_lent_deck() {
    let job = example("lent-deck");
    assert_eq!(job, lent_deck().encode());
    for side in sides() {
        let state = loading(side, &job, LONGEST).unwrap();
        let mut out = vec![0; LONGEST];
        let ended = side(Call::Run(65_535), &state, &mut out).unwrap();
        assert_eq!(ended.ending, 0);
        let last = read_state(&out[..ended.result as usize]).unwrap();
        // Deck 1 stands behind the cabinet, and deck 2 in it, with the reel inside.
        let [cabinet, deck] = &last.elements[..] else {
            panic!("{last:?}");
        };
        assert_eq!(deck.ambient(), Some((1, &[][..])));
        let (name, contents) = cabinet.ambient().unwrap();
        assert_eq!(name, 0);
        let [other] = contents else {
            panic!("{contents:?}");
        };
        let (name, contents) = other.ambient().unwrap();
        assert_eq!(name, 2);
        let [reel] = contents else {
            panic!("{contents:?}");
        };
        assert_eq!(reel.ambient(), Some((5, &[][..])));
    }
    assert_eq!(meetings(&lent_deck()).len(), 3);
}

#[test]
fn the_examples_leave_the_name_0_to_the_cabinet() {
    fn channels(process: &Process, found: &mut BTreeSet<u16>) {
        match process {
            Process::Null => {}
            Process::Parallel(left, right) => {
                channels(left, found);
                channels(right, found);
            }
            Process::Restriction(part) | Process::Ambient(_, part) => channels(part, found),
            Process::Action(action, part) | Process::Replication(action, part) => {
                found.insert(action.channel.number());
                channels(part, found);
            }
        }
    }
    for name in [
        "adapter-and-deck",
        "cabinet",
        "endless",
        "lent-deck",
        "nested",
        "numbered-reel",
        "reel",
        "waiting-adapters",
    ] {
        let job = read_job(&example(name)).unwrap();
        let mut found = BTreeSet::new();
        channels(&job.process, &mut found);
        assert!(!found.contains(&CABINET), "{name}");
        println!(
            "{name}: {}",
            session(&example(name)).lines().last().unwrap()
        );
    }
}

#[test]
fn a_run_in_the_cabinet_is_that_of_the_bare_root_one_place_higher() {
    // Where no ambient leaves the root and none is sent to, the cabinet alone is blocked last.
    for name in [
        "adapter-and-deck",
        "reel",
        "numbered-reel",
        "waiting-adapters",
        "cabinet",
    ] {
        let job = read_job(&example(name)).unwrap();
        let mut in_cabinet = loaded(job.clone());
        let mut at_root = bare(job);
        while let Some((place, partner)) = lowest_choice(&at_root) {
            let higher = match partner {
                NO_PARTNER => NO_PARTNER,
                partner => partner + 1,
            };
            assert_eq!(lowest_choice(&in_cabinet), Some((place + 1, higher)));
            at_root = advance(&at_root, place, partner).unwrap().1;
            in_cabinet = advance(&in_cabinet, place + 1, higher).unwrap().1;
            let (_, contents) = in_cabinet.elements[0].ambient().unwrap();
            assert_eq!(contents, at_root.elements);
        }
        assert_eq!(lowest_choice(&in_cabinet), Some((0, NO_PARTNER)));
    }
}

#[test]
fn states_with_all_roots_are_among_the_inputs() {
    let mut found: BTreeMap<&str, usize> = BTreeMap::new();
    let mut look = |bytes: &[u8]| {
        for root in read_state(bytes).iter().flat_map(roots) {
            *found.entry(root).or_default() += 1;
        }
    };
    every_case(Counts::All, 1, 1, &mut |_, input| look(input));
    every_choice(Counts::All, 1, 1, &mut |_, state, _| look(state));
    println!("{found:?}");
    assert_eq!(found.len(), ROOTS);
    assert!(found.values().all(|count| *count >= 500));
}

#[test]
fn jobs_are_loaded_as_often_as_refused_for_their_free_names() {
    let mut numbers: BTreeMap<&str, BTreeMap<u32, usize>> = BTreeMap::new();
    let mut out = vec![0; LONGEST];
    every_case(Counts::All, 1, 1, &mut |group, input| {
        if input.first() == Some(&0x10) {
            let number = second(Call::Load, input, &mut out).err().unwrap_or(0);
            let group = numbers.entry(group).or_default();
            *group.entry(number).or_default() += 1;
        }
    });
    println!("{numbers:?}");
    assert!(numbers["random jobs"][&0] >= 18_000 && numbers["random jobs"][&6] >= 2_000);
    assert!(numbers["limits of loading"].len() == 10);
}

/// The inputs at the limits of loading, jobs in which the cabinet takes part, and some others.
fn some_parts() -> Vec<Part> {
    let mut parts = Vec::new();
    at_the_limits(&mut |group, input| parts.push((group, input.to_vec(), vec![Call::Load])));
    for (_, job) in cabinet_jobs().into_iter().chain(twin_jobs()) {
        parts.push(("decks", job.encode(), vec![Call::Load]));
    }
    let mut turn = 0;
    every_case(Counts::All, 1, 1, &mut |group, input| {
        turn += 1;
        if turn % 40 == 0 && input.len() < 500 {
            let calls = vec![Call::Load, Call::Weight, Call::List];
            parts.push((group, input.to_vec(), calls));
        }
    });
    every_process(Counts::All, 1, 1, &mut |group, process, counts| {
        turn += 1;
        if group == "limits of a process" || turn % 50 == 0 && process.len() < 500 {
            let calls = counts.iter().map(|free| Call::Write(*free)).collect();
            parts.push((group, process.to_vec(), calls));
        }
    });
    parts
}

#[test]
fn a_wrong_loading_is_noticed() {
    all_noticed(&some_parts(), &wrong_loadings().concat());
}

#[test]
fn thrown_jobs_meet_the_cabinet() {
    let mut rules: BTreeMap<u8, usize> = BTreeMap::new();
    let mut groups = BTreeSet::new();
    every_cabinet(1, 1, &mut |group, input, calls| {
        groups.insert(group);
        let Ok(state) = read_state(input) else {
            return;
        };
        for call in calls {
            if let Call::Step(place, partner) = call {
                if let Ok((rule, _)) = advance(&state, *place, *partner) {
                    if part_of_cabinet(&state, (*place, *partner), rule).is_some() {
                        *rules.entry(rule).or_default() += 1;
                    }
                }
            }
        }
    });
    println!("{rules:?}");
    assert_eq!(groups.len(), 2);
    for rule in [29, 35, 36, 37, 38, 39, 40, 41, 42] {
        assert!(rules[&rule] >= 30, "{rule}: {}", rules[&rule]);
    }
}
