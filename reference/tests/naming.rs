// A box is no channel: which jobs are refused with 15, when, and by which call; what the jobs cover, and that wrong judging is
// noticed. What is said of a call holds of the second implementation, and of the proved library where that is linked.

use misnamed::{is_due, wrong_namings};
use noticing::{all_noticed, Part};
use reference::accesses::{self, step_by_panel};
use reference::cases::{every_case, loaded};
use reference::comparison::{proved, second, Call, Side};
use reference::counts::bytes;
use reference::dice::{Counts, Dice, Thrown};
use reference::machine::{lowest_choice, session};
use reference::mixed_up::{every_mix_up, every_planted, neighbours, planted_job, NAMES};
use reference::naming::Naming;
use reference::processes::parts;
use reference::sessions::{example, examples, printed_by};
use reference::shapes::timed_jobs;
use reference::spelling::{
    read_job, read_state, Spelled, LOADING, LONGEST, LONGEST_JOB, MOST_FREE,
};
use reference::tree::{Element, Process, Reference, State};
use reference::uses::{Role, Use};
use std::collections::{BTreeMap, BTreeSet};
use std::path::Path;

mod misnamed;
mod noticing;

/// The sides that can be called here.
fn sides() -> Vec<Side> {
    if cfg!(proved) {
        vec![second, proved]
    } else {
        vec![second]
    }
}

/// The refusal of loading into a buffer of this length, or 0. With a refusal every byte stays.
fn number(side: Side, job: &[u8], room: usize) -> u8 {
    let mut out = vec![0xA5; room];
    let refusal = side(Call::Load, job, &mut out).err().unwrap_or(0);
    assert!(refusal == 0 || out.iter().all(|byte| *byte == 0xA5));
    refusal as u8
}

#[test]
fn a_name_that_is_an_ambients_and_a_channel_is_15() {
    let table = [
        // An ambient 1, and an accept on it; in both orders, in it, and behind it.
        (
            "10 0018 0002 21 0013 23 0005 0001 20 0000 24 0008 36 0002 0001 20 0000",
            15,
        ),
        (
            "10 0018 0002 21 0013 24 0008 36 0002 0001 20 0000 23 0005 0001 20 0000",
            15,
        ),
        ("10 0012 0002 23 000D 0001 24 0008 36 0002 0001 20 0000", 15),
        ("10 0012 0002 24 000D 36 0002 0001 23 0005 0001 20 0000", 15),
        ("10 0012 0002 25 000D 36 0002 0001 23 0005 0001 20 0000", 15),
        // The accept is on another name.
        (
            "10 0018 0003 21 0013 23 0005 0001 20 0000 24 0008 36 0002 0002 20 0000",
            0,
        ),
        (
            "10 0018 0003 21 0013 24 0008 36 0002 0002 20 0000 23 0005 0001 20 0000",
            0,
        ),
        // A target and a channel in one action.
        ("10 000F 0002 24 000A 34 0004 0001 0001 20 0000", 15),
        ("10 000F 0003 24 000A 34 0004 0001 0002 20 0000", 0),
        ("10 0011 0002 24 000C 30 0006 0001 0001 0000 20 0000", 15),
        ("10 0011 0002 24 000C 30 0006 0000 0001 0001 20 0000", 0),
        ("10 0010 0002 24 000B 38 0005 0001 0001 00 20 0000", 15),
        (
            "10 0014 0002 24 000F 38 0009 0000 0001 02 0001 0000 20 0000",
            0,
        ),
        // The name 0 is the cabinet's.
        ("10 000D 0001 24 0008 36 0002 0000 20 0000", 15),
        ("10 000D 0001 25 0008 35 0002 0000 20 0000", 15),
        ("10 000E 0001 24 0009 3A 0003 0000 00 20 0000", 15),
        ("10 000F 0002 24 000A 34 0004 0000 0001 20 0000", 0),
        ("10 000F 0002 24 000A 31 0004 0001 0000 20 0000", 0),
        ("10 000A 0001 23 0005 0000 20 0000", 0),
        ("10 000F 0001 24 000A 31 0004 0000 0000 20 0000", 15),
        // A variable is not judged, whatever its number is.
        ("10 0010 0001 22 000B 24 0008 36 0002 8000 20 0000", 0),
        (
            "10 0015 0001 22 0010 23 000D 8000 24 0008 36 0002 8000 20 0000",
            0,
        ),
        (
            "10 0015 0001 22 0010 23 000D 0000 24 0008 36 0002 8000 20 0000",
            0,
        ),
        (
            "10 0015 0002 22 0010 23 000D 8000 24 0008 36 0002 0001 20 0000",
            0,
        ),
        (
            "10 0015 0002 22 0010 23 000D 0001 24 0008 36 0002 0001 20 0000",
            15,
        ),
        // What is wrong with the bytes comes first, wherever it stands.
        ("10 0012 0001 23 000D 0001 24 0008 36 0002 0001 20 0000", 6),
        ("10 0012 0000 23 000D 0001 24 0008 36 0002 0001 20 0000", 6),
        ("10 0012 0002 23 000D 0001 24 0008 36 0002 0001 FF 0000", 3),
        ("10 0012 0002 23 000D 0001 24 0008 36 0002 0001 20 0001", 2),
        (
            "10 0012 0002 23 000D 0001 24 0008 36 0002 0001 20 0000 00",
            4,
        ),
        ("10 0010 0002 24 000B 38 0005 0001 0001 05 20 0000", 14),
        ("10 0010 0002 24 000B 38 0005 0001 0001 01 20 0000", 14),
        ("10 0010 0002 24 000B 34 0005 0001 0001 00 20 0000", 4),
    ];
    for side in sides() {
        for (text, due) in table {
            let job = bytes(text);
            assert_eq!(number(side, &job, 100), due, "{text}");
            // 15 comes before 13, as all that is read does.
            let due = if due == 0 { 13 } else { due };
            for room in [0, 1, job.len(), job.len() + LOADING - 1] {
                assert_eq!(number(side, &job, room), due, "{text} into {room}");
            }
        }
    }
    for (text, due) in table.iter().filter(|(_, due)| *due > 0) {
        assert_eq!(session(&bytes(text)), format!("{due}\n"), "{text}");
    }
}

#[test]
fn every_job_is_judged_as_it_was_made() {
    let mut groups: BTreeMap<&str, BTreeMap<u8, usize>> = BTreeMap::new();
    every_mix_up(&mut |group, job, due| {
        *groups.entry(group).or_default().entry(due).or_default() += 1;
        if let Ok(job) = read_job(job) {
            assert_eq!(is_due(&job.process), due == 15, "{group}: {job:?}");
            assert_eq!(
                Naming::of(&job).is_mixed_up(),
                due == 15,
                "{group}: {job:?}"
            );
        }
        for side in sides() {
            let state = job.len() + LOADING;
            for room in [state, LONGEST, 70_000] {
                assert_eq!(
                    number(side, job, room),
                    due,
                    "{group}: {job:x?} into {room}"
                );
            }
            let due = if due == 0 { 13 } else { due };
            for room in [state - 1, 0] {
                assert_eq!(
                    number(side, job, room),
                    due,
                    "{group}: {job:x?} into {room}"
                );
            }
        }
    });
    println!("{groups:?}");
    let numbers = |group: &str| groups[group].keys().copied().collect::<Vec<u8>>();
    for group in [
        "all names in use",
        "both ends of a long job",
        "one action",
        "the cabinet's name",
        "two names",
        "two uses",
        "variables",
    ] {
        assert_eq!(numbers(group), [0, 15], "{group}");
        assert!(groups[group].values().all(|count| *count >= 30), "{group}");
    }
    assert_eq!(numbers("names that are sent"), [0]);
    assert_eq!(numbers("mixed up and too long"), [0, 1, 4, 13, 15]);
    assert_eq!(numbers("mixed up and faulty"), [0, 2, 3, 4, 5, 6, 14, 15]);
    assert_eq!(groups.len(), 10);
}

/// The uses of names in a process, with how deep each stands.
fn uses(process: &Process, depth: usize, visit: &mut dyn FnMut(Use, u16, usize)) {
    let mut look = |part: Use, reference: Reference| {
        if let Reference::Name(name) = reference {
            visit(part, name, depth);
        }
    };
    match process {
        Process::Null => {}
        Process::Parallel(left, right) => {
            uses(left, depth + 1, visit);
            uses(right, depth + 1, visit);
        }
        Process::Restriction(part) => uses(part, depth + 1, visit),
        Process::Ambient(name, part) => {
            look(Use::Ambient, *name);
            uses(part, depth + 1, visit);
        }
        Process::Action(action, part) | Process::Replication(action, part) => {
            for (index, reference) in action.references().enumerate() {
                look(Use::Action(action.kind, action.count(), index), reference);
            }
            uses(part, depth + 1, visit);
        }
    }
}

#[test]
fn all_uses_of_all_names_meet_and_stand_near_each_other() {
    let key = |part: Use| format!("{part:?}");
    let mut together = BTreeSet::new();
    let mut apart = BTreeSet::new();
    let mut with_sent = BTreeSet::new();
    let mut depths = BTreeSet::new();
    let mut near = BTreeSet::new();
    let mut same = BTreeSet::new();
    every_mix_up(&mut |_, job, due| {
        let Ok(job) = read_job(job) else { return };
        if job.process.encode().len() > 1_500 {
            return;
        }
        let mut found = Vec::new();
        uses(&job.process, 1, &mut |part, name, depth| {
            found.push((part, name, depth))
        });
        for (one, name, depth) in &found {
            depths.insert((due, *depth));
            for (other, channel, _) in &found {
                match (one.role(), other.role()) {
                    (Role::Box, Role::Channel) if name == channel => {
                        together.insert((key(*one), key(*other)));
                        same.insert(*name);
                    }
                    (Role::Box, Role::Channel) if due == 0 => {
                        apart.insert((key(*one), key(*other)));
                        near.insert((*name, *channel));
                    }
                    (Role::Sent, Role::Box | Role::Channel) if name == channel && due == 0 => {
                        with_sent.insert((key(*one), key(*other)));
                    }
                    _ => {}
                }
            }
        }
    });
    let [boxes, channels, sent] =
        [Role::Box, Role::Channel, Role::Sent].map(|role| Use::of_role(role).len());
    assert_eq!((boxes, channels, sent), (7, 24, 20));
    assert_eq!(together.len(), boxes * channels);
    assert_eq!(apart.len(), boxes * channels);
    assert_eq!(with_sent.len(), sent * (boxes + channels));
    // As deep as may be: behind the last there is room for a null.
    for due in [0, 15] {
        for depth in [1, 2, 3, 30, 31] {
            assert!(depths.contains(&(due, depth)), "{due} {depth}");
        }
    }
    for name in NAMES {
        assert!(same.contains(&name), "{name}");
        for channel in neighbours(name).into_iter().filter(|name| *name > 0) {
            assert!(near.contains(&(name, channel)), "{name} {channel}");
        }
    }
    // Eight names share a byte of bits, and 256 a byte.
    assert_eq!(
        neighbours(8),
        [0, 7, 9, 10, 12, 16, 24, 40, 72, 136, 264, 520]
    );
}

/// The jobs that are refused with 15 and not longer than this.
fn mixed_up(longest: usize) -> Vec<Vec<u8>> {
    let mut jobs = Vec::new();
    every_mix_up(&mut |_, job, due| {
        if due == 15 && job.len() <= longest {
            jobs.push(job.to_vec());
        }
    });
    jobs
}

#[test]
fn only_loading_gives_15() {
    let mut out = vec![0; LONGEST];
    let mut steps = 0;
    for (turn, bytes) in mixed_up(400).iter().enumerate() {
        let (free, process) = parts(bytes).unwrap();
        for side in sides() {
            let written = side(Call::Write(free), process, &mut out).unwrap();
            assert_eq!(out[..written.result as usize], *bytes);
        }
        if turn % 10 > 0 {
            continue;
        }
        let mut state = loaded(read_job(bytes).unwrap());
        for _ in 0..12 {
            let bytes = state.encode();
            assert_eq!(read_state(&bytes).as_ref(), Ok(&state));
            let Some((place, partner)) = lowest_choice(&state) else {
                break;
            };
            let step = Call::Step(place, partner);
            for side in sides() {
                for call in [Call::Weight, Call::List, Call::Run(9), step] {
                    assert!(side(call, &bytes, &mut out).is_ok(), "{call}");
                }
                for call in [Call::Sweep, Call::Partners(place)] {
                    assert!(side(call, &bytes, &mut out).is_ok(), "{call}");
                }
            }
            assert!(step_by_panel(accesses::second, &bytes, (place, partner)).is_ok());
            let stepped = second(step, &bytes, &mut out).unwrap();
            state = read_state(&out[..stepped.result as usize]).unwrap();
            steps += 1;
        }
    }
    println!("{steps} steps");
    assert!(steps >= 3_000);
}

#[test]
fn the_longest_mixed_up_job_is_15_and_a_longer_one_is_1() {
    let mut sizes = BTreeMap::new();
    every_mix_up(&mut |group, job, due| {
        if group == "mixed up and too long" {
            sizes
                .entry(job.len())
                .or_insert_with(BTreeSet::new)
                .insert(due);
        }
    });
    for size in LONGEST_JOB - 1..=LONGEST_JOB {
        assert_eq!(sizes[&size], [0, 15].into());
    }
    for size in LONGEST_JOB + 1..LONGEST {
        assert_eq!(sizes[&size], [13, 15].into());
    }
    assert_eq!(sizes[&LONGEST], [4, 13, 15].into());
    assert_eq!(sizes[&(LONGEST + 1)], [1].into());
}

#[test]
fn planted_jobs_are_accepted_as_often_as_refused() {
    let mut dice = Dice::new(Counts::All, 1);
    let mut numbers: BTreeMap<u8, usize> = BTreeMap::new();
    let mut names = BTreeSet::new();
    for turn in 0..20_000 {
        let job = planted_job(&mut dice, if turn % 500 == 0 { 1_500 } else { 20 });
        let bytes = job.encode();
        let due = match read_job(&bytes) {
            Ok(job) if is_due(&job.process) => 15,
            Ok(_) => 0,
            Err(number) => number,
        };
        for side in sides() {
            assert_eq!(number(side, &bytes, LONGEST), due);
        }
        *numbers.entry(due).or_default() += 1;
        if due == 15 {
            let Naming { boxes, channels } = Naming::of(&job);
            let both = (0..MOST_FREE)
                .filter(|name| boxes[usize::from(*name)] && channels[usize::from(*name)]);
            names.extend(both);
        }
    }
    println!("{numbers:?}, {} names", names.len());
    assert!(numbers[&0] >= 6_000 && numbers[&15] >= 6_000);
    assert!(names.len() >= 700 && names.contains(&0));
}

#[test]
fn most_random_jobs_are_accepted_and_states_use_names_for_everything() {
    let mut dice = Dice::new(Counts::All, 1);
    let (mut mixed_up, mut acting) = (0, 0);
    for _ in 0..10_000 {
        let job = dice.job(20);
        mixed_up += usize::from(Naming::of(&job).is_mixed_up());
        acting += usize::from(Naming::of(&job).channels.contains(&true));
    }
    println!("of 10,000 jobs {acting} have a free channel, and {mixed_up} are mixed up");
    assert!((500..1_500).contains(&mixed_up) && acting >= 6_000);
    // With the names of old most are refused.
    let mut dice = Dice::new(Thrown::bare(Counts::All), 1);
    let jobs = (0..1_000).map(|_| dice.job(20));
    let refused = jobs.filter(|job| Naming::of(job).is_mixed_up()).count();
    assert!(refused >= 600, "{refused}");
    // A state is as if it were a job with each of its processes.
    let is_mixed_up = |state: &State| {
        let mut processes = Vec::new();
        gather(&state.elements, &mut processes);
        let process = processes.into_iter().fold(Process::Null, |all, process| {
            Process::Parallel(Box::new(process), Box::new(all))
        });
        is_due(&process)
    };
    let mut dice = Dice::new(Counts::All, 1);
    let states = (0..1_000).map(|_| dice.state(20));
    let mixed_up = states.filter(is_mixed_up).count();
    assert!(mixed_up >= 500, "{mixed_up}");
}

/// The processes of the elements, and of those in them.
fn gather(list: &[Element], processes: &mut Vec<Process>) {
    for element in list {
        match element {
            Element::Ambient { contents, .. } => gather(contents, processes),
            Element::Process(process) => processes.push(process.clone()),
            Element::BlockedAction(action, process) => {
                processes.push(Process::Action(*action, Box::new(process.clone())))
            }
        }
    }
}

/// The jobs made by hand, loaded and written, and some of the others.
fn some_parts() -> Vec<Part> {
    let mut all = Vec::new();
    every_mix_up(&mut |group, job, _| {
        all.push((group, job.to_vec(), vec![Call::Load]));
        if let Some((free, process)) = parts(job).filter(|_| job.len() < 500) {
            all.push((group, process.to_vec(), vec![Call::Write(free)]));
        }
    });
    let mut turn = 0;
    every_planted(1, 1, &mut |group, input, calls| {
        turn += 1;
        let every = match group {
            "planted names" => 100,
            _ => 7,
        };
        if turn % every == 0 && input.len() < 500 {
            all.push((group, input.to_vec(), calls.to_vec()));
        }
    });
    all
}

#[test]
fn wrong_judging_is_noticed() {
    all_noticed(&some_parts(), &wrong_namings().concat());
}

#[test]
fn the_random_inputs_have_15_among_them() {
    let mut numbers: BTreeMap<&str, BTreeMap<u32, usize>> = BTreeMap::new();
    let mut out = vec![0; LONGEST];
    every_case(Counts::All, 1, 1, &mut |group, input| {
        let number = second(Call::Load, input, &mut out).err().unwrap_or(0);
        *numbers.entry(group).or_default().entry(number).or_default() += 1;
    });
    for (group, least) in [
        ("random jobs", 1_000),
        ("each byte replaced", 5),
        ("off by one", 50),
        ("reshaped", 50),
    ] {
        println!("{group}: {:?}", numbers[group]);
        let [accepted, refused] = [0, 15].map(|number| numbers[group][&number]);
        assert!(accepted > refused && refused >= least, "{group}");
    }
}

#[test]
fn the_examples_are_accepted_but_for_one() {
    let names = examples();
    assert_eq!(names.len(), 10);
    for name in names {
        let is_mixed_up = name == "deck-as-channel";
        let job = example(&name);
        for side in sides() {
            let due = if is_mixed_up { 15 } else { 0 };
            assert_eq!(number(side, &job, LONGEST), due, "{name:?}");
        }
    }
}

#[test]
fn the_deck_as_a_channel() {
    let job = example("deck-as-channel");
    assert_eq!(session(&job), "15\n");
    let path = Path::new(env!("CARGO_BIN_EXE_session"));
    assert_eq!(printed_by(path, &job), Ok(b"15\n".to_vec()));
    // The reel sends on the name of deck 1; on a channel it is accepted.
    let Naming { boxes, channels } = Naming::of(&read_job(&job).unwrap());
    let of = |names: Vec<bool>| -> Vec<usize> {
        let numbers = 0..names.len();
        numbers.filter(|name| names[*name]).collect()
    };
    assert_eq!((of(boxes), of(channels)), (vec![0, 1, 2, 4], vec![1, 3]));
    let output = bytes("30 0006 0001 0001 0002");
    let index = job.windows(9).position(|nine| nine == output).unwrap();
    let mut mended = job.clone();
    mended[index + 6] = 3;
    assert!(
        session(&mended).ends_with("blocked 15 0\n"),
        "{}",
        session(&mended)
    );
}

#[test]
fn the_timed_jobs_are_accepted_and_have_all_names() {
    for (name, job) in timed_jobs() {
        let bytes = job.encode();
        for side in sides() {
            assert_eq!(number(side, &bytes, LONGEST), 0, "{name}");
        }
        let Naming { boxes, channels } = Naming::of(&job);
        let names = boxes.iter().zip(&channels);
        let names = names.filter(|(is_box, is_channel)| **is_box || **is_channel);
        let is_judged = ["boxes", "channels", "enters"].contains(&name);
        if is_judged && bytes.len() > 30_000 {
            assert_eq!(names.count(), 1_024, "{name}");
        }
        let size = bytes.len();
        println!("{name}: {size} bytes, depth {}", job.process.depth());
        assert!(size == 42 || LONGEST_JOB - size < 300 || (3_800..=4_100).contains(&size));
    }
}
