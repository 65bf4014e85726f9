// Jobs in which a free name is an ambient's and a channel, near and far apart, and such as nearly have one.

use crate::cabinets::{cabinet_jobs, calls_on, each_state, job_of_parts, twin_jobs};
use crate::cases::{loaded, play};
use crate::comparison::{Call, Caller};
use crate::counts::{bytes, field};
use crate::dice::{Counts, Dice};
use crate::machine::CABINET;
use crate::naming::Naming;
use crate::refusal::*;
use crate::shapes::*;
use crate::spelling::{read_job, Spelled, JOB_DEPTH, LONGEST, LONGEST_JOB, MOST_FREE};
use crate::tree::{Action, Job, Kind, Process, Reference, MOST_COUNT};
use crate::uses::{roles, Role, Use};
use std::collections::BTreeSet;

/// What a job is shown to: the name of its group, its bytes, and the number with which loading refuses it as it was made,
/// the output buffer being long enough, or 0.
pub type Judge<'judge> = &'judge mut dyn FnMut(&'static str, &[u8], u8);

/// Shows the jobs that are made by hand.
pub fn every_mix_up(show: Judge) {
    two_uses(show);
    two_names(show);
    one_action(show);
    name_of_the_cabinet(show);
    sent_names(show);
    variables(show);
    at_both_ends(show);
    lengths(show);
    with_faults(show);
    all_names(show);
}

/// Small names, those at the ends of a byte and of its bits, and the last.
pub const NAMES: [u16; 13] = [1, 2, 7, 8, 9, 63, 64, 255, 256, 511, 512, 1_022, 1_023];

/// The channel of what is in these jobs beside the names in question.
const CHANNEL: u16 = 700;

/// One, eight and 256 more and fewer, and those with one bit changed.
pub fn neighbours(name: u16) -> Vec<u16> {
    let steps = [1, 8, 256].into_iter();
    let near = steps.flat_map(|step| [name.checked_sub(step), name.checked_add(step)]);
    let bits = (0..10).map(|bit| name ^ 1 << bit);
    let all: BTreeSet<u16> = near.flatten().chain(bits).collect();
    all.into_iter().filter(|name| *name < MOST_FREE).collect()
}

/// The number of a job in which the one name is an ambient's and the other a channel.
fn due(name: u16, channel: u16) -> u8 {
    match name == channel || channel == CABINET {
        true => BOX_AND_CHANNEL,
        false => 0,
    }
}

/// The process in which the reference stands so, beside references to the cabinet and on a channel that is no ambient's.
fn standing(part: Use, reference: Reference) -> Process {
    let process = part.process(reference, Reference::Name(CABINET));
    match process {
        Process::Action(action, after) if part.role() != Role::Channel => {
            let channel = Reference::Name(CHANNEL);
            Process::Action(Action { channel, ..action }, after)
        }
        process => process,
    }
}

/// Puts two processes together, the first in front of the second.
type Layout = fn(Process, Process) -> Process;

/// Beside each other and in one another, in and behind all that there is, and as deep as may be. The first eight have at
/// most four levels.
const LAYOUTS: [Layout; 13] = [
    parallel,
    followed,
    replicated,
    |first, second| restriction(parallel(first, second)),
    |first, second| in_ambient(CABINET, parallel(first, second)),
    |first, second| acting(Kind::Accept, &[CHANNEL], parallel(first, second)),
    |first, second| again(Kind::Leave, &[CHANNEL], parallel(first, second)),
    |first, second| acting(Kind::InternalInput, &[CHANNEL], parallel(first, second)),
    |first, second| parallel(first, deep(second, JOB_DEPTH - 1)),
    |first, second| parallel(deep(first, JOB_DEPTH - 1), second),
    |first, second| deep(parallel(first, second), JOB_DEPTH),
    |first, second| deep(followed(first, second), JOB_DEPTH),
    |first, second| parallel(first, parallel(process_of_size(1_000), second)),
];
const SHALLOW: usize = 8;

/// A name by turns: each time that all layouts have come it goes on by one more, so that every name comes with each.
fn name_of_turn(turn: usize) -> u16 {
    NAMES[(turn + turn / LAYOUTS.len()) % NAMES.len()]
}

/// The second behind the action of the first, or in its ambient.
fn followed(first: Process, second: Process) -> Process {
    let second = Box::new(second);
    match first {
        Process::Action(action, _) => Process::Action(action, second),
        Process::Replication(action, _) => Process::Replication(action, second),
        Process::Ambient(name, _) => Process::Ambient(name, second),
        first => Process::Parallel(Box::new(first), second),
    }
}

/// The like with both actions again and again.
fn replicated(first: Process, second: Process) -> Process {
    let again = |process| match process {
        Process::Action(action, part) => Process::Replication(action, part),
        process => process,
    };
    followed(again(first), again(second))
}

/// The process in and behind others, so deep in all.
fn deep(process: Process, depth: usize) -> Process {
    let levels = depth - process.depth();
    behind_all(process, levels, CHANNEL)
}

/// A job with all names that there may be.
fn job(process: Process) -> Vec<u8> {
    let free = MOST_FREE;
    Job { free, process }.encode()
}

/// Every part in which a name is an ambient's with every one in which it is a channel, put together in every way, in both
/// orders: the same name, and two that are near each other.
fn two_uses(show: Judge) {
    let mut turn = 0;
    for one in Use::of_role(Role::Box) {
        for other in Use::of_role(Role::Channel) {
            for layout in LAYOUTS {
                let name = name_of_turn(turn);
                let near = neighbours(name);
                let near = [turn, turn + 5].map(|turn| near[turn % near.len()]);
                for channel in [name, near[0], near[1]] {
                    let one = standing(one, Reference::Name(name));
                    let other = standing(other, Reference::Name(channel));
                    let both = [layout(one.clone(), other.clone()), layout(other, one)];
                    for process in both {
                        show("two uses", &job(process), due(name, channel));
                    }
                }
                turn += 1;
            }
        }
    }
}

/// Every name with itself and with all that are near it, where there are no more names than these.
fn two_names(show: Judge) {
    for name in NAMES {
        for channel in neighbours(name).into_iter().chain([name]) {
            let free = name.max(channel) + 1;
            let one = in_ambient(name, Process::Null);
            let other = acting(Kind::Accept, &[channel], Process::Null);
            let enter = acting(Kind::Enter, &[name, channel], Process::Null);
            for process in [
                parallel(one.clone(), other.clone()),
                parallel(other.clone(), one.clone()),
                followed(one.clone(), other.clone()),
                followed(other, one),
                enter,
            ] {
                let job = Job { free, process }.encode();
                show("two names", &job, due(name, channel));
            }
        }
    }
}

/// A target and a channel in one action, which sends both names too.
fn one_action(show: Judge) {
    let mut turn = 0;
    let targets = Use::of_role(Role::Box).into_iter();
    for (kind, count) in targets.filter_map(|part| match part {
        Use::Ambient => None,
        Use::Action(kind, count, _) => Some((kind, count)),
    }) {
        for name in NAMES.into_iter().chain([CABINET]) {
            let near = neighbours(name);
            for channel in [name, near[turn % near.len()], CABINET] {
                let names = [name, channel, name, channel, CABINET, name];
                let action = Action::counted(kind, count, &names);
                for layout in [turn, turn + 5, turn + 9] {
                    let process = Process::Action(action, Box::new(Process::Null));
                    let process = LAYOUTS[layout % LAYOUTS.len()](process, Process::Null);
                    show("one action", &job(process), due(name, channel));
                }
                turn += 1;
            }
        }
    }
}

/// The name 0 in every part: as a channel it is refused, as an ambient's or to be sent it is not. With one free name every
/// action's channel is 0, if it is no variable.
fn name_of_the_cabinet(show: Judge) {
    const GROUP: &str = "the cabinet's name";
    let name = Reference::Name(CABINET);
    for part in Use::all() {
        let number = match part.role() {
            Role::Channel => BOX_AND_CHANNEL,
            _ => 0,
        };
        for layout in LAYOUTS {
            let one = || standing(part, name);
            for process in [layout(one(), Process::Null), layout(Process::Null, one())] {
                show(GROUP, &job(process), number);
            }
        }
        let all = part.process(name, name);
        let others = restriction(part.process(Reference::Variable(0), name));
        let has_channel = part != Use::Ambient;
        for (process, is_refused) in [
            (all, has_channel),
            (others, has_channel && part.role() != Role::Channel),
        ] {
            let number = u8::from(is_refused) * BOX_AND_CHANNEL;
            show(GROUP, &Job { free: 1, process }.encode(), number);
        }
    }
}

/// A name that is sent, and is an ambient's or a channel but not both.
fn sent_names(show: Judge) {
    let mut turn = 0;
    for sent in Use::of_role(Role::Sent) {
        for other in Use::all() {
            let name = name_of_turn(turn);
            let [sent, other] = [sent, other].map(|part| standing(part, Reference::Name(name)));
            let layout = LAYOUTS[turn % LAYOUTS.len()];
            for process in [layout(sent.clone(), other.clone()), layout(other, sent)] {
                show("names that are sent", &job(process), 0);
            }
            turn += 1;
        }
    }
}

/// Numbers that a name and a variable have.
const NUMBERS: [u16; 12] = [0, 1, 2, 3, 7, 8, 9, 15, 16, 63, 64, 104];

/// The process under more binders than this: restrictions, or inputs if there are many.
fn bound(process: Process, number: u16) -> Process {
    let input = Action::counted(Kind::ExternalInput, MOST_COUNT, &[CHANNEL]);
    let most = u16::from(MOST_COUNT);
    match number < 16 {
        true => (0..=number).fold(process, |part, _| restriction(part)),
        false => {
            (0..=number / most).fold(process, |part, _| Process::Action(input, Box::new(part)))
        }
    }
}

/// A name and the variable of the same number, one as an ambient's and one as a channel; the variable as both; and the name
/// as both beside the variable.
fn variables(show: Judge) {
    let mut turn = 0;
    for one in Use::of_role(Role::Box) {
        for other in Use::of_role(Role::Channel) {
            for _ in 0..3 {
                let number = NUMBERS[turn % NUMBERS.len()];
                let layout = LAYOUTS[turn % SHALLOW];
                let (name, variable) = (Reference::Name(number), Reference::Variable(number));
                let mut both = |first, second| {
                    let (one, other) = (standing(one, first), standing(other, second));
                    turn += 1;
                    match turn % 2 == 0 {
                        true => layout(one, other),
                        false => layout(other, one),
                    }
                };
                let alone = due(u16::MAX, number);
                for (process, number_due) in [
                    (both(name, variable), 0),
                    (both(variable, name), alone),
                    (both(variable, variable), 0),
                    (
                        parallel(both(variable, variable), both(name, name)),
                        BOX_AND_CHANNEL,
                    ),
                ] {
                    let process = bound(process, number);
                    show("variables", &job(process), number_due);
                }
            }
        }
    }
}

/// A job of so many bytes with the one in front and the other last.
pub fn far_apart(first: Process, second: Process, size: usize) -> Vec<u8> {
    let ends = parallel(first.clone(), parallel(Process::Null, second.clone()));
    let between = size + Process::Null.encode().len() - job(ends).len();
    job(parallel(first, parallel(process_of_size(between), second)))
}

/// Two uses by turns, of this name and this channel.
fn by_turns(turn: usize, name: u16, channel: u16) -> [Process; 2] {
    let of_turn = |role, turn: usize| {
        let parts = Use::of_role(role);
        parts[turn % parts.len()]
    };
    let one = standing(of_turn(Role::Box, turn), Reference::Name(name));
    let other = standing(of_turn(Role::Channel, turn), Reference::Name(channel));
    match turn / 2 % 2 {
        0 => [one, other],
        _ => [other, one],
    }
}

/// At both ends of a long job, every name with itself and with some that are near it.
fn at_both_ends(show: Judge) {
    let mut turn = 0;
    for name in NAMES {
        let near = neighbours(name);
        for index in 0..6 {
            let channel = match index % 2 {
                0 => name,
                _ => near[turn % near.len()],
            };
            let [first, second] = by_turns(turn, name, channel);
            let job = far_apart(first, second, 32_000 + turn);
            show("both ends of a long job", &job, due(name, channel));
            turn += 1;
        }
    }
}

/// Jobs of every length around the longest that is loaded and the longest that is read: 1 comes before 15, and 15 before
/// 13.
fn lengths(show: Judge) {
    const GROUP: &str = "mixed up and too long";
    let mut turn = 0;
    for size in LONGEST_JOB - 1..=LONGEST + 1 {
        for channel in [7, 8, 7] {
            let [first, second] = by_turns(turn, 7, channel);
            let number = match due(7, channel) {
                _ if size > LONGEST => INPUT_TOO_LONG,
                0 if size > LONGEST_JOB => RESULT_TOO_LONG,
                number => number,
            };
            show(GROUP, &far_apart(first, second, size), number);
            turn += 1;
        }
    }
    for (length, number) in [
        (LONGEST, BYTES_LEFT),
        (LONGEST + 1, INPUT_TOO_LONG),
        (70_000, INPUT_TOO_LONG),
    ] {
        let [first, second] = by_turns(turn, 7, 7);
        let mut job = job(parallel(first, second));
        job.resize(length, 0);
        show(GROUP, &job, number);
    }
}

/// What is no process of a job with all names, with the number that it is refused with. Some have the name 7 as both before
/// the fault.
fn faults() -> Vec<(Vec<u8>, u8)> {
    let texts = [
        ("24 0007 32 0001 00 20 0000", PAST_THE_END),
        ("24 0005 32 0002 02BC", PAST_THE_END),
        ("20 FFFF", PAST_THE_END),
        ("24 0009 34 0003 0007 00 20 0000", PAST_THE_END),
        ("FF 0000", TAG_NOT_DUE),
        ("42 0003 20 0000", TAG_NOT_DUE),
        ("24 000A 34 0004 0007 0007 FF 0000", TAG_NOT_DUE),
        ("20 0001 00", BYTES_LEFT),
        ("24 0009 32 0003 02BC 00 20 0000", BYTES_LEFT),
        ("24 000B 34 0005 0007 0007 00 20 0000", BYTES_LEFT),
        ("23 0005 0400 20 0000", OUT_OF_RANGE),
        ("23 0005 1000 20 0000", OUT_OF_RANGE),
        ("23 0005 8000 20 0000", OUT_OF_RANGE),
        ("24 0008 36 0002 0400 20 0000", OUT_OF_RANGE),
        ("24 0008 36 0002 8000 20 0000", OUT_OF_RANGE),
        ("24 000C 30 0006 0007 0007 0400 20 0000", OUT_OF_RANGE),
        ("24 0009 3A 0003 02BC 01 20 0000", WRONG_COUNT),
        ("24 0009 3B 0003 0000 05 20 0000", WRONG_COUNT),
        (
            "24 000F 38 0009 0007 0007 01 0007 0000 20 0000",
            WRONG_COUNT,
        ),
        // No fault at all.
        ("20 0000", 0),
    ];
    let mut faults = texts.map(|(text, number)| (bytes(text), number)).to_vec();
    faults.push((job_of_depth(JOB_DEPTH).process.encode(), TOO_DEEP));
    faults
}

/// Each reading refusal before both uses, between them and behind them; F that is out of range, or has no room for the
/// name; and what is wrong with the job's own field.
fn with_faults(show: Judge) {
    const GROUP: &str = "mixed up and faulty";
    let mut turn = 0;
    let both = |left: &[u8], right: &[u8]| field(0x21, &[left, right]);
    for (fault, number) in faults() {
        for _ in 0..12 {
            let name = NAMES[turn % NAMES.len()];
            let channel = match turn % 3 {
                0 => neighbours(name)[1],
                _ => name,
            };
            let [first, second] = by_turns(turn, name, channel).map(|part| part.encode());
            let number = match number {
                0 => due(name, channel),
                number => number,
            };
            for process in [
                both(&fault, &both(&first, &second)),
                both(&first, &both(&fault, &second)),
                both(&first, &both(&second, &fault)),
                both(&both(&first, &second), &fault),
            ] {
                show(GROUP, &job_of_parts(MOST_FREE, &process), number);
            }
            turn += 1;
        }
    }
    for name in NAMES {
        let enter = acting(Kind::Enter, &[name, name], Process::Null).encode();
        for (free, number) in [
            (0, OUT_OF_RANGE),
            (name, OUT_OF_RANGE),
            (name + 1, BOX_AND_CHANNEL),
            (MOST_FREE, BOX_AND_CHANNEL),
            (MOST_FREE + 1, OUT_OF_RANGE),
        ] {
            show(GROUP, &job_of_parts(free, &enter), number);
        }
        let job = job_of_parts(MOST_FREE, &enter);
        let mut changed = [job.clone(), job.clone(), job.clone()];
        changed[0][0] = 0x11;
        changed[1][2] += 1;
        changed[2].push(0);
        let numbers = [TAG_NOT_DUE, PAST_THE_END, BYTES_LEFT];
        for (job, number) in changed.iter().zip(numbers) {
            show(GROUP, job, number);
        }
        show(GROUP, &job[..job.len() - 1], PAST_THE_END);
    }
}

/// A process in which the name has this role.
fn named(role: Role, name: u16) -> Process {
    match role {
        Role::Channel => acting(Kind::Accept, &[name], Process::Null),
        _ => in_ambient(name, Process::Null),
    }
}

/// The role of a name in a job that uses all of them.
type Roles = fn(u16) -> Role;

/// All names as ambients', all but the cabinet's as channels, and the even ones as ambients' and the odd ones as channels.
const ALL_NAMES: [Roles; 3] = [
    |_| Role::Box,
    |name| match name {
        CABINET => Role::Box,
        _ => Role::Channel,
    },
    |name| match name % 2 {
        0 => Role::Box,
        _ => Role::Channel,
    },
];

/// Jobs that use all names, alone and with one more use of one of them, in front and behind.
fn all_names(show: Judge) {
    const GROUP: &str = "all names in use";
    for role_of in ALL_NAMES {
        let used: Vec<Process> = (0..MOST_FREE)
            .map(|name| named(role_of(name), name))
            .collect();
        let used = beside(&used);
        show(GROUP, &job(used.clone()), 0);
        for name in NAMES.into_iter().chain((0..MOST_FREE).step_by(97)) {
            for role in [Role::Box, Role::Channel] {
                let number = match role == role_of(name) {
                    true => 0,
                    false => BOX_AND_CHANNEL,
                };
                let planted = named(role, name);
                let process = match name % 2 {
                    0 => parallel(planted, used.clone()),
                    _ => parallel(used.clone(), planted),
                };
                show(GROUP, &job(process), number);
            }
        }
    }
}

/// How many jobs are planted in a round; every so many one is large. Of the jobs made by hand whose names are mixed up
/// every so many is played.
const PLANTED: usize = 420_000;
const LARGE: usize = 2_000;
const PLAYED: usize = 40;

/// Shows the states of jobs whose names are mixed up, which are read and stepped as others are, and random jobs with one use
/// planted in them, to be loaded. Each round adds as many random ones again.
pub fn every_planted(seed: u64, rounds: usize, visit: Caller) {
    const GROUP: &str = "states of mixed-up jobs";
    let mut dice = Dice::new(Counts::All, seed);
    let jobs = cabinet_jobs().into_iter().chain(twin_jobs());
    for (turn, (_, job)) in jobs.enumerate() {
        each_state(GROUP, turn, renamed(job), visit);
    }
    let mut turn = 0;
    every_mix_up(&mut |_, job, number| {
        turn += usize::from(number == BOX_AND_CHANNEL);
        if number == BOX_AND_CHANNEL && turn % PLAYED == 0 && job.len() < 1_000 {
            let job = read_job(job).expect("only the names are wrong");
            play(&mut dice, loaded(job), 20, &mut |_, state, _| {
                visit(GROUP, &state.encode(), &calls_on(state, turn));
            });
        }
    });
    for turn in 0..rounds * PLANTED {
        let size = match turn % LARGE {
            0 => 1_500,
            _ => dice.pick(&[3, 8, 20]),
        };
        let job = planted_job(&mut dice, size);
        visit("planted names", &job.encode(), &[Call::Load]);
    }
}

/// The job with three names for all of its own, so that the channels are ambients' names too. What met before still meets.
pub fn renamed(job: Job) -> Job {
    let mut process = job.process;
    rename(&mut process, &|name| name % 3);
    Job { process, ..job }
}

/// Puts other names in the place of all in a process.
fn rename(process: &mut Process, other: &dyn Fn(u16) -> u16) {
    let changed = |reference: Reference| match reference {
        Reference::Name(name) => Reference::Name(other(name)),
        variable => variable,
    };
    match process {
        Process::Null => {}
        Process::Parallel(left, right) => {
            rename(left, other);
            rename(right, other);
        }
        Process::Restriction(part) => rename(part, other),
        Process::Ambient(name, part) => {
            *name = changed(*name);
            rename(part, other);
        }
        Process::Action(action, part) | Process::Replication(action, part) => {
            let references: Vec<Reference> = action.references().map(changed).collect();
            *action = Action::of_references(action.kind, action.count(), &references);
            rename(part, other);
        }
    }
}

/// A random job that keeps its names apart, in which mostly one more use of a name stands somewhere: of one that has another
/// use there, if there is one, or of any.
pub fn planted_job(dice: &mut Dice, size: usize) -> Job {
    let free = match dice.below(4) {
        0 => MOST_FREE,
        1 => dice.pick(&[1, 2, 3, 4, 8, 9, 64, 65, 256, 257, 512, 1_023]),
        _ => dice.between(2, usize::from(MOST_FREE)) as u16,
    };
    let busy = dice.pick(&[1, 2, 4, 30, 512]);
    let mut job = dice.job_of_names(true, free, busy, size);
    if free == 1 || dice.one_in(5) {
        return job;
    }
    let part = thrown_use(dice);
    let name = planted_name(dice, &job, part.role());
    let mut planted = part.process(Reference::Name(name), Reference::Name(CABINET));
    if let Process::Action(action, _) = &mut planted {
        if part.role() != Role::Channel {
            // The odd names are channels.
            action.channel = Reference::Name(1);
        }
    }
    let index = dice.below(nulls(&job.process));
    put_for_null(&mut job.process, index, planted);
    job
}

/// Any part that a name can stand in.
fn thrown_use(dice: &mut Dice) -> Use {
    if dice.one_in(5) {
        return Use::Ambient;
    }
    let (kind, count) = (dice.pick(&Kind::ALL), dice.count());
    let index = dice.below(roles(kind, count).len());
    Use::Action(kind, count, index)
}

/// A name to plant with this role.
fn planted_name(dice: &mut Dice, job: &Job, role: Role) -> u16 {
    let naming = Naming::of(job);
    let used = match role {
        Role::Box => naming.channels,
        _ => naming.boxes,
    };
    let used: Vec<u16> = (0..job.free)
        .filter(|name| used[usize::from(*name)])
        .collect();
    match used.is_empty() || dice.one_in(4) {
        true => dice.below(usize::from(job.free)) as u16,
        false => dice.pick(&used),
    }
}

/// How many nulls there are in a process.
fn nulls(process: &Process) -> usize {
    match process {
        Process::Null => 1,
        Process::Parallel(left, right) => nulls(left) + nulls(right),
        Process::Restriction(part)
        | Process::Ambient(_, part)
        | Process::Action(_, part)
        | Process::Replication(_, part) => nulls(part),
    }
}

/// Puts the other process in the place of the null of this number.
fn put_for_null(process: &mut Process, index: usize, other: Process) {
    match process {
        Process::Null => *process = other,
        Process::Parallel(left, right) => match index.checked_sub(nulls(left)) {
            None => put_for_null(left, index, other),
            Some(index) => put_for_null(right, index, other),
        },
        Process::Restriction(part)
        | Process::Ambient(_, part)
        | Process::Action(_, part)
        | Process::Replication(_, part) => put_for_null(part, index, other),
    }
}
