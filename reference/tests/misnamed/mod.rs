// Sides whose judging of a job's names is wrong in one thing each, made of the second implementation.

use reference::cases::loaded;
use reference::comparison::{second, Answer, Call, Outcome, Side};
use reference::counts::field;
use reference::machine::deliver;
use reference::processes::parts;
use reference::spelling::{read_job, read_process, read_state, Spelled, LONGEST, MOST_FREE};
use reference::tree::{Action, Element, Job, Kind, Process, Reference, State};
use reference::uses::{roles, Role, Use};
use std::collections::BTreeSet;

/// What a reference in a part of a process counts as, if it counts.
type Counts = fn(Use, Reference) -> Option<(Role, u16)>;

/// The parts of a process that are looked into.
type Parts = fn(&Process) -> Vec<&Process>;

/// What is due: names as ambients' and as channels.
fn right(part: Use, reference: Reference) -> Option<(Role, u16)> {
    match (part.role(), reference) {
        (role @ (Role::Box | Role::Channel), Reference::Name(name)) => Some((role, name)),
        _ => None,
    }
}

fn all_parts(process: &Process) -> Vec<&Process> {
    match process {
        Process::Null => vec![],
        Process::Parallel(left, right) => vec![left, right],
        Process::Restriction(part)
        | Process::Ambient(_, part)
        | Process::Action(_, part)
        | Process::Replication(_, part) => vec![part],
    }
}

/// The references of an action as they are spelled, each with its part.
fn references(action: &Action) -> Vec<(Use, Reference)> {
    let (kind, count) = (action.kind, action.count());
    let all = action.references().enumerate();
    all.map(|(index, reference)| (Use::Action(kind, count, index), reference))
        .collect()
}

/// The uses that count, in the order in which they are written.
fn uses(process: &Process, counts: Counts, parts: Parts) -> Vec<(Role, u16)> {
    let own = match process {
        Process::Ambient(name, _) => vec![(Use::Ambient, *name)],
        Process::Action(action, _) | Process::Replication(action, _) => references(action),
        _ => vec![],
    };
    let own = own.into_iter();
    let mut found: Vec<(Role, u16)> = own
        .filter_map(|(part, reference)| counts(part, reference))
        .collect();
    for part in parts(process) {
        found.extend(uses(part, counts, parts));
    }
    found
}

/// Whether some name is an ambient's and a channel.
fn is_mixed_up(uses: &[(Role, u16)]) -> bool {
    let of_role = |role: Role| -> BTreeSet<u16> {
        let uses = uses.iter().filter(|(of, _)| *of == role);
        uses.map(|(_, name)| *name).collect()
    };
    !of_role(Role::Box).is_disjoint(&of_role(Role::Channel))
}

/// The uses of the cabinet's name before any other, and those that count.
fn with_cabinet(process: &Process, counts: Counts, parts: Parts) -> Vec<(Role, u16)> {
    [vec![(Role::Box, 0)], uses(process, counts, parts)].concat()
}

/// Whether a job with this process is due to be refused, told without the second implementation's judging.
pub fn is_due(process: &Process) -> bool {
    is_mixed_up(&with_cabinet(process, right, all_parts))
}

/// Loads a job with other judging.
fn judged(job: &[u8], out: &mut [u8], is_wrong: impl Fn(&Job) -> bool) -> Answer {
    let job = read_job(job).map_err(u32::from)?;
    if is_wrong(&job) {
        return Err(15);
    }
    let length = deliver(&loaded(job).encode(), out).map_err(u32::from)?;
    Ok(Outcome {
        result: length as u32,
        ..Outcome::default()
    })
}

/// The second implementation with other judging of a job; given the job.
macro_rules! judging {
    ($is_wrong:expr) => {
        |call, input, out| match call {
            Call::Load => {
                let is_wrong: fn(&Job) -> bool = $is_wrong;
                judged(input, out, is_wrong)
            }
            call => second(call, input, out),
        }
    };
}

/// The like where other references count, or count as something else.
macro_rules! counting {
    ($counts:expr) => {
        judging!(|job| is_mixed_up(&with_cabinet(&job.process, $counts, all_parts)))
    };
}

/// The like where not all parts of a process are looked into.
macro_rules! looking {
    ($parts:expr) => {
        judging!(|job| is_mixed_up(&with_cabinet(&job.process, right, $parts)))
    };
}

/// The second implementation with another answer of loading, where this gives one; given the job and the output.
macro_rules! answering {
    ($change:expr) => {
        |call, input, out| match call {
            Call::Load => {
                let change: fn(&[u8], &mut [u8]) -> Option<Answer> = $change;
                change(input, out).unwrap_or_else(|| second(call, input, out))
            }
            call => second(call, input, out),
        }
    };
}

/// The tag of the action that the part is of, if it is of one.
fn tag(part: Use) -> Option<u8> {
    let action = part.action(Reference::Name(0), Reference::Name(0))?;
    Some(action.encode()[0])
}

/// The second implementation where the channel of the action with this tag does not count, or its target.
fn without<const TAG: u8, const IS_TARGET: bool>(
    call: Call,
    input: &[u8],
    out: &mut [u8],
) -> Answer {
    let counts: Counts = |part, reference| {
        let role = if IS_TARGET { Role::Box } else { Role::Channel };
        let is_left_out = part.role() == role && tag(part) == Some(TAG);
        right(part, reference).filter(|_| !is_left_out)
    };
    match call {
        Call::Load => judged(input, out, |job| {
            is_mixed_up(&with_cabinet(&job.process, counts, all_parts))
        }),
        call => second(call, input, out),
    }
}

/// Those that count but for names that this leaves out.
fn right_if(part: Use, reference: Reference, counts: fn(u16) -> bool) -> Option<(Role, u16)> {
    right(part, reference).filter(|(_, name)| counts(*name))
}

/// Those that count, with this in place of a name's number.
fn right_as(part: Use, reference: Reference, number: fn(u16) -> u16) -> Option<(Role, u16)> {
    right(part, reference).map(|(role, name)| (role, number(name)))
}

/// The job that a state was loaded from, if it is the cabinet with one process in it.
fn job_of_state(state: &State) -> Option<Job> {
    let [cabinet] = &state.elements[..] else {
        return None;
    };
    match cabinet.ambient()? {
        (0, [Element::Process(process)]) => Some(Job {
            free: state.free,
            process: process.clone(),
        }),
        _ => None,
    }
}

/// The job at the front of the bytes, as long as it says.
fn front(job: &[u8]) -> Option<Job> {
    let length = usize::from(u16::from_be_bytes([*job.get(1)?, *job.get(2)?]));
    read_job(job.get(..length + 3)?).ok()
}

/// A wrong side, with what is wrong in it.
pub type Wrong = (&'static str, Side);

/// Those that show on short inputs, and those that need long ones.
pub fn wrong_namings() -> [Vec<Wrong>; 2] {
    let shown: &[Wrong] = &[
        ("names are not judged", judging!(|_| false)),
        // What counts.
        (
            "the name 0 is an ambient's only where it is written",
            judging!(|job| is_mixed_up(&uses(&job.process, right, all_parts))),
        ),
        (
            "the name 0 is not judged",
            counting!(|part, reference| right_if(part, reference, |name| name > 0)),
        ),
        (
            "a target does not count",
            counting!(|part, reference| right(part, reference)
                .filter(|(role, _)| part == Use::Ambient || *role == Role::Channel)),
        ),
        ("the target of 30 does not count", without::<0x30, true>),
        ("the target of 38 does not count", without::<0x38, true>),
        ("the target of 34 does not count", without::<0x34, true>),
        (
            "the name of an ambient does not count",
            counting!(|part, reference| right(part, reference).filter(|_| part != Use::Ambient)),
        ),
        ("the channel of 30 does not count", without::<0x30, false>),
        ("the channel of 31 does not count", without::<0x31, false>),
        ("the channel of 32 does not count", without::<0x32, false>),
        ("the channel of 33 does not count", without::<0x33, false>),
        ("the channel of 34 does not count", without::<0x34, false>),
        ("the channel of 35 does not count", without::<0x35, false>),
        ("the channel of 36 does not count", without::<0x36, false>),
        ("the channel of 37 does not count", without::<0x37, false>),
        ("the channel of 38 does not count", without::<0x38, false>),
        ("the channel of 39 does not count", without::<0x39, false>),
        ("the channel of 3A does not count", without::<0x3A, false>),
        ("the channel of 3B does not count", without::<0x3B, false>),
        (
            "a name that is sent counts as an ambient's",
            counting!(|part, reference| match (part.role(), reference) {
                (Role::Sent, Reference::Name(name)) => Some((Role::Box, name)),
                _ => right(part, reference),
            }),
        ),
        (
            "a name that is sent counts as a channel",
            counting!(|part, reference| match (part.role(), reference) {
                (Role::Sent, Reference::Name(name)) => Some((Role::Channel, name)),
                _ => right(part, reference),
            }),
        ),
        (
            "the target and the channel are taken for each other",
            counting!(|part, reference| match part {
                Use::Action(kind, _, index) if kind.has_target() && index < 2 => {
                    let role = [Role::Channel, Role::Box][index];
                    right(part, reference).map(|(_, name)| (role, name))
                }
                _ => right(part, reference),
            }),
        ),
        (
            "a variable counts by its number",
            counting!(|part, reference| match (part.role(), reference) {
                (role, Reference::Variable(number)) => Some((role, number)),
                _ => right(part, reference),
            }),
        ),
        (
            "a variable counts as a channel by its number",
            counting!(|part, reference| match (part.role(), reference) {
                (Role::Channel, Reference::Variable(number)) => Some((Role::Channel, number)),
                _ => right(part, reference),
            }),
        ),
        (
            "a variable counts as an ambient's by its number",
            counting!(|part, reference| match (part.role(), reference) {
                (Role::Box, Reference::Variable(number)) => Some((Role::Box, number)),
                _ => right(part, reference),
            }),
        ),
        (
            "a variable with both uses is refused",
            counting!(|part, reference| match (part.role(), reference) {
                (role, Reference::Variable(number)) => Some((role, 32_768 + number)),
                _ => right(part, reference),
            }),
        ),
        (
            "a name with one use twice is refused",
            judging!(|job| {
                let uses = uses(&job.process, right, all_parts);
                let names: BTreeSet<u16> = uses.iter().map(|(_, name)| *name).collect();
                is_due(&job.process) || names.len() < uses.len()
            }),
        ),
        // Which names.
        (
            "only the first 256 names are judged",
            counting!(|part, reference| right_if(part, reference, |name| name < 256)),
        ),
        (
            "only the first 64 names are judged",
            counting!(|part, reference| right_if(part, reference, |name| name < 64)),
        ),
        (
            "the last name is not judged",
            counting!(|part, reference| right_if(part, reference, |name| name < 1_023)),
        ),
        (
            "names are told apart by their low bytes",
            counting!(|part, reference| right_as(part, reference, |name| name % 256)),
        ),
        (
            "names are told apart by nine bits",
            counting!(|part, reference| right_as(part, reference, |name| name % 512)),
        ),
        (
            "two names are taken for one",
            counting!(|part, reference| right_as(part, reference, |name| name / 2)),
        ),
        (
            "eight names are taken for one",
            counting!(|part, reference| right_as(part, reference, |name| name / 8)),
        ),
        // Where they stand.
        (
            "nothing behind an action is judged",
            looking!(|process| match process {
                Process::Action(..) => vec![],
                process => all_parts(process),
            }),
        ),
        (
            "nothing behind a replication is judged",
            looking!(|process| match process {
                Process::Replication(..) => vec![],
                process => all_parts(process),
            }),
        ),
        (
            "nothing in a restriction is judged",
            looking!(|process| match process {
                Process::Restriction(_) => vec![],
                process => all_parts(process),
            }),
        ),
        (
            "nothing in an ambient is judged",
            looking!(|process| match process {
                Process::Ambient(..) => vec![],
                process => all_parts(process),
            }),
        ),
        (
            "only the first part of a parallel is judged",
            looking!(|process| all_parts(process).into_iter().take(1).collect()),
        ),
        (
            "only the last part of a parallel is judged",
            looking!(|process| all_parts(process)
                .into_iter()
                .next_back()
                .into_iter()
                .collect()),
        ),
        (
            "only what is written one after the other is judged",
            judging!(|job| {
                let uses = with_cabinet(&job.process, right, all_parts);
                let cabinet = uses.contains(&(Role::Channel, 0));
                cabinet || uses.windows(2).any(is_mixed_up)
            }),
        ),
        (
            "an ambient's name counts only for what comes behind it",
            judging!(|job| {
                let uses = with_cabinet(&job.process, right, all_parts);
                let ends = 1..=uses.len();
                ends.map(|end| &uses[..end]).any(|uses| {
                    let last = uses[uses.len() - 1];
                    last.0 == Role::Channel && uses.contains(&(Role::Box, last.1))
                })
            }),
        ),
        // When.
        (
            "13 comes before 15",
            answering!(|job, out| {
                let read = read_job(job).ok()?;
                let length = loaded(read).encode().len();
                (length > out.len().min(LONGEST)).then_some(Err(13))
            }),
        ),
        (
            "15 comes before the bytes behind a job",
            answering!(|job, _| {
                let job = front(job).filter(|_| job.len() <= LONGEST)?;
                is_due(&job.process).then_some(Err(15))
            }),
        ),
        (
            "15 comes before the range of F and of a name",
            answering!(|job, _| {
                let mut changed = job.to_vec();
                let free = changed.get_mut(3..5)?;
                free.copy_from_slice(&MOST_FREE.to_be_bytes());
                is_due(&read_job(&changed).ok()?.process).then_some(Err(15))
            }),
        ),
        (
            "15 comes before the depth",
            answering!(|job, _| {
                // A process may be deeper in a state.
                let (free, process) = parts(job).filter(|_| read_job(job) == Err(5))?;
                let free = free.to_be_bytes();
                let element = field(0x42, &[process]);
                let state = read_state(&field(0x11, &[&free, &free, &element])).ok()?;
                let [Element::Process(process)] = &state.elements[..] else {
                    return None;
                };
                is_due(process).then_some(Err(15))
            }),
        ),
        (
            "15 comes before a wrong count",
            answering!(|job, _| {
                let is_wrong = read_job(job) == Err(14);
                (is_wrong && is_mixed_up(&uses_by_tags(job))).then_some(Err(15))
            }),
        ),
        ("a byte is written on 15", |call, input, out| {
            second(call, input, out).inspect_err(|number| {
                if let (15, Some(byte)) = (number, out.first_mut()) {
                    *byte = 0x11;
                }
            })
        }),
        // Other calls.
        ("a state is refused with 15", |call, input, out| {
            let is_state = !matches!(call, Call::Load | Call::Write(_));
            let job = read_state(input)
                .ok()
                .and_then(|state| job_of_state(&state));
            match job {
                Some(job) if is_state && is_due(&job.process) => Err(15),
                _ => second(call, input, out),
            }
        }),
        (
            "a job is not written with 15",
            |call, input, out| match call {
                Call::Write(free) => match read_process(free, input) {
                    Ok(process) if is_due(&process) => Err(15),
                    _ => second(call, input, out),
                },
                call => second(call, input, out),
            },
        ),
    ];
    let long: &[Wrong] = &[
        (
            "15 comes before the length of the job",
            answering!(|job, _| {
                let job = front(job)?;
                is_due(&job.process).then_some(Err(15))
            }),
        ),
        (
            "only the first 4,096 bytes are judged",
            answering!(|job, out| {
                let read = read_job(job).ok().filter(|_| job.len() > 4_096)?;
                let is_front = is_mixed_up(&uses_by_tags(&job[..4_096]));
                Some(judged(job, out, |_| is_front && is_due(&read.process)))
            }),
        ),
    ];
    [shown, long].map(<[Wrong]>::to_vec)
}

/// The uses in the bytes of a job, or in the front of it, found by the tags alone.
fn uses_by_tags(job: &[u8]) -> Vec<(Role, u16)> {
    let mut found = vec![(Role::Box, 0)];
    let mut rest = job.get(5..).unwrap_or_default();
    while let [tag, high, low, body @ ..] = rest {
        let length = usize::from(u16::from_be_bytes([*high, *low]));
        // The references that are judged, and how many bytes there are before the next field.
        let (judged, bytes) = match tag {
            0x23 => (vec![Role::Box], 2),
            0x30..=0x3B => (roles(Kind::ALL[usize::from(tag % 8)], 0), length),
            _ => (vec![], 0),
        };
        for (role, two) in judged.iter().zip(body.chunks_exact(2)) {
            let name = u16::from_be_bytes([two[0], two[1]]);
            if name < MOST_FREE {
                found.push((*role, name));
            }
        }
        rest = body.get(bytes..).unwrap_or_default();
    }
    found
}
