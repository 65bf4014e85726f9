// Sides whose loading or writing of jobs is wrong in one thing each, made of the second implementation.

use reference::cases::bare;
use reference::comparison::{second, Answer, Call, Outcome, Side};
use reference::machine::deliver;
use reference::naming::Naming;
use reference::shapes::ambient;
use reference::spelling::{read_job, read_job_of_any_count, read_process_of_any_count};
use reference::spelling::{read_state, Spelled, LONGEST};
use reference::tree::{Element, Job, Process, State};

/// Puts the state at the front of the output, if it fits.
fn delivered(state: &State, out: &mut [u8]) -> Answer {
    of_length(deliver(&state.encode(), out))
}

fn of_length(length: Result<usize, u8>) -> Answer {
    let outcome = |length: usize| Outcome {
        result: length as u32,
        ..Outcome::default()
    };
    length.map(outcome).map_err(u32::from)
}

/// The second implementation with another state of a job that is read; given the state with a bare root.
macro_rules! loaded {
    ($change:expr) => {
        |call, input, out| match call {
            Call::Load => {
                let mut state = bare(judged(read_job(input))?);
                let change: fn(&mut State) = $change;
                change(&mut state);
                delivered(&state, out)
            }
            call => second(call, input, out),
        }
    };
}

/// The second implementation with another answer of loading; given the job and the output.
macro_rules! answered {
    ($change:expr) => {
        |call, input, out| match call {
            Call::Load => {
                let change: fn(&[u8], &mut [u8]) -> Answer = $change;
                change(input, out)
            }
            call => second(call, input, out),
        }
    };
}

/// A job that is read, with its names judged.
fn judged(job: Result<Job, u8>) -> Result<Job, u32> {
    let job = job.map_err(u32::from)?;
    match Naming::of(&job).is_mixed_up() {
        true => Err(15),
        false => Ok(job),
    }
}

/// Puts all elements in an ambient of this name.
fn put_in(state: &mut State, name: u16) {
    state.elements = vec![ambient(name, std::mem::take(&mut state.elements))];
}

/// The state of a job that may have no free names.
fn loaded_of_any_count(job: &[u8]) -> Result<State, u32> {
    let mut state = bare(judged(read_job_of_any_count(job))?);
    put_in(&mut state, 0);
    Ok(state)
}

/// The bytes of a job of these parts unread, if they fit.
fn unread(free: u16, process: &[u8], out: &mut [u8]) -> Answer {
    let length = (process.len() + 2) as u16;
    let head = [&[0x10], &length.to_be_bytes()[..], &free.to_be_bytes()[..]].concat();
    of_length(deliver(&[&head, process].concat(), out))
}

/// A wrong side, with what is wrong in it.
pub type Wrong = (&'static str, Side);

/// Those that show on short inputs and at the longest job that is loaded, and those that need other long ones.
pub fn wrong_loadings() -> [Vec<Wrong>; 2] {
    let shown: &[Wrong] = &[
        // The state.
        ("the process is bare in the root", loaded!(|_| {})),
        (
            "the cabinet is named F",
            loaded!(|state| put_in(state, state.free)),
        ),
        (
            "the cabinet has the last name",
            loaded!(|state| put_in(state, state.next - 1)),
        ),
        (
            "the cabinet is blocked",
            loaded!(|state| {
                put_in(state, 0);
                if let Element::Ambient { blocked, .. } = &mut state.elements[0] {
                    *blocked = true;
                }
            }),
        ),
        (
            "the process stands behind the cabinet",
            loaded!(|state| state.elements.insert(0, ambient(0, vec![]))),
        ),
        (
            "the process stands before the cabinet",
            loaded!(|state| state.elements.push(ambient(0, vec![]))),
        ),
        (
            "two cabinets in each other",
            loaded!(|state| {
                put_in(state, 0);
                put_in(state, 0);
            }),
        ),
        (
            "a cabinet beside the cabinet",
            loaded!(|state| {
                put_in(state, 0);
                state.elements.push(ambient(0, vec![]));
            }),
        ),
        (
            "a process that is an ambient is a cabinet already",
            loaded!(|state| {
                let is_ambient =
                    matches!(&state.elements[0], Element::Process(Process::Ambient(..)));
                if !is_ambient {
                    put_in(state, 0);
                }
            }),
        ),
        (
            "N is one higher",
            loaded!(|state| {
                put_in(state, 0);
                state.next += 1;
            }),
        ),
        (
            "F and N are one higher",
            loaded!(|state| {
                put_in(state, 0);
                state.free += 1;
                state.next += 1;
            }),
        ),
        (
            "F is 0 in the state",
            loaded!(|state| {
                put_in(state, 0);
                state.free = 0;
            }),
        ),
        // The count of free names.
        (
            "a job without free names is loaded",
            answered!(|job, out| delivered(&loaded_of_any_count(job)?, out)),
        ),
        (
            "a job without free names has one for the cabinet",
            answered!(|job, out| {
                let mut state = loaded_of_any_count(job)?;
                state.next = state.next.max(1);
                delivered(&state, out)
            }),
        ),
        (
            "F = 0 is judged behind the process",
            answered!(|job, out| {
                loaded_of_any_count(job)?;
                second(Call::Load, job, out)
            }),
        ),
        (
            "F = 0 is judged before the header",
            answered!(|job, out| {
                match job {
                    [_, _, _, 0, 0, ..] => Err(6),
                    job => second(Call::Load, job, out),
                }
            }),
        ),
        (
            "F = 0 is judged behind 13",
            answered!(|job, out| match loaded_of_any_count(job) {
                Ok(state) if state.encode().len() > out.len().min(LONGEST) => Err(13),
                _ => second(Call::Load, job, out),
            }),
        ),
        (
            "a job has at least two free names",
            answered!(|job, out| match read_job(job) {
                Ok(Job { free: 1, .. }) => Err(6),
                _ => second(Call::Load, job, out),
            }),
        ),
        (
            "the name 0 is the cabinet's alone",
            answered!(|job, out| {
                let names_it = job.windows(5).any(|five| five == NAMED_0);
                if names_it && read_job(job).is_ok() {
                    return Err(6);
                }
                second(Call::Load, job, out)
            }),
        ),
        ("F = 0 is refused in a state", |call, input, out| {
            let is_state = !matches!(call, Call::Load | Call::Write(_));
            match read_state(input) {
                Ok(state) if is_state && state.free == 0 => Err(6),
                _ => second(call, input, out),
            }
        }),
        (
            "a state with another root is refused",
            |call, input, out| {
                let is_state = !matches!(call, Call::Load | Call::Write(_));
                match read_state(input) {
                    Ok(state) if is_state && !is_one_cabinet(&state) => Err(3),
                    _ => second(call, input, out),
                }
            },
        ),
        // The length.
        (
            "the longest job has 32,763 bytes",
            answered!(|job, out| {
                let state = loaded_of_any_count(job)?;
                match second(Call::Load, job, out) {
                    Err(13) if job.len() <= 32_763 && state.encode().len() <= out.len() => {
                        Ok(Outcome {
                            result: state.encode().len() as u32,
                            ..Outcome::default()
                        })
                    }
                    answer => answer,
                }
            }),
        ),
        (
            "the longest job has 32,757 bytes",
            answered!(|job, out| match second(Call::Load, job, out) {
                Ok(_) if job.len() > 32_757 => Err(13),
                answer => answer,
            }),
        ),
        (
            "the buffer is five bytes longer than it has to be",
            answered!(|job, out| {
                let room = out.len().saturating_sub(5);
                second(Call::Load, job, &mut out[..room])
            }),
        ),
        (
            "a full buffer is refused",
            answered!(|job, out| {
                let room = out.len().max(1) - 1;
                second(Call::Load, job, &mut out[..room])
            }),
        ),
        (
            "the buffer holds the process without its cabinet",
            answered!(|job, out| match second(Call::Load, job, out) {
                Err(13) if job.len() + 5 <= out.len() => Ok(Outcome {
                    result: job.len() as u32 + 10,
                    ..Outcome::default()
                }),
                answer => answer,
            }),
        ),
        (
            "the length is five less",
            answered!(|job, out| {
                let outcome = second(Call::Load, job, out)?;
                let result = outcome.result - 5;
                Ok(Outcome { result, ..outcome })
            }),
        ),
        (
            "the length in the cabinet's head is that of the process",
            answered!(|job, out| {
                let outcome = second(Call::Load, job, out)?;
                let length = (outcome.result as u16 - 15).to_be_bytes();
                out[8..10].copy_from_slice(&length);
                Ok(outcome)
            }),
        ),
        // The writing of a job.
        (
            "a job without free names is written",
            |call, input, out| match call {
                Call::Write(0) => {
                    read_process_of_any_count(0, input).map_err(u32::from)?;
                    unread(0, input, out)
                }
                call => second(call, input, out),
            },
        ),
        (
            "F = 0 is judged behind the process to write",
            |call, input, out| match call {
                Call::Write(0) => {
                    read_process_of_any_count(0, input).map_err(u32::from)?;
                    second(call, input, out)
                }
                call => second(call, input, out),
            },
        ),
        (
            "a job that is too long to be loaded is not written",
            |call, input, out| match call {
                Call::Write(_) => {
                    let room = out.len().min(32_758);
                    second(call, input, &mut out[..room])
                }
                call => second(call, input, out),
            },
        ),
    ];
    let long: &[Wrong] = &[
        (
            "F = 0 is judged before the length of the job",
            answered!(|job, out| match second(Call::Load, job, out) {
                Err(1) if job[3..5] == [0, 0] => Err(6),
                answer => answer,
            }),
        ),
        (
            "13 comes before the job is read",
            answered!(|job, out| {
                if (LONGEST - 9..=LONGEST).contains(&job.len()) {
                    return Err(13);
                }
                second(Call::Load, job, out)
            }),
        ),
        (
            "F = 0 is judged before the length of the process",
            |call, input, out| match call {
                Call::Write(0) => Err(6),
                call => second(call, input, out),
            },
        ),
    ];
    [shown, long].map(<[Wrong]>::to_vec)
}

/// The head of a process ambient of the name 0 that holds a null.
const NAMED_0: [u8; 5] = [0x23, 0, 5, 0, 0];

/// Whether the root holds one ambient, named 0, and nothing else.
fn is_one_cabinet(state: &State) -> bool {
    match &state.elements[..] {
        [element] => element.ambient().is_some_and(|(name, _)| name == 0),
        _ => false,
    }
}
