// The processes for comparing the writing of jobs, with the counts of free names to write them with:
// the parts of jobs, good and damaged, other counts, other fields, and the limits.

use crate::cases::{cut_short, every_case, off_by_one, EDGES};
use crate::dice::{Dice, Roots, Thrown};
use crate::shapes::{chain, process_of_size, CHAIN_LINKS, CHAIN_NAMES};
use crate::spelling::{read_process, Spelled, JOB_DEPTH, LONGEST, MOST_FREE};
use crate::tree::{Element, Process};

/// What a process is shown to: the name of its group, its bytes, and the counts of free names.
pub type Writer<'writer> = &'writer mut dyn FnMut(&'static str, &[u8], &[u16]);

/// Counts at the limits: no name, one, as many as there may be, and more.
const AT_THE_LIMITS: [u16; 6] = [0, 1, MOST_FREE - 1, MOST_FREE, MOST_FREE + 1, u16::MAX];

/// Shows processes and counts to the visitor. Each round adds as many random ones again.
pub fn every_process(thrown: impl Into<Thrown>, seed: u64, rounds: usize, visit: Writer) {
    let thrown = thrown.into();
    let mut dice = Dice::new(thrown, seed);
    limits(visit);
    parts_of_cases(thrown, seed, rounds, visit);
    for _ in 0..rounds {
        other_counts(&mut dice, visit);
        other_fields(&mut dice, visit);
    }
}

/// The count of free names, and the bytes where the process is due, of what starts like a job.
pub fn parts(job: &[u8]) -> Option<(u16, &[u8])> {
    match job {
        [0x10, _, _, high, low, process @ ..] => Some((u16::from_be_bytes([*high, *low]), process)),
        _ => None,
    }
}

/// The parts of every case that starts like a job, and some of the cases whole.
fn parts_of_cases(thrown: Thrown, seed: u64, rounds: usize, visit: Writer) {
    let mut turn = 0;
    every_case(thrown, seed, rounds, &mut |_, input| {
        turn += 1;
        if let Some((free, process)) = parts(input) {
            visit("parts of jobs", process, &[free]);
        }
        if turn % 16 == 0 {
            visit("other fields for a process", input, &[MOST_FREE]);
        }
    });
}

/// The processes of random jobs, with their own count of free names, the least count that has all of
/// their names, one less, and counts at the limits.
fn other_counts(dice: &mut Dice, visit: Writer) {
    for turn in 0..5_000 {
        let size = dice.pick(&[3, 8, 20, 60]);
        let size = if turn % 500 == 0 { 1_500 } else { size };
        let job = dice.job(size);
        let process = job.process.encode();
        let counts: Vec<u16> = (0..=job.free).collect();
        let least = counts.partition_point(|free| read_process(*free, &process).is_err()) as u16;
        let mut counts = vec![job.free, least, least.saturating_sub(1)];
        counts.extend(AT_THE_LIMITS);
        if dice.roots() == Roots::Cabinet {
            // With no free names no job is written.
            counts.push(2);
        }
        counts.sort();
        counts.dedup();
        visit("other counts of names", &process, &counts);
    }
}

/// Jobs, states and elements whole, actions, and the processes of states, which may be deeper and may
/// have more names.
fn other_fields(dice: &mut Dice, visit: Writer) {
    let mut show = |bytes: &[u8], free| visit("other fields for a process", bytes, &[free]);
    for _ in 0..2_000 {
        let job = dice.job(8);
        show(&job.encode(), job.free);
        let state = dice.state(10);
        show(&state.encode(), state.free);
        for element in &state.elements {
            show(&element.encode(), state.free);
            match element {
                Element::Process(process) => show(&process.encode(), state.free),
                Element::BlockedAction(action, process) => {
                    show(&action.encode(), state.free);
                    show(&process.encode(), state.free);
                }
                Element::Ambient { .. } => {}
            }
        }
    }
}

/// Empty input, depth and sizes at their limits, with counts at theirs.
fn limits(visit: Writer) {
    let mut show = |bytes: &[u8], counts: &[u16]| visit("limits of a process", bytes, counts);
    show(&[], &EDGES);
    show(&Process::Null.encode(), &EDGES);
    for depth in JOB_DEPTH - 1..=JOB_DEPTH + 3 {
        for shape in 0..=CHAIN_LINKS {
            let mixed = shape == CHAIN_LINKS;
            let process = chain(depth, |turn| if mixed { turn % CHAIN_LINKS } else { shape });
            let process = process.encode();
            show(&process, &[&AT_THE_LIMITS[..], &[CHAIN_NAMES]].concat());
            if mixed {
                let counts = [CHAIN_NAMES, MOST_FREE + 1];
                off_by_one(&process, &mut |_, damaged| show(damaged, &counts));
                cut_short(&process, &mut |_, damaged| show(damaged, &counts));
            }
        }
    }
    for size in LONGEST - 12..=LONGEST + 8 {
        let process = process_of_size(size).encode();
        show(&process, &AT_THE_LIMITS);
        // A byte is missing, or one is left behind it.
        show(&process[..size - 1], &[1, MOST_FREE + 1]);
        show(&[&process[..], &[0]].concat(), &[1, MOST_FREE + 1]);
    }
    for length in [
        LONGEST,
        LONGEST + 1,
        65_535,
        65_536,
        65_538,
        65_539,
        100_000,
    ] {
        for size in [3, 8, LONGEST - 5, LONGEST - 4, LONGEST] {
            let mut process = process_of_size(size).encode();
            process.resize(length, 0);
            show(&process, &[1, MOST_FREE + 1]);
        }
    }
}
