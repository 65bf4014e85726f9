// Compares the proved library with the second implementation on many inputs and on many series of accesses to
// the panel, and the proved program on many jobs.
//
// Usage: differential [seed] [rounds]

use reference::accesses::{self, PanelComparison, LEAST_ACCEPTED, LEAST_ACCESSES};
use reference::comparison::{proved, Comparison, LEAST_CLEARING, LEAST_SWEEPS};
use reference::comparison::{LEAST_JOBS, LEAST_LOADED, LEAST_MIXED_UP};
use reference::comparison::{LEAST_LISTED, LEAST_TOO_DEEP, LEAST_WITH_PAIR};
use reference::proved::{
    found_program, COUNTING, NOT_COUNTING, NOT_SWEEPING, NO_PROGRAM, SWEEPING,
};
use reference::refusal::{BLOCKED_PAIR, TOO_DEEP};
use reference::sessions::{every_job, printed_by, Sessions};
use reference::texts::PIECE;
use std::collections::BTreeMap;
use std::fmt::Display;
use std::path::Path;
use std::process::exit;

fn argument(index: usize) -> Option<u64> {
    let text = std::env::args().nth(index)?;
    Some(text.parse().unwrap_or_else(|_| {
        println!("usage: differential [seed] [rounds]");
        exit(2)
    }))
}

/// Prints a line for each.
fn print_each(tallies: &BTreeMap<&str, impl Display>) {
    for (name, tally) in tallies {
        println!("{name}: {tally}");
    }
    println!();
}

/// Compares the calls of the library; gives the count of differences.
fn compare_library(seed: u64, rounds: usize) -> usize {
    let mut comparison = Comparison::new(proved);
    comparison.go_through(seed, rounds);
    print_each(&comparison.groups);
    print_each(&comparison.calls);
    let (inputs, differences) = (comparison.inputs, comparison.differences);
    println!("{}", comparison.steps);
    println!("{}", comparison.asked);
    println!("{}", comparison.sweeps);
    println!("{}", comparison.loadings);
    println!("{}", comparison.deep);
    println!("seed {seed}: {inputs} inputs, {differences} differences");
    assert!(comparison.sweeps.accepted() >= rounds * LEAST_SWEEPS);
    assert!(comparison.sweeps.clearing() >= rounds * LEAST_CLEARING);
    let deep = &comparison.deep;
    assert!(deep.accepted >= rounds * LEAST_LISTED);
    assert!(deep.refused(TOO_DEEP) >= rounds * LEAST_TOO_DEEP);
    assert!(deep.refused(BLOCKED_PAIR) >= rounds * LEAST_WITH_PAIR);
    assert!(comparison.loadings.jobs() >= LEAST_JOBS);
    assert!(comparison.loadings.accepted >= rounds * LEAST_LOADED);
    assert!(comparison.loadings.mixed_up() >= rounds * LEAST_MIXED_UP);
    differences
}

/// Compares the accesses to the panel; gives the count of differences.
fn compare_panel(seed: u64, rounds: usize) -> usize {
    let mut comparison = PanelComparison::new(accesses::proved);
    comparison.go_through(seed, rounds);
    println!();
    print_each(&comparison.groups);
    let all = comparison.all;
    println!("seed {seed}: the panel: {all}");
    assert!(all.accesses() >= rounds * LEAST_ACCESSES);
    assert!(all.accepted() >= rounds * LEAST_ACCEPTED);
    all.differences
}

/// Compares what the program prints; gives the count of differences.
fn compare_program(path: &Path, seed: u64, rounds: usize) -> usize {
    let program = |job: &[u8]| printed_by(path, job);
    let mut sessions = Sessions::new(&program);
    every_job(seed, rounds, &mut |group, job| sessions.compare(group, job));
    println!();
    print_each(&sessions.groups);
    let Sessions {
        jobs,
        long,
        differences,
        ..
    } = sessions;
    println!(
        "seed {seed}: {jobs} jobs of the program, {long} with a text of more than {PIECE} bytes, {differences} differences"
    );
    differences
}

fn main() {
    let seed = argument(1).unwrap_or(1);
    let rounds = argument(2).unwrap_or(1) as usize;
    let program = found_program();
    for (has_call, text) in [(COUNTING, NOT_COUNTING), (SWEEPING, NOT_SWEEPING)] {
        if !has_call {
            println!("{text}");
            exit(2);
        }
    }
    let mut differences = compare_library(seed, rounds) + compare_panel(seed, rounds);
    match program {
        Some(path) => differences += compare_program(&path, seed, rounds),
        None => println!("the program was not compared: {NO_PROGRAM}"),
    }
    if differences > 0 {
        exit(1);
    }
}
