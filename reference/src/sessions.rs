// The jobs for comparing sessions, and the comparison of what a program prints for them with what
// the second implementation prints.

use crate::cabinets::{cabinet_jobs, thrown_job, twin_jobs};
use crate::cases::{every_case, loaded, Visitor};
use crate::comparison::{hexadecimal, joined};
use crate::dice::{Counts, Dice};
use crate::machine::{load, run, session, Ending};
use crate::mixed_up::planted_job;
use crate::nested::nested_jobs;
use crate::sample::Sample;
use crate::shapes::*;
use crate::spelling::{Spelled, LONGEST, LONGEST_JOB};
use crate::texts::{every_text, PIECE};
use crate::tree::{Job, Kind};
use crate::waiting::waiting_job;
use std::collections::BTreeMap;
use std::ffi::OsString;
use std::fmt;
use std::io::Write;
use std::path::Path;
use std::process::{Command, Stdio};
use std::thread;

/// How many differences are shown, and how much of a line.
const SHOWN: usize = 20;
const SHOWN_OF_LINE: usize = 60;

/// How many binary digits the number of a case may have if all that are loaded, or refused alike, are
/// to be jobs; of later ones ever fewer are.
const LOADED_DIGITS: u32 = 7;
const REFUSED_DIGITS: u32 = 4;

/// A longer job that is loaded plays for seconds; the printed one is enough.
const LONG: usize = 10_000;

/// The folder of the example jobs.
const JOBS: &str = concat!(env!("CARGO_MANIFEST_DIR"), "/../jobs");

/// Shows jobs and what is none to the visitor. Each round adds more random ones.
pub fn every_job(seed: u64, rounds: usize, visit: Visitor) {
    for name in examples() {
        visit("examples", &example(&name));
    }
    made_by_hand(visit);
    in_cabinets(seed, rounds, visit);
    planted(seed, rounds, visit);
    every_text(visit);
    let mut sample = Sample::empty();
    let mut out = vec![0; LONGEST];
    every_case(Counts::All, seed, rounds, &mut |group, input| {
        let is_state = input.first() == Some(&0x11);
        let group = if is_state { "states" } else { group };
        let refusal = load(input, &mut out).err();
        if refusal.is_none() && input.len() > LONG && group != "printed" {
            return;
        }
        let digits = match refusal {
            None => LOADED_DIGITS,
            Some(_) => REFUSED_DIGITS,
        };
        if sample.takes((group, refusal), digits) {
            visit(group, input);
        }
    });
}

/// The names of the files of the example jobs.
pub fn examples() -> Vec<OsString> {
    let entries = std::fs::read_dir(JOBS).expect("the folder of the example jobs");
    let mut names: Vec<OsString> = entries
        .map(|entry| entry.expect("an example job").file_name())
        .collect();
    names.sort();
    names
}

/// The example job in the file of this name.
pub fn example(name: impl AsRef<Path>) -> Vec<u8> {
    std::fs::read(Path::new(JOBS).join(name)).expect("an example job")
}

/// Jobs that go on for ever, jobs that end at a limit, jobs in which many wait, and jobs that are too long.
fn made_by_hand(visit: Visitor) {
    for (_, job) in endless_jobs() {
        visit("sessions without an end", &job.encode());
    }
    for (_, job) in limited_jobs() {
        visit("sessions to a limit", &job.encode());
    }
    for (_, job) in nested_jobs() {
        visit("sessions of nested ambients", &job.encode());
    }
    visit("sessions to an end", &wide_job(3_000).encode());
    for kind in Kind::ALL {
        for count in (1..=12).chain([99, 100, 101]) {
            let job = waiting_job(kind, count, 4);
            visit("sessions with many partners", &job.encode());
        }
    }
    let job = waiting_job(Kind::InternalInput, 1_005, 10);
    visit("sessions with many partners", &job.encode());
    for length in [LONGEST + 1, 40_000, 100_000] {
        // Good at the front, to find a program that leaves the rest unread.
        for size in [LONGEST_JOB, LONGEST_JOB + 1, LONGEST, 8] {
            let mut job = job_of_size(size).encode();
            job.resize(length, 0);
            visit("too long", &job);
        }
    }
}

/// Jobs in which the cabinet takes part; of those that are thrown the ones that end.
fn in_cabinets(seed: u64, rounds: usize, visit: Visitor) {
    const GROUP: &str = "sessions of decks and their cabinet";
    for (_, job) in cabinet_jobs().into_iter().chain(twin_jobs()) {
        visit(GROUP, &job.encode());
    }
    let mut dice = Dice::new(Counts::All, seed);
    for _ in 0..rounds * THROWN {
        let job = thrown_job(&mut dice);
        if ends(&job) {
            visit(GROUP, &job.encode());
        }
    }
}

/// Jobs with one use of a name planted in them, of which many are refused with 15; of all of them the ones that would end.
fn planted(seed: u64, rounds: usize, visit: Visitor) {
    let mut dice = Dice::new(Counts::All, seed);
    for _ in 0..rounds * THROWN {
        let size = dice.pick(&[8, 20, 60]);
        let job = planted_job(&mut dice, size);
        if ends(&job) {
            visit("sessions of planted names", &job.encode());
        }
    }
}

/// How many jobs are thrown for this in a round, and the most steps of one that ends.
const THROWN: usize = 300;
const MODEST: u16 = 1_000;

/// Whether the run of a job comes to an end.
fn ends(job: &Job) -> bool {
    let ended = run(&loaded(job.clone()).encode(), MODEST, &mut vec![0; LONGEST]);
    ended.is_ok_and(|ended| ended.ending != Ending::Spent)
}

/// Gives what it prints with these bytes on its standard input, or says how it failed.
pub type Program<'program> = &'program dyn Fn(&[u8]) -> Result<Vec<u8>, String>;

/// What the program at the path prints.
pub fn printed_by(path: &Path, input: &[u8]) -> Result<Vec<u8>, String> {
    let mut command = Command::new(path);
    let command = command.stdin(Stdio::piped()).stdout(Stdio::piped());
    let mut child = command.spawn().map_err(|error| error.to_string())?;
    let mut pipe = child.stdin.take().expect("a pipe was asked for");
    let output = thread::scope(|scope| {
        // A program may end before it has read all.
        scope.spawn(move || pipe.write_all(input));
        child.wait_with_output()
    });
    let output = output.map_err(|error| error.to_string())?;
    if output.status.success() {
        Ok(output.stdout)
    } else {
        Err(output.status.to_string())
    }
}

/// What was counted for a group of jobs.
#[derive(Default)]
pub struct Tally {
    pub jobs: usize,
    /// How many have a text that is longer than the program's text buffer.
    pub long: usize,
    pub differences: usize,
    /// How often each last line was due, without the count of steps and the weight.
    pub endings: BTreeMap<String, usize>,
    /// How often each rule was due.
    pub rules: BTreeMap<String, usize>,
    /// How many lines have one partner, how many have more, and the largest number.
    pub one: usize,
    pub more: usize,
    pub largest: usize,
}

impl Tally {
    /// Counts a session, its rules and its last line.
    fn count(&mut self, session: &str) {
        self.jobs += 1;
        self.long += usize::from(session.len() > PIECE);
        let mut lines = session.lines();
        let last = lines.next_back().expect("a session has a last line");
        let ending = match last.split_once(' ') {
            Some((ending, _)) => format!("ended {ending}"),
            None => format!("refused {last}"),
        };
        *self.endings.entry(ending).or_default() += 1;
        for line in lines {
            let mut words = line.split(' ').skip(2);
            let rule = words.next().expect("a step has a rule");
            *self.rules.entry(rule.to_string()).or_default() += 1;
            let number = words.next().and_then(|word| word.parse().ok());
            let number: usize = number.expect("a step has a number of partners");
            self.one += usize::from(number == 1);
            self.more += usize::from(number > 1);
            self.largest = self.largest.max(number);
        }
    }
}

impl fmt::Display for Tally {
    fn fmt(&self, out: &mut fmt::Formatter) -> fmt::Result {
        let (jobs, long, differences) = (self.jobs, self.long, self.differences);
        let (endings, rules) = (joined(&self.endings), joined(&self.rules));
        write!(
            out,
            "{jobs} jobs, {long} with a text of more than {PIECE} bytes, {differences} differences; {endings}"
        )?;
        if !rules.is_empty() {
            write!(out, "; rules {rules}")?;
        }
        let (one, more, largest) = (self.one, self.more, self.largest);
        if largest > 0 {
            write!(
                out,
                "; {one} lines with one partner, {more} with more, at most {largest}"
            )?;
        }
        Ok(())
    }
}

/// The comparison of a program with the second implementation.
pub struct Sessions<'program> {
    program: Program<'program>,
    pub groups: BTreeMap<&'static str, Tally>,
    pub jobs: usize,
    pub long: usize,
    pub differences: usize,
}

impl<'program> Sessions<'program> {
    pub fn new(program: Program<'program>) -> Sessions<'program> {
        Sessions {
            program,
            groups: BTreeMap::new(),
            jobs: 0,
            long: 0,
            differences: 0,
        }
    }

    /// Gives the job to the program and compares what it prints, byte for byte.
    pub fn compare(&mut self, group: &'static str, job: &[u8]) {
        let due = session(job);
        let difference = match (self.program)(job) {
            Ok(printed) if printed == due.as_bytes() => None,
            Ok(printed) => Some(first_difference(&due, &String::from_utf8_lossy(&printed))),
            Err(failure) => Some(failure),
        };
        self.jobs += 1;
        self.long += usize::from(due.len() > PIECE);
        let tally = self.groups.entry(group).or_default();
        tally.count(&due);
        if let Some(text) = difference {
            tally.differences += 1;
            self.differences += 1;
            if self.differences <= SHOWN {
                println!("difference in job {} ({group}): {text}", self.jobs);
                println!("  {} bytes: {}", job.len(), hexadecimal(job));
            }
        }
    }
}

/// The first line in which two texts differ.
fn first_difference(due: &str, printed: &str) -> String {
    let pairs = due.split_inclusive('\n').zip(printed.split_inclusive('\n'));
    let same = pairs.take_while(|(due, printed)| due == printed).count();
    let shown = |text: &str| -> Option<String> {
        let line = text.split_inclusive('\n').nth(same)?;
        Some(line.chars().take(SHOWN_OF_LINE).collect())
    };
    let (due, printed) = (shown(due), shown(printed));
    format!("line {}: expected {due:?}, found {printed:?}", same + 1)
}
