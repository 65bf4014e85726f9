// Jobs for the program by what it prints. It prints its text in pieces, each as many whole lines as have
// room in a buffer: these texts end, and have lines of every length, around the ends of pieces.

use crate::cases::Visitor;
use crate::machine::session;
use crate::runs::MOST_STEPS;
use crate::shapes::*;
use crate::spelling::{Spelled, NESTING};
use crate::tree::{Job, Kind, Process};
use std::collections::BTreeSet;
use std::iter::repeat_n;

/// The bytes of the program's text buffer, and those that a line is given there.
pub const PIECE: usize = 4_096;
pub const LINE: usize = 84;

/// How far around the ends of pieces the texts are to end, in bytes.
pub const AROUND: usize = 84;

/// The like for a job that ends at a limit, and for one whose budget is spent.
const AROUND_ENDING: usize = 16;
const AROUND_SPENT: usize = 5;

/// A piece with no room for another line: the number of its last line in the text, and its bytes.
pub struct Full {
    pub line: usize,
    pub bytes: usize,
}

/// The full pieces of a text whose lines have these lengths.
pub fn full_pieces(lengths: impl IntoIterator<Item = usize>) -> Vec<Full> {
    let mut pieces = Vec::new();
    let mut bytes = 0;
    for (line, length) in lengths.into_iter().enumerate() {
        bytes += length;
        if bytes + LINE > PIECE {
            pieces.push(Full { line, bytes });
            bytes = 0;
        }
    }
    pieces
}

/// The lengths of the lines of a text.
pub fn line_lengths(text: &str) -> Vec<usize> {
    text.split_inclusive('\n').map(str::len).collect()
}

/// Shows these jobs to the visitor.
pub fn every_text(visit: Visitor) {
    lengths(visit);
    endings(visit);
    lines(visit);
    numbers(visit);
    without_a_step(visit);
    around_the_budget(visit);
}

/// Acts so many times, at least once, in its place, and is gone.
fn lasting(count: usize) -> Process {
    match count % 2 {
        0 => restriction(lasting(count - 1)),
        _ => copies(&Process::Null, count.div_ceil(2)),
    }
}

/// A listener, and an ambient that calls it so many times. The listener does this each time.
fn called(times: usize, each_time: Process) -> Process {
    let call = acting(Kind::ParentOutput, &[1, 0], Process::Null);
    parallel(
        again(Kind::InternalInput, &[1], each_time),
        in_ambient(0, copies(&call, times)),
    )
}

/// Blocked actions, so many beside each other. Their channel is no ambient's name in any of these jobs.
fn fillers(count: usize) -> Process {
    copies(&acting(Kind::Accept, &[2], Process::Null), count)
}

/// The bytes of a line with a place of one digit, no partner and so the number 0.
pub const SHORTEST: usize = 9;

/// Prints some lines, and so many bytes more than for 0: a few lines of ten bytes, the others of nine. The bytes
/// are 80 or more, or so many nines and tens.
fn lines_of(bytes: usize) -> Process {
    let of_ten = bytes % SHORTEST;
    let of_nine = (bytes - (SHORTEST + 1) * of_ten) / SHORTEST;
    let behind_ten = parallel(fillers(10), lasting(1 + of_ten));
    parallel(lasting(1 + of_nine), behind_ten)
}

/// Texts of every length around the first two ends of a piece, wherever the lines before let it end.
fn lengths(visit: Visitor) {
    for (pieces, times) in [(1, 4), (2, 9)] {
        let job = |bytes| Job {
            free: 3,
            process: parallel(called(times, lasting(81)), lines_of(bytes)),
        };
        let shortest = session(&job(0).encode()).len();
        for length in pieces * (PIECE - LINE) - AROUND..=pieces * PIECE + AROUND {
            visit("texts around pieces", &job(length - shortest).encode());
        }
    }
}

/// Every ending, with the last line right behind a full piece and around there.
fn endings(visit: Visitor) {
    let limited = limited_jobs().into_iter().step_by(2);
    let limited = limited.map(|(_, job)| (job, AROUND_ENDING));
    let endless = endless_jobs().swap_remove(0).1;
    for (Job { free, process }, around) in limited.chain([(endless, AROUND_SPENT)]) {
        let job = |bytes| Job {
            free,
            process: parallel(lines_of(bytes), process.clone()),
        };
        let lengths = line_lengths(&session(&job(0).encode()));
        let (last, steps) = lengths.split_last().expect("a text has a last line");
        let is_alone = |more: &usize| {
            let steps = with_more(*more, steps).take(usize::from(MOST_STEPS));
            let lengths: Vec<usize> = steps.chain([*last]).collect();
            let is_before_last = |piece: &Full| piece.line + 2 == lengths.len();
            full_pieces(lengths.iter().copied())
                .iter()
                .any(is_before_last)
        };
        let more = (AROUND..PIECE).find(is_alone);
        let more = more.expect("some text ends right behind a full piece");
        let bytes = SHORTEST * more;
        for bytes in bytes - around..=bytes + around {
            visit("endings around pieces", &job(bytes).encode());
        }
    }
}

/// So many lines of nine bytes, and then lines of these lengths.
fn with_more(more: usize, lengths: &[usize]) -> impl Iterator<Item = usize> + '_ {
    repeat_n(SHORTEST, more).chain(lengths.iter().copied())
}

/// After so many lines of nine bytes and one more, two ambients that hand a name to and fro, with so many
/// blocked actions before them and between them.
fn meeting(more: usize, before: usize, between: usize) -> Job {
    let turns = |turn: &dyn Fn(Process) -> Process| {
        let chain = (0..8).fold(Process::Null, |after, _| turn(after));
        copies(&chain, 12)
    };
    let takes = |channel, after| acting(Kind::ExternalInput, &[channel], after);
    let gives = |other, channel, after| acting(Kind::SiblingOutput, &[other, channel, 0], after);
    let first = turns(&|after| takes(2, gives(1, 3, after)));
    let second = parallel(
        turns(&|after| takes(3, after)),
        turns(&|after| gives(0, 2, after)),
    );
    let with_fillers = |count, process| match count {
        0 => process,
        count => parallel(fillers(count), process),
    };
    let second = with_fillers(between, in_ambient(1, second));
    let both = with_fillers(before, parallel(in_ambient(0, first), second));
    Job {
        free: 4,
        process: parallel(lasting(1 + more), both),
    }
}

/// After so many lines of nine bytes and one more, outputs that wait in an ambient, so many, and inputs that take
/// them one after another.
fn taking(more: usize, waiting: usize) -> Job {
    let output = acting(Kind::ParentOutput, &[1, 0], Process::Null);
    let takes = |after, _| acting(Kind::InternalInput, &[1], after);
    let chain = (0..12).fold(Process::Null, takes);
    let both = parallel(in_ambient(0, copies(&output, waiting)), chain);
    Job {
        free: 2,
        process: parallel(lasting(1 + more), both),
    }
}

/// The counts of blocked actions before and between the two; those that take longest come last.
const CROWDS: [(usize, usize); 10] = [
    (0, 0),
    (0, 10),
    (10, 0),
    (0, 100),
    (10, 100),
    (100, 0),
    (0, 1_000),
    (10, 1_000),
    (100, 1_000),
    (1_000, 0),
];

/// What there is to meet where a piece ends: the length of its last line with the bytes of the piece, and
/// the counts of digits on that line.
#[derive(Clone, PartialEq, Eq, PartialOrd, Ord)]
enum End {
    Lengths(usize, usize),
    Digits(String),
}

/// What the text meets with so many lines of nine bytes more in front. Its last line is no step.
fn ends(text: &str, more: usize) -> BTreeSet<End> {
    let lengths = line_lengths(text);
    let lines: Vec<&str> = text.lines().collect();
    let mut ends = BTreeSet::new();
    for piece in full_pieces(with_more(more, &lengths[..lines.len() - 1])) {
        if piece.line >= more {
            let line = piece.line - more;
            ends.insert(End::Lengths(lengths[line], piece.bytes));
            ends.insert(End::Digits(digits(lines[line])));
        }
    }
    ends
}

/// Lines with places and partners of one to four digits as the last of a piece: of every length, with as
/// many bytes in the piece as that length lets it have, and with every count of digits. Each job is the
/// one that has most that is new.
fn lines(visit: Visitor) {
    let mut met = BTreeSet::new();
    for (before, between) in CROWDS {
        let text = session(&meeting(0, before, between).encode());
        let offered = (0..PIECE / SHORTEST).map(|more| ends(&text, more));
        let offered: Vec<BTreeSet<End>> = offered.collect();
        loop {
            let fresh = |more: &usize| offered[*more].difference(&met).count();
            let more = (0..offered.len())
                .rev()
                .max_by_key(fresh)
                .expect("there are offers");
            if fresh(&more) == 0 {
                break;
            }
            met.extend(offered[more].iter().cloned());
            let job = meeting(more, before, between);
            visit("lines that end pieces", &job.encode());
        }
    }
}

/// The counts of digits of the place and the partner's place on a line.
pub fn digits(line: &str) -> String {
    let words = line.split(' ').take(2);
    let counts = words.map(|word| match word {
        "-" => "-".to_string(),
        number => number.len().to_string(),
    });
    counts.collect::<Vec<String>>().join(" ")
}

/// The number of partners on a line.
pub fn number(line: &str) -> usize {
    let number = line.rsplit(' ').next().and_then(|word| word.parse().ok());
    number.expect("a step has a number of partners")
}

/// Lines with numbers of one to four digits as the last of a piece.
fn numbers(visit: Visitor) {
    for (waiting, digits) in [(9, 1), (20, 2), (120, 3), (1_020, 4)] {
        let text = session(&taking(0, waiting).encode());
        let lengths = line_lengths(&text);
        let lines: Vec<&str> = text.lines().collect();
        let is_last = |more: &usize| {
            let steps = &lengths[..lines.len() - 1];
            full_pieces(with_more(*more, steps)).iter().any(|piece| {
                let line = piece.line.checked_sub(*more);
                let number = line.map_or(0, |line| number(lines[line]));
                number > 0 && number.to_string().len() == digits
            })
        };
        let more = (0..PIECE / SHORTEST).find(is_last);
        let more = more.expect("some line with such a number ends a piece");
        visit("lines that end pieces", &taking(more, waiting).encode());
    }
}

/// Replications that the first step makes too long, and ones that it makes nearly so.
fn without_a_step(visit: Visitor) {
    for size in 16_364..=16_371 {
        let process = again(Kind::Accept, &[1], process_of_size(size));
        visit("sessions of few steps", &Job { free: 2, process }.encode());
    }
}

/// Sessions that would be all blocked with the last step of the budget and one step later, and ones that
/// would meet a limit one step before the last and with it.
fn around_the_budget(visit: Visitor) {
    let call = acting(Kind::ParentOutput, &[2, 0], Process::Null);
    let calls = called(30, in_ambient(0, copies(&call, 30)));
    let calls = parallel(again(Kind::InternalInput, &[2], lasting(66)), calls);
    let nested = limited_jobs().swap_remove(2).1.process;
    let limited = parallel(calls.clone(), nested);
    // The steps that the budget leaves to the lines in front; where the ambients nest, each level takes one more.
    for (process, more) in [
        (&calls, 493),
        (&calls, 494),
        (&limited, 493 - NESTING),
        (&limited, 494 - NESTING),
    ] {
        let process = parallel(lines_of(SHORTEST * more), process.clone());
        let job = Job { free: 3, process };
        visit("sessions around the budget", &job.encode());
    }
}
