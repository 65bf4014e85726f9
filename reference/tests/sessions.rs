// What the jobs of the program cover, gone through with the second implementation's own program, and
// that a wrong program is noticed.

use misloaded::wrong_loadings;
use misnamed::wrong_namings;
use reference::comparison::Call;
use reference::machine::{session, session_counting, session_loading, Turn};
use reference::partners::{count_partners, partners};
use reference::sessions::{every_job, printed_by, Program, Sessions, Tally};
use reference::spelling::Spelled;
use reference::texts::{digits, every_text, full_pieces, line_lengths, number};
use reference::texts::{AROUND, LINE, PIECE, SHORTEST};
use std::collections::{BTreeMap, BTreeSet};
use std::path::Path;
use std::process::Command;
use std::sync::OnceLock;

mod misloaded;
mod misnamed;

/// A group and a job.
type Part = (&'static str, Vec<u8>);

/// Makes what is printed wrong.
type Change = fn(String) -> String;

/// Gives a wrong number of partners.
type Number = fn(&Turn) -> u16;

/// The number that is due.
fn turn_number(turn: &Turn) -> u16 {
    count_partners(turn.before, turn.place).count
}

/// The group of jobs in which the cabinet takes part.
const DECKS: &str = "sessions of decks and their cabinet";

/// The wrong loadings that what is printed can tell of.
const SHOWN_BY_SESSIONS: [&str; 15] = [
    "the process is bare in the root",
    "the cabinet is named F",
    "the cabinet has the last name",
    "the cabinet is blocked",
    "the process stands behind the cabinet",
    "the process stands before the cabinet",
    "two cabinets in each other",
    "a cabinet beside the cabinet",
    "a process that is an ambient is a cabinet already",
    "a job without free names is loaded",
    "a job without free names has one for the cabinet",
    "F = 0 is judged behind the process",
    "a job has at least two free names",
    "the name 0 is the cabinet's alone",
    "the length is five less",
];

/// The wrong judging of names that what is printed cannot tell of, or only by more jobs than are taken here.
const NOT_SHOWN_BY_SESSIONS: [&str; 6] = [
    "the channel of 32 does not count",
    "the last name is not judged",
    "13 comes before 15",
    "a byte is written on 15",
    "a state is refused with 15",
    "a job is not written with 15",
];

/// The groups of jobs that are made for the pieces of the text.
const FOR_PIECES: [&str; 4] = [
    "endings around pieces",
    "lines that end pieces",
    "sessions around the budget",
    "texts around pieces",
];

/// The jobs, without the one that plays for seconds, and part of those that are made for pieces.
fn jobs() -> &'static [Part] {
    static JOBS: OnceLock<Vec<Part>> = OnceLock::new();
    JOBS.get_or_init(|| {
        let mut jobs = Vec::new();
        let mut turn = 0;
        every_job(1, 1, &mut |group, job| {
            turn += 1;
            let is_left_out = match group {
                "printed" => job.len() >= 10_000,
                group => FOR_PIECES.contains(&group) && turn % 8 > 0,
            };
            if !is_left_out {
                jobs.push((group, job.to_vec()));
            }
        });
        jobs
    })
}

/// All jobs that are made for the pieces of the text, and their texts.
fn texts() -> &'static [(Part, String)] {
    static TEXTS: OnceLock<Vec<(Part, String)>> = OnceLock::new();
    TEXTS.get_or_init(|| {
        let mut texts = Vec::new();
        every_text(&mut |group, job| texts.push(((group, job.to_vec()), session(job))));
        texts
    })
}

#[test]
fn the_jobs_meet_every_rule_and_every_ending() {
    let path = Path::new(env!("CARGO_BIN_EXE_session"));
    let program = |job: &[u8]| printed_by(path, job);
    let mut sessions = Sessions::new(&program);
    for (group, job) in jobs() {
        sessions.compare(group, job);
    }
    for (name, tally) in &sessions.groups {
        println!("{name}: {tally}");
    }
    assert_eq!(sessions.differences, 0);
    assert!(sessions.jobs >= 3_000 && sessions.long >= 50);
    let tallies = sessions.groups.values();
    let rules: BTreeSet<&String> = tallies.flat_map(|tally| tally.rules.keys()).collect();
    let due: Vec<String> = (29..=43).map(|rule| rule.to_string()).collect();
    assert_eq!(rules, due.iter().collect());
    let sum = |count: fn(&Tally) -> usize| sessions.groups.values().map(count).sum::<usize>();
    assert!(sum(|tally| tally.one) >= 10_000 && sum(|tally| tally.more) >= 1_000);
    assert!(sessions.groups["sessions with many partners"].largest > 1_000);
    for (ending, least) in [
        ("ended blocked", 1_000),
        ("ended spent", 3),
        ("ended 11", 2),
        ("ended 12", 2),
        ("ended 13", 2),
        ("refused 1", 10),
        ("refused 2", 100),
        ("refused 3", 100),
        ("refused 4", 100),
        ("refused 5", 50),
        ("refused 6", 100),
        ("refused 13", 2),
        ("refused 14", 20),
        ("refused 15", 200),
    ] {
        let tallies = sessions.groups.values();
        let count: usize = tallies.filter_map(|tally| tally.endings.get(ending)).sum();
        assert!(count >= least, "{ending}: {count}");
    }
}

#[test]
fn a_wrong_program_is_noticed() {
    let short = |(turn, (group, job)): (usize, &Part)| {
        let is_taken = turn % 9 == 0 && job.len() < 500
            || ["too long", "examples", DECKS].contains(group)
            || *group == "sessions with many partners" && job.len() < 500;
        is_taken.then(|| (*group, job.clone()))
    };
    let jobs: Vec<Part> = jobs().iter().enumerate().filter_map(short).collect();
    let differs = |program: Program| {
        let mut sessions = Sessions::new(program);
        jobs.iter().any(|(group, job)| {
            sessions.compare(group, job);
            sessions.differences > 0
        })
    };
    assert!(!differs(&|job| Ok(session(job).into_bytes())));
    let wrong: [(&str, Change); 9] = [
        ("no newline at the end", |text| text.trim_end().to_string()),
        ("a line too many", |text| text + "\n"),
        ("no first line", |text| {
            text.split_once('\n').unwrap_or_default().1.to_string()
        }),
        ("0 for no partner", |text| text.replace(" - ", " 0 ")),
        ("a rule of the other side", |text| {
            text.replace(" 40 1\n", " 39 1\n")
        }),
        ("no number of partners", |text| {
            let words = |line: &str| line.split(' ').take(3).collect::<Vec<&str>>().join(" ");
            text.lines().map(|line| words(line) + "\n").collect()
        }),
        ("spent for blocked", |text| text.replace("blocked", "spent")),
        ("no weight", |text| text.replace(" 0\n", "\n")),
        (
            "8 for 6",
            |text| if text == "6\n" { "8\n".into() } else { text },
        ),
    ];
    for (name, change) in wrong {
        let program = |job: &[u8]| Ok(change(session(job)).into_bytes());
        assert!(differs(&program), "not noticed: {name}");
    }
    let wrong: [(&str, Number); 6] = [
        ("the number after the step", |turn| {
            let after = partners(&turn.after.encode(), turn.place);
            after.map_or(0, |found| found.count)
        }),
        ("1 for any number", |turn| turn_number(turn).min(1)),
        ("the number in one digit", |turn| turn_number(turn) % 10),
        ("one too few", |turn| turn_number(turn).max(1) - 1),
        ("0 for any number", |_| 0),
        ("1 for none", |turn| turn_number(turn).max(1)),
    ];
    for (name, number) in wrong {
        let program = |job: &[u8]| Ok(session_counting(job, number).into_bytes());
        assert!(differs(&program), "not noticed: {name}");
    }
    // Loadings whose state acts otherwise, or that refuse otherwise.
    let [[mut wrong, _], [mut namings, _]] = [wrong_loadings(), wrong_namings()];
    wrong.retain(|(name, _)| SHOWN_BY_SESSIONS.contains(name));
    assert_eq!(wrong.len(), SHOWN_BY_SESSIONS.len());
    let before = namings.len();
    namings.retain(|(name, _)| !NOT_SHOWN_BY_SESSIONS.contains(name));
    assert_eq!(namings.len() + NOT_SHOWN_BY_SESSIONS.len(), before);
    for (name, side) in wrong.into_iter().chain(namings) {
        let load = |job: &[u8], out: &mut [u8]| {
            let loaded = side(Call::Load, job, out).map(|outcome| outcome.result as usize);
            loaded.map_err(|number| number as u8)
        };
        let program = |job: &[u8]| Ok(session_loading(job, load, turn_number).into_bytes());
        assert!(differs(&program), "not noticed: {name}");
    }
    let unread = |job: &[u8]| Ok(session(&job[..job.len().min(32_768)]).into_bytes());
    assert!(
        differs(&unread),
        "not noticed: the rest of a job is not read"
    );
    for program in ["cat", "true", "false", "no/such/program"] {
        let program_printing = |job: &[u8]| printed_by(Path::new(program), job);
        assert!(differs(&program_printing), "not noticed: {program}");
    }
}

#[test]
fn a_program_that_is_not_there_ends_the_comparison() {
    let mut command = Command::new(env!("CARGO_BIN_EXE_differential"));
    let output = command.env("CAM", "no/such/program").output().unwrap();
    assert_eq!(output.status.code(), Some(2));
    let said = String::from_utf8(output.stdout).unwrap();
    assert!(said.starts_with("CAM is no/such/program: "), "{said}");
}

/// Where a text is cut into pieces, and whether its last line stands right behind a full one.
struct Cut<'text> {
    pieces: Vec<Vec<&'text str>>,
    last_is_alone: bool,
}

fn cut(text: &str) -> Cut<'_> {
    let mut lines: Vec<&str> = text.split_inclusive('\n').collect();
    let full = full_pieces(line_lengths(text));
    let count = lines.len();
    let mut pieces: Vec<Vec<&str>> = Vec::new();
    for piece in full.iter().rev() {
        pieces.push(lines.split_off(piece.line + 1));
    }
    pieces.push(lines);
    pieces.retain(|piece| !piece.is_empty());
    pieces.reverse();
    Cut {
        pieces,
        last_is_alone: full.iter().any(|piece| piece.line + 2 == count),
    }
}

/// The word that the last line begins with.
fn ending(text: &str) -> &str {
    let last = text.lines().next_back().unwrap();
    last.split(' ').next().unwrap()
}

#[test]
fn texts_of_every_length_around_the_ends_of_pieces_are_compared() {
    let lengths: BTreeSet<usize> = texts().iter().map(|(_, text)| text.len()).collect();
    for pieces in [1, 2] {
        for length in pieces * (PIECE - LINE) - AROUND..=pieces * PIECE + AROUND {
            assert!(lengths.contains(&length), "{length}");
        }
    }
    let long = texts().iter().filter(|(_, text)| text.len() > PIECE);
    let long = long.count();
    println!("{long} of {} texts are longer than a piece", texts().len());
    assert!(long >= 400);
}

#[test]
fn lines_of_every_length_and_with_every_count_of_digits_end_a_piece() {
    let mut ends = BTreeSet::new();
    let mut counts = BTreeSet::new();
    let mut numbers = BTreeSet::new();
    for (_, text) in texts() {
        let lengths = line_lengths(text);
        let lines: Vec<&str> = text.lines().collect();
        for piece in full_pieces(lengths.iter().copied()) {
            // The last line of all is no step.
            if piece.line + 1 < lines.len() {
                ends.insert((lengths[piece.line], piece.bytes));
                counts.insert(digits(lines[piece.line]));
                numbers.insert(number(lines[piece.line]).checked_ilog10());
            }
        }
    }
    for length in SHORTEST..=SHORTEST + 6 {
        // There were 64 bytes left before the line, and fewer behind it.
        for bytes in PIECE - LINE + 1..=PIECE - LINE + length {
            assert!(ends.contains(&(length, bytes)), "{length} to {bytes}");
        }
    }
    for place in 1..=4 {
        for partner in ["-", "1", "2", "3", "4"] {
            let count = format!("{place} {partner}");
            assert!(counts.contains(&count), "{count}");
        }
    }
    // None, and numbers of one digit to four.
    assert_eq!(numbers, [None, Some(0), Some(1), Some(2), Some(3)].into());
}

#[test]
fn every_ending_stands_alone_behind_a_full_piece_and_at_the_end_of_one() {
    let mut alone = BTreeMap::new();
    let mut at_the_end = BTreeMap::new();
    for (_, text) in texts() {
        let Cut {
            pieces,
            last_is_alone,
        } = cut(text);
        let last: usize = pieces.last().unwrap().iter().map(|line| line.len()).sum();
        if last_is_alone {
            *alone.entry(ending(text)).or_insert(0) += 1;
        } else if last + LINE > PIECE {
            *at_the_end.entry(ending(text)).or_insert(0) += 1;
        }
    }
    println!("alone {alone:?}, at the end {at_the_end:?}");
    for word in ["blocked", "spent", "11", "12", "13"] {
        assert!(alone.contains_key(word), "{word} alone");
    }
    for word in ["blocked", "12", "13"] {
        assert!(at_the_end.contains_key(word), "{word} at the end");
    }
}

#[test]
fn the_budget_and_sessions_of_no_step() {
    let last_lines = |wanted: &str| -> Vec<&str> {
        let found = texts().iter().filter(|((group, _), _)| *group == wanted);
        let last = |text: &'static str| text.lines().next_back().unwrap();
        found.map(|(_, text)| last(text)).collect()
    };
    assert_eq!(
        last_lines("sessions around the budget"),
        [
            "blocked 65535 0",
            "spent 65535 1",
            "12 65534 13",
            "spent 65535 13",
        ]
    );
    let few = last_lines("sessions of few steps");
    assert_eq!(few, [["blocked 3 0"; 4], ["13 0 3"; 4]].concat());
}

#[test]
fn a_program_that_is_wrong_at_the_end_of_a_piece_is_noticed() {
    let wrong: [(&str, Change); 11] = [
        ("only the first piece is printed", |text| {
            cut(&text).pieces[0].concat()
        }),
        ("the first piece is printed twice", |text| {
            let pieces = cut(&text).pieces;
            match pieces.len() {
                1 => text,
                _ => pieces[0].concat() + &text,
            }
        }),
        ("a line that does not fit is lost", |text| {
            let pieces = cut(&text).pieces;
            let first = pieces[0].concat();
            let others = pieces[1..].iter().flat_map(|piece| &piece[1..]);
            first + &others.copied().collect::<String>()
        }),
        ("a piece is cut at the last room for a line", |text| {
            let pieces = cut(&text).pieces.into_iter().map(|piece| {
                let bytes = piece.concat();
                bytes[..bytes.len().min(PIECE - LINE)].to_string()
            });
            pieces.collect()
        }),
        ("no ending behind a full piece", |text| {
            let mut cut = cut(&text);
            if cut.last_is_alone {
                cut.pieces.pop();
            }
            cut.pieces.concat().concat()
        }),
        ("the steps of the last piece alone are counted", |text| {
            let steps = cut(&text).pieces.last().unwrap().len() - 1;
            match text.trim_end().rsplitn(3, ' ').collect::<Vec<&str>>()[..] {
                [weight, _, before] => format!("{before} {steps} {weight}\n"),
                _ => text,
            }
        }),
        ("four digits are cut to three", |text| {
            let line = |line: &str| match line.split_once(' ') {
                Some((place, rest)) if place.len() == 4 => format!("{} {rest}", &place[1..]),
                _ => line.to_string(),
            };
            text.split_inclusive('\n').map(line).collect()
        }),
        ("a spent budget outranks all blocked", |text| {
            text.replace("blocked 65535", "spent 65535")
        }),
        ("a limit outranks a spent budget", |text| {
            text.replace("spent 65535 13", "12 65535 13")
        }),
        ("a step beyond the budget", |text| {
            text.replace("spent 65535 1\n", "blocked 65536 0\n")
        }),
        ("a session of no step is refused", |text| {
            text.replace("13 0 3\n", "13\n")
        }),
    ];
    let differing = |change: Change| {
        let differs = |(_, text): &&(Part, String)| change(text.clone()) != *text;
        texts().iter().find(differs)
    };
    assert!(differing(|text| text).is_none());
    for (name, change) in wrong {
        let differing = differing(change);
        let ((group, job), text) = differing.unwrap_or_else(|| panic!("no text for: {name}"));
        let program = |_: &[u8]| Ok(change(text.clone()).into_bytes());
        let mut sessions = Sessions::new(&program);
        sessions.compare(group, job);
        assert_eq!(sessions.differences, 1, "not noticed: {name}");
    }
}
