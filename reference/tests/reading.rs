// The order of the refusals 1 to 7, and what the cases cover. Those of counts are judged in counts.rs.

use reference::cases::every_case;
use reference::dice::Counts;
use reference::machine::{self, partner_places, paths};
use reference::nested::ANY_NESTING;
use reference::shapes::{counted_state, crowded_counts, crowded_states, timed_states};
use reference::spelling::{read_job, read_nested, read_nested_with_pairs, read_state, Spelled};
use reference::spelling::{LISTED_NESTING, NESTING};
use reference::tree::{Action, Element, Job, Kind, Process, Reference, State};
use std::collections::BTreeMap;
use std::slice::from_ref;

/// The bytes of hexadecimal text with spaces anywhere.
fn bytes(text: &str) -> Vec<u8> {
    let digits: Vec<u8> = text.bytes().filter(|byte| *byte != b' ').collect();
    let pairs = digits
        .chunks(2)
        .map(|pair| std::str::from_utf8(pair).unwrap());
    pairs
        .map(|pair| u8::from_str_radix(pair, 16).unwrap())
        .collect()
}

fn job_number(text: &str) -> u8 {
    read_job(&bytes(text)).err().unwrap_or(0)
}

fn state_number(text: &str) -> u8 {
    read_state(&bytes(text)).err().unwrap_or(0)
}

/// Each text is answered with its number.
fn answers(number_of: fn(&str) -> u8, table: &[(&str, u8)]) {
    for (text, number) in table {
        assert_eq!(number_of(text), *number, "{text}");
    }
}

#[test]
fn a_header_is_judged_presence_first_then_tag_then_length() {
    answers(
        job_number,
        &[
            ("", 2),
            ("FF", 2),
            ("FF 00", 2),
            ("FF FFFF", 3),
            ("11 0000", 3),
            ("10 0001", 2),
            ("10 0000", 2),
            ("10 0003 0001 FF", 2),
            ("10 0004 0001 FF FF", 2),
            ("10 0005 0001 FF FFFF", 3),
            ("10 0005 0001 20 0001", 2),
            ("10 0005 0001 20 0001 00", 2),
        ],
    );
}

#[test]
fn the_counts_of_names_come_before_the_rest() {
    answers(
        job_number,
        &[
            ("10 0001 00", 2),
            ("10 0001 00 00 20 0000", 2),
            ("10 0002 0401", 6),
            ("10 0002 0400", 2),
            ("10 0005 0400 20 0000", 0),
            ("10 0005 0401 FF 0000", 6),
            // A job has one free name at least, a state may have none.
            ("10 0002 0000", 6),
            ("10 0002 0001", 2),
            ("10 0005 0001 20 0000", 0),
            ("10 0005 0000 20 0000", 6),
            ("10 0005 0000 FF 0000", 6),
            ("10 0005 0000 20 0000 00", 6),
            ("10 0006 0000 20 0000", 2),
        ],
    );
    answers(
        state_number,
        &[
            ("11 0001 00", 2),
            ("11 0002 0401", 6),
            ("11 0002 0400", 2),
            ("11 0003 0400 04", 2),
            ("11 0004 0001 0000", 6),
            ("11 0004 0000 1000", 0),
            ("11 0004 0000 1001", 6),
            ("11 0004 0400 0400", 0),
        ],
    );
}

#[test]
fn the_lowest_offset_decides() {
    answers(
        job_number,
        &[
            // A leftover in the process before one in the job and one behind it.
            ("10 0006 0001 20 0001 FF FF", 4),
            // A bad reference before a missing process.
            ("10 0007 0001 23 0002 0001", 6),
            ("10 0007 0001 23 0002 0000", 2),
            ("10 0006 0001 23 0001 00", 2),
            // The first of two bad parts.
            ("10 0008 0001 21 0003 FF 0000", 3),
            ("10 000B 0001 21 0006 20 0000 FF 0000", 3),
            ("10 000E 0001 21 0009 20 0000 20 0000 20 0000", 4),
            // An action's reference past the action's end, though more bytes follow.
            ("10 000D 0001 24 0008 32 0001 00 20 0000 00", 2),
            // A leftover in the action before a bad process.
            ("10 000E 0001 24 0009 32 0003 0000 00 FF 0000", 4),
            ("10 000D 0001 24 0008 3C 0002 0000 20 0000", 3),
        ],
    );
}

#[test]
fn elements_go_to_the_end_of_their_field() {
    answers(
        state_number,
        &[
            ("11 0005 0000 0000 99", 2),
            ("11 0005 0000 0000 40", 2),
            ("11 0006 0000 0000 99 99", 2),
            ("11 0007 0000 0000 99 0000", 3),
            ("11 0007 0000 0000 20 0000", 3),
            ("11 0009 0000 0000 40 0002 0000", 6),
            ("11 0009 0000 0001 40 0002 0000", 0),
            ("11 0009 0000 0001 40 0002 8000", 6),
            ("11 000A 0000 0001 40 0003 0000 99", 2),
            ("11 000F 0000 0001 40 0008 0000 42 0003 20 0000", 0),
            ("11 000F 0000 0001 41 0008 0000 42 0003 20 0000", 3),
            ("11 000E 0000 0001 41 0007 0000 40 0002 0000", 3),
            ("11 000E 0000 0001 41 0007 0000 41 0002 0000", 0),
            ("11 000D 0000 0000 42 0006 20 0000 20 0000", 4),
            ("11 000A 0000 0000 42 0003 20 0000 00", 4),
            ("11 0007 0000 0000 42 0000", 2),
        ],
    );
}

/// A job that is one action with these references, one name being free.
fn acting(kind: Kind, references: [Reference; 3], part: Process) -> Process {
    let action = Action::of_references(kind, 1, &references[usize::from(!kind.has_target())..]);
    Process::Action(action, Box::new(part))
}

#[test]
fn references_need_a_name_or_a_binder() {
    let null = || Process::Null;
    let inside = |part| Process::Restriction(Box::new(part));
    let number = |process: Process| {
        let free = 1;
        let as_state = State {
            free,
            next: free,
            elements: vec![Element::Process(process.clone())],
        };
        let job = read_job(&Job { free, process }.encode()).err();
        assert_eq!(job, read_state(&as_state.encode()).err());
        job.unwrap_or(0)
    };
    for kind in Kind::ALL {
        let named = acting(kind, [Reference::Name(0); 3], null());
        assert_eq!(number(named), 0);
        for wrong in [1, 4_095, 4_096, 32_767] {
            let process = acting(kind, [Reference::Name(wrong); 3], null());
            assert_eq!(number(process), 6);
        }
        let bound = acting(kind, [Reference::Variable(0); 3], null());
        assert_eq!(number(bound.clone()), 6);
        assert_eq!(number(inside(bound)), 0);
        let outer = acting(kind, [Reference::Variable(1); 3], null());
        assert_eq!(number(inside(outer.clone())), 6);
        assert_eq!(number(inside(inside(outer))), 0);
        // Only an input binds, and only behind itself.
        let part = Process::Ambient(Reference::Variable(0), Box::new(null()));
        let behind = acting(kind, [Reference::Name(0); 3], part);
        assert_eq!(number(behind), if kind.binds() { 0 } else { 6 });
    }
}

/// The bytes of a chain of restrictions around the bytes given.
fn restricted(levels: usize, inner: &str) -> Vec<u8> {
    (0..levels).fold(bytes(inner), |body, _| field(0x22, &[], &body))
}

fn field(tag: u8, front: &[u8], body: &[u8]) -> Vec<u8> {
    let length = (front.len() + body.len()) as u16;
    [&[tag], &length.to_be_bytes()[..], front, body].concat()
}

/// The refusal for so many levels around the bytes given.
type Number<'number> = &'number dyn Fn(usize, &str) -> u8;

#[test]
fn depth_is_judged_after_the_header_and_before_the_parts() {
    let job = |levels: usize, inner: &str| {
        let job = field(0x10, &[0, 1], &restricted(levels, inner));
        read_job(&job).err().unwrap_or(0)
    };
    let unblocked = |levels: usize, inner: &str| {
        let element = field(0x42, &[], &restricted(levels, inner));
        let state = field(0x11, &[0, 0, 0, 1], &element);
        read_state(&state).err().unwrap_or(0)
    };
    let blocked = |levels: usize, inner: &str| {
        let element = field(0x43, &bytes("37 0002 0000"), &restricted(levels, inner));
        let state = field(0x11, &[0, 0, 0, 1], &element);
        read_state(&state).err().unwrap_or(0)
    };
    let readings: [(Number, usize); 3] = [(&job, 31), (&unblocked, 33), (&blocked, 32)];
    for (number, levels) in readings {
        assert_eq!(number(levels, "20 0000"), 0);
        assert_eq!(number(levels, "20 0001 00"), 4);
        assert_eq!(number(levels + 1, "20 0000"), 5);
        assert_eq!(number(levels + 1, "20 0001 00"), 5);
        assert_eq!(number(levels + 1, "24 0000"), 5);
        assert_eq!(number(levels + 1, "30 0000"), 3);
        assert_eq!(number(levels + 1, "20 0001"), 2);
        assert_eq!(number(levels + 1, "20 00"), 2);
        assert_eq!(number(levels + 1, ""), 2);
        assert_eq!(number(levels, "23 0005 FFFF 20 0000"), 6);
        assert_eq!(number(levels - 1, "23 0005 FFFF 20 0000"), 6);
    }
}

#[test]
fn nesting_is_judged_after_the_header_and_before_the_parts() {
    for tag in [0x40, 0x41] {
        let number = |levels: usize, inner: &str| {
            let list = (0..levels).fold(bytes(inner), |body, _| field(tag, &[0, 0], &body));
            let state = field(0x11, &[0, 0, 0, 1], &list);
            let number = read_state(&state).err().unwrap_or(0);
            // The listing alone reads deeper.
            let listed = (0..levels + LISTED_NESTING - NESTING)
                .fold(bytes(inner), |body, _| field(tag, &[0, 0], &body));
            let listed = field(0x11, &[0, 0, 0, 1], &listed);
            assert_eq!(
                machine::list(&listed, &mut [0; 99]).err().unwrap_or(0),
                number
            );
            number
        };
        assert_eq!(number(8, ""), 0);
        assert_eq!(number(9, ""), 5);
        assert_eq!(number(8, "41 0000"), 5);
        assert_eq!(number(8, "41 0001"), 2);
        assert_eq!(number(8, "41 0002 0001"), 5);
        assert_eq!(number(8, "41 0003 0000 44"), 5);
        assert_eq!(number(8, "44 0000"), 3);
        assert_eq!(number(8, "41"), 2);
        assert_eq!(number(8, "43 0008 35 0002 0000 20 0000"), 0);
        assert_eq!(number(7, "41 0002 0001"), 6);
        assert_eq!(number(7, "41 0003 0000 44"), 2);
    }
}

fn blocked(kind: Kind, names: &[u16]) -> Element {
    Element::BlockedAction(Action::named(kind, names), Process::Null)
}

fn ambient(blocked: bool, name: u16, contents: &[Element]) -> Element {
    Element::Ambient {
        blocked,
        name,
        contents: contents.to_vec(),
    }
}

fn number_of(elements: Vec<Element>) -> u8 {
    let state = State {
        free: 4,
        next: 4,
        elements,
    };
    read_state(&state.encode()).err().unwrap_or(0)
}

/// Both lists at the root, in an ambient, and in a blocked ambient inside another.
fn numbers_of(elements: &[Element]) -> [u8; 3] {
    let inside = ambient(false, 0, elements);
    let deeper = ambient(false, 3, &[ambient(true, 0, elements)]);
    [elements.to_vec(), vec![inside], vec![deeper]].map(number_of)
}

#[test]
fn blocked_pairs() {
    for (mover, host) in &[
        (
            blocked(Kind::SiblingOutput, &[1, 2, 3]),
            Kind::ExternalInput,
        ),
        (blocked(Kind::Enter, &[1, 2]), Kind::Accept),
    ] {
        let meeting = |name: u16, channel: u16| {
            let first = ambient(true, 1, from_ref(mover));
            let second = ambient(true, name, &[blocked(*host, &[channel])]);
            let numbers = numbers_of(&[first.clone(), second.clone()]);
            assert_eq!(numbers_of(&[second, first]), numbers);
            numbers
        };
        assert_eq!(meeting(1, 2), [7; 3]);
        assert_eq!(meeting(1, 3), [0; 3]);
        assert_eq!(meeting(0, 2), [0; 3]);
        // In one ambient, in one list, or one ambient deeper, they do not meet.
        let host = blocked(*host, &[2]);
        let both = [mover.clone(), host.clone()];
        assert_eq!(numbers_of(&[ambient(true, 1, &both)]), [0; 3]);
        assert_eq!(numbers_of(&both), [0; 3]);
        let deeper = ambient(true, 1, &[ambient(true, 1, &[host])]);
        let beside = ambient(true, 0, from_ref(mover));
        assert_eq!(numbers_of(&[deeper, beside]), [0; 3]);
    }
    let output = ambient(true, 0, &[blocked(Kind::ParentOutput, &[1, 2])]);
    let leave = ambient(true, 0, &[blocked(Kind::Leave, &[1])]);
    for (mover, host, expected) in [
        (&output, Kind::InternalInput, [7, 7, 7]),
        (&leave, Kind::Release, [0, 7, 7]),
        (&output, Kind::ExternalInput, [0; 3]),
        (&leave, Kind::Accept, [0; 3]),
    ] {
        let same = blocked(host, &[1]);
        assert_eq!(numbers_of(&[mover.clone(), same.clone()]), expected);
        assert_eq!(numbers_of(&[same.clone(), mover.clone()]), expected);
        assert_eq!(numbers_of(&[mover.clone(), blocked(host, &[2])]), [0; 3]);
        let deeper = ambient(true, 0, from_ref(mover));
        assert_eq!(numbers_of(&[deeper, same]), [0; 3]);
    }
    // All else comes before a pair.
    let state = State {
        free: 4,
        next: 4,
        elements: vec![output, blocked(Kind::InternalInput, &[1])],
    };
    let appended = [state.encode(), vec![0]].concat();
    assert_eq!(read_state(&state.encode()), Err(7));
    assert_eq!(read_state(&appended), Err(4));
}

/// Whether the search for partners finds one for some blocked action.
fn some_partner(state: &State) -> bool {
    paths(state).iter().zip(0..).any(|(path, place)| {
        let (last, around) = path.split_last().unwrap();
        let list = around.iter().fold(&state.elements[..], |list, index| {
            list[*index].ambient().unwrap().1
        });
        list[*last].is_blocked() && !partner_places(state, place).is_empty()
    })
}

#[test]
fn the_cases_cover_every_number_and_what_is_accepted_is_spelled_the_same() {
    let mut groups: BTreeMap<&str, BTreeMap<u8, usize>> = BTreeMap::new();
    let mut inputs = 0;
    every_case(Counts::All, 1, 1, &mut |group, input| {
        inputs += 1;
        let state = read_state(input);
        let job = read_job(input);
        if let Ok(state) = &state {
            assert_eq!(state.encode(), input);
        }
        if let Ok(job) = &job {
            assert_eq!(job.encode(), input);
        }
        // The pairs found on reading are those that the partner search finds, however deep they are.
        if group == "two blocked actions" || (group == "random states" && input.len() < 400) {
            let with_pairs = read_nested_with_pairs(input, ANY_NESTING).unwrap();
            let is_paired = read_nested(input, ANY_NESTING) == Err(7);
            assert_eq!(is_paired, some_partner(&with_pairs));
            let due = if with_pairs.nesting() > NESTING { 5 } else { 7 };
            assert_eq!(state == Err(due), is_paired || due == 5);
        }
        let numbers = groups.entry(group).or_default();
        let number = if job == Err(3) {
            state.err()
        } else {
            job.err()
        };
        *numbers.entry(number.unwrap_or(0)).or_default() += 1;
    });
    println!("{inputs} inputs: {groups:#?}");
    assert!(inputs >= 200_000);
    for number in (0..=7).chain([14]) {
        let count: usize = groups.values().filter_map(|group| group.get(&number)).sum();
        assert!(count >= 20, "number {number} came {count} times");
    }
}

#[test]
fn the_cases_are_fixed_by_their_seed() {
    let gather = |seed| {
        let mut sum = 0u64;
        every_case(Counts::All, seed, 1, &mut |_, input| {
            for byte in input.iter().take(64) {
                sum = sum.wrapping_mul(31).wrapping_add(u64::from(*byte));
            }
        });
        sum
    };
    assert_eq!(gather(5), gather(5));
    assert_ne!(gather(5), gather(6));
}

#[test]
fn the_timed_states_are_accepted() {
    for size in [4_096, 32_768] {
        for (shape, state) in timed_states(size, 7)
            .into_iter()
            .chain([counted_state(size, 7)])
        {
            assert_eq!(state.encode().len(), size, "{shape}");
            assert_eq!(read_state(&state.encode()), Ok(state), "{shape}");
        }
    }
    for (crowd, many, none) in crowded_states().into_iter().chain([crowded_counts()]) {
        assert_eq!(read_state(&many.encode()), Ok(many), "{crowd}");
        assert_eq!(read_state(&none.encode()), Ok(none), "{crowd}");
    }
}
