// Actions with a count of names: spelled by hand, right and wrong; behind and under each other; and in
// states where two of them meet.

use crate::machine::answer;
use crate::shapes::{ambient, parallel, root};
use crate::spelling::{Form, Spelled};
use crate::tree::{Action, Element, Job, Kind, Process, Reference, State, MOST_COUNT};

/// The kinds that have a count.
pub const WITH_COUNT: [Kind; 4] = [
    Kind::SiblingOutput,
    Kind::ParentOutput,
    Kind::InternalInput,
    Kind::ExternalInput,
];

/// The bytes of hexadecimal text with spaces anywhere.
pub fn bytes(text: &str) -> Vec<u8> {
    let digits: Vec<u8> = text.bytes().filter(|byte| *byte != b' ').collect();
    let pairs = digits.chunks(2);
    let pairs = pairs.map(|pair| std::str::from_utf8(pair).expect("digits"));
    pairs
        .map(|pair| u8::from_str_radix(pair, 16).expect("two digits"))
        .collect()
}

/// Action fields where there are the names 0 and 1, each with the number that it is refused with, or 0.
pub const SPELLED: &[(&str, u8)] = &[
    // Every count but one, in every kind.
    ("38 0005 0000 0001 00", 0),
    ("38 0009 0000 0001 02 0001 0000", 0),
    ("38 000B 0000 0001 03 0001 0000 0000", 0),
    ("38 000D 0000 0001 04 0001 0000 0000 0001", 0),
    ("39 0003 0001 00", 0),
    ("39 0007 0001 02 0001 0000", 0),
    ("39 0009 0001 03 0001 0000 0000", 0),
    ("39 000B 0001 04 0001 0000 0000 0001", 0),
    ("3A 0003 0001 00", 0),
    ("3A 0003 0001 02", 0),
    ("3A 0003 0001 03", 0),
    ("3A 0003 0001 04", 0),
    ("3B 0003 0001 00", 0),
    ("3B 0003 0001 02", 0),
    ("3B 0003 0001 03", 0),
    ("3B 0003 0001 04", 0),
    // A count of one is spelled by 30 to 33 alone.
    ("30 0006 0000 0001 0001", 0),
    ("31 0004 0001 0001", 0),
    ("32 0002 0001", 0),
    ("33 0002 0001", 0),
    ("38 0007 0000 0001 01 0001", 14),
    ("39 0005 0001 01 0001", 14),
    ("3A 0003 0001 01", 14),
    ("3B 0003 0001 01", 14),
    ("30 0007 0000 0001 01 0001", 6),
    ("31 0005 0001 01 0001", 6),
    ("32 0003 0001 01", 4),
    ("33 0003 0001 00", 4),
    // More than four.
    ("38 000F 0000 0001 05 0001 0000 0000 0001 0001", 14),
    ("39 000D 0001 05 0001 0000 0000 0001 0001", 14),
    ("3A 0003 0001 05", 14),
    ("3B 0003 0001 05", 14),
    ("38 0005 0000 0001 FF", 14),
    ("39 0003 0001 FF", 14),
    ("3A 0003 0001 FF", 14),
    ("3B 0003 0001 FF", 14),
    ("3A 0003 0001 80", 14),
    ("3B 0003 0001 06", 14),
    // The references before the count come first, whatever the count is.
    ("38 0007 0002 0001 01 0001", 6),
    ("38 0007 0000 0002 01 0001", 6),
    ("38 0007 0000 8000 05 0001", 6),
    ("39 0005 0002 01 0001", 6),
    ("39 0005 1000 FF 0001", 6),
    ("3A 0003 0002 01", 6),
    ("3A 0003 FFFF 00", 6),
    ("3B 0003 8000 FF", 6),
    ("3B 0002 0002", 6),
    ("38 0003 0000 00", 2),
    ("38 0002 0002", 6),
    ("39 0001 00", 2),
    ("3A 0001 00", 2),
    ("3B 0000", 2),
    // The count is missing.
    ("38 0004 0000 0001", 2),
    ("39 0002 0001", 2),
    ("3A 0002 0001", 2),
    ("3B 0002 0001", 2),
    // A wrong count comes before what is wrong behind it.
    ("39 0005 0001 01 FFFF", 14),
    ("39 000D 0001 05 FFFF 0000 0000 0001 0001", 14),
    ("39 0003 0001 05", 14),
    ("39 0003 0001 01", 14),
    ("38 0009 0000 0001 01 0001 0000", 14),
    ("3A 0004 0001 01 00", 14),
    ("3B 0005 0001 05 0001", 14),
    // A reference behind the count is out of range.
    ("38 0009 0000 0001 02 0002 0000", 6),
    ("38 0009 0000 0001 02 0001 0002", 6),
    ("38 000D 0000 0001 04 0001 0000 0000 8000", 6),
    ("39 0009 0001 03 0001 1000 0000", 6),
    ("39 000B 0001 04 0001 0000 0000 7FFF", 6),
    // References are missing.
    ("38 0005 0000 0001 02", 2),
    ("38 0006 0000 0001 02 00", 2),
    ("38 0007 0000 0001 02 0001", 2),
    ("38 0008 0000 0001 02 0001 00", 2),
    ("39 0003 0001 04", 2),
    ("39 0009 0001 04 0001 0000 0000", 2),
    ("39 000A 0001 04 0001 0000 0000 00", 2),
    // The first of two faults.
    ("39 0005 0001 02 0002", 6),
    ("39 0006 0001 03 0001 00", 2),
    // Bytes are left.
    ("38 0006 0000 0001 00 00", 4),
    ("38 0007 0000 0001 00 0001", 4),
    ("38 000B 0000 0001 02 0001 0000 0000", 4),
    ("39 0004 0001 00 00", 4),
    ("39 000D 0001 04 0001 0000 0000 0001 0001", 4),
    ("39 000C 0001 04 0001 0000 0000 0001 FF", 4),
    ("3A 0004 0001 00 00", 4),
    ("3A 0005 0001 02 0001", 4),
    ("3B 0007 0001 04 0001 0000", 4),
    // No kinds have these tags; kinds without a count have none with one.
    ("3C 0005 0000 0001 00", 3),
    ("3C 0004 0000 0001", 3),
    ("3D 0003 0001 00", 3),
    ("3E 0003 0001 00", 3),
    ("3F 0003 0001 00", 3),
    ("3F 0002 0001", 3),
    ("3C FFFF", 3),
    ("38 FFFF", 2),
    ("3B 7FFF", 2),
];

/// The bytes of a field with these parts, whatever they are.
pub fn field(tag: u8, parts: &[&[u8]]) -> Vec<u8> {
    let body = parts.concat();
    [&[tag], &(body.len() as u16).to_be_bytes()[..], &body].concat()
}

/// The action field with null behind it wherever an action may stand, where there are the names 0 and 1.
pub fn in_every_form(action: &[u8]) -> Vec<(Form, Vec<u8>)> {
    let null = Process::Null.encode();
    let forms = [0x24, 0x25].map(|tag| field(tag, &[action, &null]));
    let state = |element: &[u8]| field(0x11, &[&[0, 2, 0, 2], element]);
    let blocked = field(0x43, &[action, &null]);
    let mut all = vec![
        (Form::State, state(&blocked)),
        (Form::State, state(&field(0x41, &[&[0, 1], &blocked]))),
    ];
    for process in forms {
        all.push((Form::Job, field(0x10, &[&[0, 2], &process])));
        let element = field(0x42, &[&process]);
        all.push((Form::State, state(&element)));
        all.push((Form::State, state(&field(0x40, &[&[0, 1], &element]))));
        all.push((Form::Process(2), process));
    }
    all
}

/// Inputs of these counts, each in the process after the one before, and last an output with the variable
/// so many levels out in every place of it but one. The channel is the name 1.
pub fn behind_inputs(counts: &[u8], variable: u16) -> Process {
    let variable = Reference::Variable(variable);
    let name = Reference::Name(1);
    let output = Action::of_references(
        Kind::SiblingOutput,
        3,
        &[variable, variable, variable, name, variable],
    );
    let output = Process::Action(output, Box::new(Process::Null));
    counts.iter().rev().fold(output, |inner, count| {
        let kind = WITH_COUNT[2 + usize::from(*count % 2)];
        let input = Action::of_references(kind, *count, &[name]);
        Process::Action(input, Box::new(inner))
    })
}

/// Chains of inputs, each with how many variables there are in all.
pub fn chains_of_inputs() -> Vec<(Vec<u8>, u16)> {
    let mut chains: Vec<Vec<u8>> = vec![vec![], vec![1], vec![4; 30], vec![0; 30]];
    for outer in 0..=MOST_COUNT {
        for inner in 0..=MOST_COUNT {
            chains.push(vec![outer, inner]);
        }
        chains.push(vec![outer, 2, 3]);
    }
    let sum = |chain: &[u8]| chain.iter().map(|count| u16::from(*count)).sum();
    chains
        .into_iter()
        .map(|chain| {
            let sum = sum(&chain);
            (chain, sum)
        })
        .collect()
}

/// A job or state with the process in it, where there are the names 0 and 1.
pub fn job_and_state(process: Process) -> [Vec<u8>; 2] {
    let free = 2;
    let state = root(free, vec![Element::Process(process.clone())]);
    [Job { free, process }.encode(), state.encode()]
}

/// A process that shows which name came for which of so many variables: an ambient for each, the outermost
/// first, and behind an input of three more an output of some of both.
pub fn showing(count: u8) -> Process {
    let variable = |level: u8| Reference::Variable(u16::from(level));
    let ambients = (0..count).map(|level| {
        let part = Box::new(Process::Null);
        Process::Ambient(variable(level), part)
    });
    let shown = ambients.fold(Process::Null, |behind, ambient| parallel(ambient, behind));
    if count == 0 {
        return shown;
    }
    let own = 3;
    let input = Action::of_references(Kind::InternalInput, own, &[variable(count - 1)]);
    let output = Action::of_references(
        Kind::SiblingOutput,
        4,
        &[
            variable(own),
            variable(own + count - 1),
            variable(2),
            variable(own + count - 1),
            variable(own),
            variable(0),
        ],
    );
    let output = Process::Action(output, Box::new(Process::Null));
    let inner = Process::Action(input, Box::new(output));
    parallel(shown, inner)
}

/// An action of this kind and count to the ambient 1, of the names 4 to 7, and the process behind it.
pub fn handing(kind: Kind, count: u8, channel: u16) -> (Action, Process) {
    let names = [1, channel, 4, 5, 6, 7];
    let action = Action::counted(kind, count, &names[usize::from(!kind.has_target())..]);
    let process = if kind.binds() {
        showing(count)
    } else {
        Process::Ambient(Reference::Name(3), Box::new(Process::Null))
    };
    (action, process)
}

/// The action of this kind and count, and a blocked one of the other count that answers it where the counts
/// agree. Both are on channel 2 and stand as partners do.
pub fn two_counts(kind: Kind, count: u8, other: u8, backwards: bool) -> State {
    let (action, process) = handing(kind, count, 2);
    let acting = Element::Process(Process::Action(action, Box::new(process)));
    let (action, process) = handing(answer(kind), other, 2);
    let partner = Element::BlockedAction(action, process);
    state_of_two(kind, acting, partner, backwards)
}

/// The like with both blocked: a blocked pair where the counts agree.
pub fn two_blocked_counts(kind: Kind, count: u8, other: u8) -> State {
    let (action, process) = handing(kind, count, 2);
    let first = Element::BlockedAction(action, process);
    let (action, process) = handing(answer(kind), other, 2);
    let second = Element::BlockedAction(action, process);
    state_of_two(kind, first, second, false)
}

/// Two actions that stand as partners do, the first being of this kind.
fn state_of_two(kind: Kind, first: Element, second: Element, backwards: bool) -> State {
    let mut list = match kind {
        Kind::ParentOutput => vec![ambient(0, vec![first]), second],
        Kind::InternalInput => vec![first, ambient(0, vec![second])],
        Kind::SiblingOutput => vec![ambient(0, vec![first]), ambient(1, vec![second])],
        _ => vec![ambient(1, vec![first]), ambient(0, vec![second])],
    };
    if backwards {
        list.reverse();
    }
    root(8, list)
}
