// How jobs and states are spelled in bytes: the writer, and the reader with its refusals 1 to 7 and 14.

use crate::refusal::*;
use crate::tree::{
    Action, Element, Job, Kind, Message, Process, Reference, State, FIRST_VARIABLE, MOST_COUNT,
};

pub const LONGEST: usize = 32_768;
/// Loading makes a job so many bytes longer, and so this is the longest that is loaded.
pub const LOADING: usize = 10;
pub const LONGEST_JOB: usize = LONGEST - LOADING;
pub const MOST_FREE: u16 = 1_024;
/// The count of free names of a job is at least this: the name 0 is its cabinet's.
pub const LEAST_FREE: u16 = 1;
pub const MOST_NAMES: u16 = 4_096;
pub const JOB_DEPTH: usize = 32;
pub const STATE_DEPTH: usize = 34;
/// So many element ambients stand in one another at most, in what is read and in a result; a root ambient is at 1.
pub const NESTING: usize = 8;
/// The like in what the listing reads.
pub const LISTED_NESTING: usize = 16;

/// The tags of the kinds of action begin here, and once more, with a count, for those that have one.
const FIRST_ACTION: u8 = 0x30;
const FIRST_WITH_COUNT: u8 = 0x38;

/// What can be spelled. A length is cut to two bytes, so a result has to be judged by its whole length first.
pub trait Spelled {
    fn spell(&self, out: &mut Vec<u8>);

    fn encode(&self) -> Vec<u8> {
        let mut out = Vec::new();
        self.spell(&mut out);
        out
    }
}

/// Writes one field, whose body is written by the function given.
fn field(tag: u8, out: &mut Vec<u8>, body: impl FnOnce(&mut Vec<u8>)) {
    out.extend([tag, 0, 0]);
    let start = out.len();
    body(out);
    let length = (out.len() - start) as u16;
    out[start - 2..start].copy_from_slice(&length.to_be_bytes());
}

fn number(value: u16, out: &mut Vec<u8>) {
    out.extend(value.to_be_bytes());
}

impl Spelled for Reference {
    fn spell(&self, out: &mut Vec<u8>) {
        number(self.number(), out);
    }
}

impl Spelled for Action {
    fn spell(&self, out: &mut Vec<u8>) {
        let first = if self.has_other_count() {
            FIRST_WITH_COUNT
        } else {
            FIRST_ACTION
        };
        field(first + self.kind as u8, out, |out| {
            self.target.iter().for_each(|target| target.spell(out));
            self.channel.spell(out);
            if self.has_other_count() {
                out.push(self.count());
            }
            self.message.references().for_each(|name| name.spell(out));
        });
    }
}

impl Spelled for Process {
    fn spell(&self, out: &mut Vec<u8>) {
        match self {
            Process::Null => field(0x20, out, |_| {}),
            Process::Parallel(left, right) => field(0x21, out, |out| {
                left.spell(out);
                right.spell(out);
            }),
            Process::Restriction(part) => field(0x22, out, |out| part.spell(out)),
            Process::Ambient(name, part) => field(0x23, out, |out| {
                name.spell(out);
                part.spell(out);
            }),
            Process::Action(action, part) => field(0x24, out, |out| {
                action.spell(out);
                part.spell(out);
            }),
            Process::Replication(action, part) => field(0x25, out, |out| {
                action.spell(out);
                part.spell(out);
            }),
        }
    }
}

impl Spelled for Element {
    fn spell(&self, out: &mut Vec<u8>) {
        match self {
            Element::Ambient {
                blocked,
                name,
                contents,
            } => field(0x40 + u8::from(*blocked), out, |out| {
                number(*name, out);
                contents.iter().for_each(|element| element.spell(out));
            }),
            Element::Process(process) => field(0x42, out, |out| process.spell(out)),
            Element::BlockedAction(action, process) => field(0x43, out, |out| {
                action.spell(out);
                process.spell(out);
            }),
        }
    }
}

impl Spelled for Job {
    fn spell(&self, out: &mut Vec<u8>) {
        field(0x10, out, |out| {
            number(self.free, out);
            self.process.spell(out);
        });
    }
}

impl Spelled for State {
    fn spell(&self, out: &mut Vec<u8>) {
        field(0x11, out, |out| {
            number(self.free, out);
            number(self.next, out);
            self.elements.iter().for_each(|element| element.spell(out));
        });
    }
}

/// Reads a job, with the refusals 1 to 6 and 14.
pub fn read_job(bytes: &[u8]) -> Result<Job, u8> {
    Reader::new(bytes, JOB_DEPTH)?.job(LEAST_FREE)
}

/// The like where a job may have no free names, as a state may.
pub fn read_job_of_any_count(bytes: &[u8]) -> Result<Job, u8> {
    Reader::new(bytes, JOB_DEPTH)?.job(0)
}

/// Reads a process as it stands in a job with this count of free names, with the refusals 1 to 6 and 14.
pub fn read_process(free: u16, bytes: &[u8]) -> Result<Process, u8> {
    Reader::new(bytes, JOB_DEPTH)?.only_process(free, LEAST_FREE)
}

/// The like where a job may have no free names.
pub fn read_process_of_any_count(free: u16, bytes: &[u8]) -> Result<Process, u8> {
    Reader::new(bytes, JOB_DEPTH)?.only_process(free, 0)
}

/// Reads a state, with the refusals 1 to 7 and 14.
pub fn read_state(bytes: &[u8]) -> Result<State, u8> {
    read_nested(bytes, NESTING)
}

/// Reads a state whose ambients nest so deep at most.
pub fn read_nested(bytes: &[u8], nesting: usize) -> Result<State, u8> {
    let state = read_nested_with_pairs(bytes, nesting)?;
    if blocked_pair(&state.elements, false) {
        return Err(BLOCKED_PAIR);
    }
    Ok(state)
}

/// Reads a state that may hold blocked pairs, with the refusals 1 to 6 and 14.
pub fn read_state_with_pairs(bytes: &[u8]) -> Result<State, u8> {
    read_nested_with_pairs(bytes, NESTING)
}

/// The like whose ambients nest so deep at most.
pub fn read_nested_with_pairs(bytes: &[u8], nesting: usize) -> Result<State, u8> {
    Reader::new(bytes, STATE_DEPTH)?.state(nesting)
}

/// What bytes are read as; a process stands in a job with this count of free names.
#[derive(Clone, Copy)]
pub enum Form {
    Job,
    State,
    /// A state as the listing reads it.
    Listed,
    Process(u16),
}

/// Whether reading comes to an action with a count before it refuses anything but that a job has no free names.
pub fn comes_to_count(form: Form, bytes: &[u8]) -> bool {
    let depth = match form {
        Form::State | Form::Listed => STATE_DEPTH,
        _ => JOB_DEPTH,
    };
    Reader::new(bytes, depth).is_ok_and(|mut reader| {
        // The reader stops at the first refusal, and so behind the action in question.
        let _refused = match form {
            Form::Job => reader.job(0).is_err(),
            Form::State => reader.state(NESTING).is_err(),
            Form::Listed => reader.state(LISTED_NESTING).is_err(),
            Form::Process(free) => reader.only_process(free, 0).is_err(),
        };
        reader.came_to_count
    })
}

const PROCESSES: [u8; 6] = [0x20, 0x21, 0x22, 0x23, 0x24, 0x25];
const ACTIONS: [u8; 12] = [
    0x30, 0x31, 0x32, 0x33, 0x34, 0x35, 0x36, 0x37, 0x38, 0x39, 0x3A, 0x3B,
];
const ELEMENTS: [u8; 4] = [0x40, 0x41, 0x42, 0x43];
const BLOCKED_ELEMENTS: [u8; 2] = [0x41, 0x43];

/// The input, the place reached in it, how many names there are, how deep a process may be, and whether
/// the tag of an action with a count was met.
struct Reader<'input> {
    bytes: &'input [u8],
    position: usize,
    names: u16,
    depth: usize,
    came_to_count: bool,
}

/// Each part is read up to the end of the field around it. Reading goes forward only, so the
/// first refusal met is the one with the lowest offset.
impl Reader<'_> {
    fn new(bytes: &[u8], depth: usize) -> Result<Reader<'_>, u8> {
        if bytes.len() > LONGEST {
            return Err(INPUT_TOO_LONG);
        }
        Ok(Reader {
            bytes,
            position: 0,
            names: 0,
            depth,
            came_to_count: false,
        })
    }

    /// A job with at least so many free names.
    fn job(&mut self, least: u16) -> Result<Job, u8> {
        let (_, end) = self.header(self.bytes.len(), &[0x10])?;
        let free = self.free(end, least)?;
        self.names = free;
        let process = self.process(end, 1, 0)?;
        self.finish(end)?;
        self.finish(self.bytes.len())?;
        Ok(Job { free, process })
    }

    fn only_process(&mut self, free: u16, least: u16) -> Result<Process, u8> {
        self.names = in_range(free, least)?;
        let process = self.process(self.bytes.len(), 1, 0)?;
        self.finish(self.bytes.len())?;
        Ok(process)
    }

    /// A state whose ambients nest so deep at most.
    fn state(&mut self, nesting: usize) -> Result<State, u8> {
        let (_, end) = self.header(self.bytes.len(), &[0x11])?;
        let free = self.free(end, 0)?;
        let next = self.number(end)?;
        if next < free || next > MOST_NAMES {
            return Err(OUT_OF_RANGE);
        }
        self.names = next;
        let elements = self.elements(end, &ELEMENTS, nesting)?;
        self.finish(self.bytes.len())?;
        Ok(State {
            free,
            next,
            elements,
        })
    }

    /// The tag of the field that starts here, and where the field ends.
    fn header(&mut self, end: usize, due: &[u8]) -> Result<(u8, usize), u8> {
        if end - self.position < 3 {
            return Err(PAST_THE_END);
        }
        let tag = self.bytes[self.position];
        if !due.contains(&tag) {
            return Err(TAG_NOT_DUE);
        }
        self.position += 1;
        let length = usize::from(self.number(end)?);
        if length > end - self.position {
            return Err(PAST_THE_END);
        }
        Ok((tag, self.position + length))
    }

    fn number(&mut self, end: usize) -> Result<u16, u8> {
        if end - self.position < 2 {
            return Err(PAST_THE_END);
        }
        let two = [self.bytes[self.position], self.bytes[self.position + 1]];
        self.position += 2;
        Ok(u16::from_be_bytes(two))
    }

    /// The parts of a field have to fill it.
    fn finish(&self, end: usize) -> Result<(), u8> {
        if self.position < end {
            return Err(BYTES_LEFT);
        }
        Ok(())
    }

    /// A count of free names that is at least this.
    fn free(&mut self, end: usize, least: u16) -> Result<u16, u8> {
        in_range(self.number(end)?, least)
    }

    /// A name there is, or the variable of one of the binders around.
    fn reference(&mut self, end: usize, binders: u16) -> Result<Reference, u8> {
        let value = self.number(end)?;
        if value < self.names {
            Ok(Reference::Name(value))
        } else if value >= FIRST_VARIABLE && value - FIRST_VARIABLE < binders {
            Ok(Reference::Variable(value - FIRST_VARIABLE))
        } else {
            Err(OUT_OF_RANGE)
        }
    }

    /// A count of names. One name is spelled without a count.
    fn count(&mut self, end: usize) -> Result<u8, u8> {
        if self.position == end {
            return Err(PAST_THE_END);
        }
        let count = self.bytes[self.position];
        if count == 1 || count > MOST_COUNT {
            return Err(WRONG_COUNT);
        }
        self.position += 1;
        Ok(count)
    }

    fn action(&mut self, end: usize, binders: u16) -> Result<Action, u8> {
        let (tag, end) = self.header(end, &ACTIONS)?;
        let has_count = tag >= FIRST_WITH_COUNT;
        self.came_to_count |= has_count;
        let first = if has_count {
            FIRST_WITH_COUNT
        } else {
            FIRST_ACTION
        };
        let kind = Kind::ALL[usize::from(tag - first)];
        let mut target = None;
        if kind.has_target() {
            target = Some(self.reference(end, binders)?);
        }
        let channel = self.reference(end, binders)?;
        let count = if has_count { self.count(end)? } else { 1 };
        let mut message = Message::default();
        if kind.has_message() {
            for _ in 0..count {
                message.push(self.reference(end, binders)?);
            }
        }
        self.finish(end)?;
        Ok(Action {
            kind,
            target,
            channel,
            message,
            binds: if kind.binds() { count } else { 0 },
        })
    }

    /// An action and the process after it, which alone stands under the binders of an input.
    fn guarded(&mut self, end: usize, level: usize, binders: u16) -> Result<(Action, Process), u8> {
        let action = self.action(end, binders)?;
        let binders = binders + u16::from(action.binds);
        Ok((action, self.process(end, level, binders)?))
    }

    /// A process at this level, the outermost being at 1.
    fn process(&mut self, end: usize, level: usize, binders: u16) -> Result<Process, u8> {
        let (tag, end) = self.header(end, &PROCESSES)?;
        if level > self.depth {
            return Err(TOO_DEEP);
        }
        let inner = level + 1;
        let process = match tag {
            0x20 => Process::Null,
            0x21 => {
                let left = self.process(end, inner, binders)?;
                let right = self.process(end, inner, binders)?;
                Process::Parallel(Box::new(left), Box::new(right))
            }
            0x22 => Process::Restriction(Box::new(self.process(end, inner, binders + 1)?)),
            0x23 => {
                let name = self.reference(end, binders)?;
                Process::Ambient(name, Box::new(self.process(end, inner, binders)?))
            }
            0x24 => {
                let (action, part) = self.guarded(end, inner, binders)?;
                Process::Action(action, Box::new(part))
            }
            _ => {
                let (action, part) = self.guarded(end, inner, binders)?;
                Process::Replication(action, Box::new(part))
            }
        };
        self.finish(end)?;
        Ok(process)
    }

    /// Elements up to the end, whose ambients nest so deep at most.
    fn elements(&mut self, end: usize, due: &[u8], nesting: usize) -> Result<Vec<Element>, u8> {
        let mut elements = Vec::new();
        while self.position < end {
            elements.push(self.element(end, due, nesting)?);
        }
        Ok(elements)
    }

    fn element(&mut self, end: usize, due: &[u8], nesting: usize) -> Result<Element, u8> {
        let (tag, end) = self.header(end, due)?;
        let element = match tag {
            0x40 | 0x41 => {
                if nesting == 0 {
                    return Err(TOO_DEEP);
                }
                let blocked = tag == 0x41;
                let due: &[u8] = if blocked {
                    &BLOCKED_ELEMENTS
                } else {
                    &ELEMENTS
                };
                Element::Ambient {
                    blocked,
                    name: self.reference(end, 0)?.name(),
                    contents: self.elements(end, due, nesting - 1)?,
                }
            }
            0x42 => Element::Process(self.process(end, 1, 0)?),
            _ => {
                let (action, process) = self.guarded(end, 2, 0)?;
                Element::BlockedAction(action, process)
            }
        };
        self.finish(end)?;
        Ok(element)
    }
}

/// The count of free names, if it is at least this and not too great.
fn in_range(free: u16, least: u16) -> Result<u16, u8> {
    if (least..=MOST_FREE).contains(&free) {
        Ok(free)
    } else {
        Err(OUT_OF_RANGE)
    }
}

/// Whether two blocked actions in this list or deeper could meet: the source's ill-formed terms.
/// A leave and a release are a pair only inside an ambient, for there is nothing to leave at the root.
pub fn blocked_pair(list: &[Element], inside_ambient: bool) -> bool {
    list.iter().enumerate().any(|(index, element)| {
        let Some((_, contents)) = element.ambient() else {
            return false;
        };
        // A blocked action in an ambient beside this one that has the target's name.
        let beside = |mover: &Action, kind: Kind| {
            list.iter().enumerate().any(|(other, element)| {
                element.ambient().is_some_and(|(name, contents)| {
                    other != index
                        && mover.target == Some(Reference::Name(name))
                        && has_blocked(contents, kind, mover)
                })
            })
        };
        let meets = |mover: &Action| match mover.kind {
            Kind::Enter => beside(mover, Kind::Accept),
            Kind::SiblingOutput => beside(mover, Kind::ExternalInput),
            Kind::ParentOutput => has_blocked(list, Kind::InternalInput, mover),
            Kind::Leave => inside_ambient && has_blocked(list, Kind::Release, mover),
            _ => false,
        };
        contents
            .iter()
            .filter_map(Element::blocked_action)
            .any(meets)
            || blocked_pair(contents, true)
    })
}

/// Whether a blocked action of this kind, with the channel and the count of the other, stands directly in
/// the list.
fn has_blocked(list: &[Element], kind: Kind, other: &Action) -> bool {
    let mut actions = list.iter().filter_map(Element::blocked_action);
    actions.any(|action| {
        action.kind == kind && action.channel == other.channel && action.count() == other.count()
    })
}
