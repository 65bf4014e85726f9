// What the calls go deepest in: processes as deep as may be, and one level deeper, in ambients that nest as deep as may be, and a
// step that hands four names to such a process.

use crate::machine::Choice;
use crate::shapes::{ambient, inside, root};
use crate::spelling::{JOB_DEPTH, NESTING, STATE_DEPTH};
use crate::tree::{Action, Element, Job, Kind, Process, Reference, State};

/// The names: an ambient's, a channel, and as many as are handed over.
const NAMES: u16 = 6;

/// Outputs of four names behind each other, so deep in all; they name the ambient and the channel by these references.
fn outputs(depth: usize, target: Reference, channel: Reference) -> Process {
    let references = [target, channel, channel, channel, channel, channel];
    let output = Action::of_references(Kind::SiblingOutput, 4, &references);
    (1..depth).fold(Process::Null, |part, _| {
        Process::Action(output, Box::new(part))
    })
}

fn named_outputs(depth: usize) -> Process {
    outputs(depth, Reference::Name(0), Reference::Name(1))
}

/// A job that is one level too deep: reading goes deeper in none.
pub fn deepest_job() -> Job {
    let process = named_outputs(JOB_DEPTH + 1);
    Job {
        free: NAMES,
        process,
    }
}

/// These elements in so many ambients.
fn nested(nesting: usize, elements: Vec<Element>) -> State {
    root(NAMES, inside(nesting, elements))
}

/// A state with a process as deep as may be in so many ambients, and one whose process is too deep.
pub fn deepest_states(nesting: usize) -> [State; 2] {
    [STATE_DEPTH, STATE_DEPTH + 1]
        .map(|depth| nested(nesting, vec![Element::Process(named_outputs(depth))]))
}

/// Four names are handed over from one ambient to another, both as deep as may be, and written all through a process that is as
/// deep as may be; with the choice of the output.
pub fn deepest_meeting() -> (State, Choice) {
    let output = Action::counted(Kind::SiblingOutput, 4, &[1, 2, 0, 1, 2, 3]);
    let after = Box::new(named_outputs(STATE_DEPTH - 1));
    let input = Action::counted(Kind::ExternalInput, 4, &[2]);
    let heard = outputs(
        STATE_DEPTH - 1,
        Reference::Variable(0),
        Reference::Variable(1),
    );
    let two = vec![
        ambient(0, vec![Element::Process(Process::Action(output, after))]),
        ambient(1, vec![Element::BlockedAction(input, heard)]),
    ];
    let place = NESTING as u16;
    (nested(NESTING - 1, two), (place, place + 2))
}
