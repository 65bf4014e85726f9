// The sweep: an empty ambient is removed if its name is not a free one and stands nowhere else in the state; again until
// none is left.

use crate::machine::deliver;
use crate::spelling::{read_state, Spelled, MOST_NAMES};
use crate::tree::{Action, Element, Process, Reference, State};

/// How many bytes an empty ambient has.
pub const BOX: usize = 5;

/// Reads a state and writes what is left of it after the sweep; gives its length.
pub fn sweep(state: &[u8], out: &mut [u8]) -> Result<usize, u8> {
    let swept = swept(&read_state(state)?);
    deliver(&swept.encode(), out)
}

/// What is left of a state after the sweep. F and N stay.
pub fn swept(state: &State) -> State {
    let mut state = state.clone();
    loop {
        let counts = name_counts(&state);
        let goes = |element: &Element| is_thrown_away(element, state.free, &counts);
        if !remove(&mut state.elements, &goes) {
            return state;
        }
    }
}

/// Whether the element is an empty ambient, blocked or not, whose name is F or above and stands here alone.
pub fn is_thrown_away(element: &Element, free: u16, counts: &[usize]) -> bool {
    element.ambient().is_some_and(|(name, contents)| {
        contents.is_empty() && name >= free && counts[usize::from(name)] == 1
    })
}

/// Removes those that go from the list and from the ambients in it; gives whether there were any.
fn remove(list: &mut Vec<Element>, goes: &dyn Fn(&Element) -> bool) -> bool {
    let before = list.len();
    list.retain(|element| !goes(element));
    let mut removed = list.len() < before;
    for element in list {
        if let Element::Ambient { contents, .. } = element {
            removed |= remove(contents, goes);
        }
    }
    removed
}

/// How often each name stands in a state: as the name of an ambient, and as a reference in a process or an action,
/// however deep.
pub fn name_counts(state: &State) -> Vec<usize> {
    let mut counts = vec![0; usize::from(MOST_NAMES)];
    each_name(&state.elements, &mut |name| counts[usize::from(name)] += 1);
    counts
}

/// Shows every name in the elements to the visitor, as often as it stands there.
pub fn each_name(list: &[Element], visit: &mut dyn FnMut(u16)) {
    for element in list {
        match element {
            Element::Ambient { name, contents, .. } => {
                visit(*name);
                each_name(contents, visit);
            }
            Element::Process(process) => names_of_process(process, visit),
            Element::BlockedAction(action, process) => {
                names_of_action(action, visit);
                names_of_process(process, visit);
            }
        }
    }
}

fn names_of_process(process: &Process, visit: &mut dyn FnMut(u16)) {
    match process {
        Process::Null => {}
        Process::Parallel(left, right) => {
            names_of_process(left, visit);
            names_of_process(right, visit);
        }
        Process::Restriction(part) => names_of_process(part, visit),
        Process::Ambient(reference, part) => {
            name_of_reference(*reference, visit);
            names_of_process(part, visit);
        }
        Process::Action(action, part) | Process::Replication(action, part) => {
            names_of_action(action, visit);
            names_of_process(part, visit);
        }
    }
}

fn names_of_action(action: &Action, visit: &mut dyn FnMut(u16)) {
    for reference in action.references() {
        name_of_reference(reference, visit);
    }
}

/// A variable is no name.
fn name_of_reference(reference: Reference, visit: &mut dyn FnMut(u16)) {
    if let Reference::Name(name) = reference {
        visit(name);
    }
}
