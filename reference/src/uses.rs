// Where a name can stand in a process, and as what.

use crate::tree::{Action, Kind, Process, Reference, MOST_COUNT};
use std::iter::repeat_n;

/// What a reference is written as.
#[derive(Clone, Copy, Debug, PartialEq, Eq)]
pub enum Role {
    /// The name of an ambient, or the target of an action.
    Box,
    /// The channel of an action.
    Channel,
    /// One of the names that an output hands over.
    Sent,
}

/// The roles of the references of an action of this kind and count, as they are spelled.
pub fn roles(kind: Kind, count: u8) -> Vec<Role> {
    let target = kind.has_target().then_some(Role::Box);
    let sent = if kind.has_message() { count } else { 0 };
    let sent = repeat_n(Role::Sent, usize::from(sent));
    let all = target.into_iter().chain([Role::Channel]).chain(sent);
    all.collect()
}

/// Where a name can stand in a process: as an ambient's, or as one of the references of an action of this kind and
/// count, counted as they are spelled.
#[derive(Clone, Copy, Debug, PartialEq, Eq)]
pub enum Use {
    Ambient,
    Action(Kind, u8, usize),
}

impl Use {
    /// The name of an ambient, and every reference of every action.
    pub fn all() -> Vec<Use> {
        let mut uses = vec![Use::Ambient];
        for kind in Kind::ALL {
            let counts = match kind.has_count() {
                true => 0..=MOST_COUNT,
                false => 1..=1,
            };
            for count in counts {
                let references = 0..roles(kind, count).len();
                uses.extend(references.map(|index| Use::Action(kind, count, index)));
            }
        }
        uses
    }

    /// Those in which a name has this role.
    pub fn of_role(role: Role) -> Vec<Use> {
        let uses = Use::all().into_iter();
        uses.filter(|part| part.role() == role).collect()
    }

    pub fn role(self) -> Role {
        match self {
            Use::Ambient => Role::Box,
            Use::Action(kind, count, index) => roles(kind, count)[index],
        }
    }

    /// The action with the one reference in this place and the other in all others, if this is one.
    pub fn action(self, one: Reference, other: Reference) -> Option<Action> {
        let Use::Action(kind, count, index) = self else {
            return None;
        };
        let mut references = vec![other; roles(kind, count).len()];
        references[index] = one;
        Some(Action::of_references(kind, count, &references))
    }

    pub fn process(self, one: Reference, other: Reference) -> Process {
        let null = Box::new(Process::Null);
        match self.action(one, other) {
            Some(action) => Process::Action(action, null),
            None => Process::Ambient(one, null),
        }
    }
}
