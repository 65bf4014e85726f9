// The heap trees: references, actions, processes, elements, jobs and states.

/// The variable of the innermost binder is spelled as this number, those further out as the next ones.
pub const FIRST_VARIABLE: u16 = 32_768;

/// A name, or the variable of the binder that many levels out.
#[derive(Clone, Copy, Debug, PartialEq, Eq)]
pub enum Reference {
    Name(u16),
    Variable(u16),
}

/// The eight kinds of action, in the order of their tags.
#[derive(Clone, Copy, Debug, PartialEq, Eq)]
pub enum Kind {
    SiblingOutput,
    ParentOutput,
    InternalInput,
    ExternalInput,
    Enter,
    Leave,
    Accept,
    Release,
}

impl Kind {
    pub const ALL: [Kind; 8] = [
        Kind::SiblingOutput,
        Kind::ParentOutput,
        Kind::InternalInput,
        Kind::ExternalInput,
        Kind::Enter,
        Kind::Leave,
        Kind::Accept,
        Kind::Release,
    ];

    /// Whether an action of this kind names the ambient it is meant for.
    pub fn has_target(self) -> bool {
        matches!(self, Kind::SiblingOutput | Kind::Enter)
    }

    /// Whether an action of this kind hands names over.
    pub fn has_message(self) -> bool {
        matches!(self, Kind::SiblingOutput | Kind::ParentOutput)
    }

    /// Whether an action of this kind binds variables in the process after it.
    pub fn binds(self) -> bool {
        matches!(self, Kind::InternalInput | Kind::ExternalInput)
    }

    /// Whether an action of this kind has a count of names.
    pub fn has_count(self) -> bool {
        self.has_message() || self.binds()
    }
}

/// The most names that an action hands over or takes.
pub const MOST_COUNT: u8 = 4;

/// The references of the names that an output hands over, in order. They are kept as they are spelled, so
/// that an action stays small.
#[derive(Clone, Copy, Debug, Default, PartialEq, Eq)]
pub struct Message {
    count: u8,
    /// Those behind the count are 0.
    spelled: [u16; MOST_COUNT as usize],
}

/// An action with its references. A target is there when the kind has one, a message is empty unless
/// the kind has one.
#[derive(Clone, Copy, Debug, PartialEq, Eq)]
pub struct Action {
    pub kind: Kind,
    pub target: Option<Reference>,
    pub channel: Reference,
    pub message: Message,
    /// How many variables it binds in the process after it, the last the innermost.
    pub binds: u8,
}

#[derive(Clone, Debug, PartialEq, Eq)]
pub enum Process {
    Null,
    Parallel(Box<Process>, Box<Process>),
    Restriction(Box<Process>),
    Ambient(Reference, Box<Process>),
    Action(Action, Box<Process>),
    Replication(Action, Box<Process>),
}

#[derive(Clone, Debug, PartialEq, Eq)]
pub enum Element {
    Ambient {
        blocked: bool,
        name: u16,
        contents: Vec<Element>,
    },
    Process(Process),
    BlockedAction(Action, Process),
}

#[derive(Clone, Debug, PartialEq, Eq)]
pub struct Job {
    pub free: u16,
    pub process: Process,
}

#[derive(Clone, Debug, PartialEq, Eq)]
pub struct State {
    pub free: u16,
    pub next: u16,
    pub elements: Vec<Element>,
}

impl Reference {
    /// The name; for the references of an element, which has no free variable.
    pub fn name(self) -> u16 {
        match self {
            Reference::Name(name) => name,
            Reference::Variable(_) => panic!("a free variable in an element"),
        }
    }

    /// The number that it is spelled as.
    pub fn number(self) -> u16 {
        match self {
            Reference::Name(name) => name,
            Reference::Variable(level) => FIRST_VARIABLE + level,
        }
    }

    /// The reference that is spelled as this number, if any is.
    fn of_number(number: u16) -> Reference {
        match number.checked_sub(FIRST_VARIABLE) {
            None => Reference::Name(number),
            Some(level) => Reference::Variable(level),
        }
    }

    fn substitute(&mut self, level: u16, names: &[u16]) {
        let Reference::Variable(variable) = *self else {
            return;
        };
        let outwards = variable.checked_sub(level);
        let name = outwards.and_then(|outwards| names.iter().rev().nth(usize::from(outwards)));
        if let Some(name) = name {
            *self = Reference::Name(*name);
        }
    }
}

impl Message {
    /// Puts one more reference last.
    pub fn push(&mut self, reference: Reference) {
        self.spelled[usize::from(self.count)] = reference.number();
        self.count += 1;
    }

    pub fn references(&self) -> impl Iterator<Item = Reference> + '_ {
        let spelled = &self.spelled[..usize::from(self.count)];
        spelled.iter().copied().map(Reference::of_number)
    }

    /// Puts the last reference first.
    pub fn reverse(&mut self) {
        self.spelled[..usize::from(self.count)].reverse();
    }

    fn substitute(&mut self, level: u16, names: &[u16]) {
        for number in &mut self.spelled[..usize::from(self.count)] {
            let mut reference = Reference::of_number(*number);
            reference.substitute(level, names);
            *number = reference.number();
        }
    }
}

impl Action {
    /// The action of this kind with its names in the order in which they are spelled; one name is
    /// handed over or taken, if any is.
    pub fn named(kind: Kind, names: &[u16]) -> Action {
        Action::counted(kind, 1, names)
    }

    /// The like where so many names are handed over or taken, if any are.
    pub fn counted(kind: Kind, count: u8, names: &[u16]) -> Action {
        let references: Vec<Reference> = names.iter().copied().map(Reference::Name).collect();
        Action::of_references(kind, count, &references)
    }

    /// The like with references.
    pub fn of_references(kind: Kind, count: u8, references: &[Reference]) -> Action {
        let mut references = references.iter().copied();
        let mut next = || references.next().expect("a reference for each part");
        let target = kind.has_target().then(&mut next);
        let channel = next();
        let mut message = Message::default();
        let sent = if kind.has_message() { count } else { 0 };
        (0..sent).for_each(|_| message.push(next()));
        Action {
            kind,
            target,
            channel,
            message,
            binds: if kind.binds() { count } else { 0 },
        }
    }

    /// Its references as they are spelled.
    pub fn references(&self) -> impl Iterator<Item = Reference> + '_ {
        let first = self.target.into_iter().chain([self.channel]);
        first.chain(self.message.references())
    }

    /// How many names it hands over or takes; 0 if its kind does neither.
    pub fn count(&self) -> u8 {
        self.message.count + self.binds
    }

    /// Whether it is an output or an input of another count than one.
    pub fn has_other_count(&self) -> bool {
        self.kind.has_count() && self.count() != 1
    }

    fn substitute(&mut self, level: u16, names: &[u16]) {
        let parts = self.target.iter_mut().chain([&mut self.channel]);
        parts.for_each(|reference| reference.substitute(level, names));
        self.message.substitute(level, names);
    }
}

impl Process {
    /// Null is 1 deep; every other process is one deeper than its deepest part.
    pub fn depth(&self) -> usize {
        match self {
            Process::Null => 1,
            Process::Parallel(left, right) => 1 + left.depth().max(right.depth()),
            Process::Restriction(part)
            | Process::Ambient(_, part)
            | Process::Action(_, part)
            | Process::Replication(_, part) => 1 + part.depth(),
        }
    }

    /// Puts the names for the variables from so many levels out on, which are the only free ones. The
    /// last name is for the innermost.
    pub fn substitute(&mut self, level: u16, names: &[u16]) {
        match self {
            Process::Null => {}
            Process::Parallel(left, right) => {
                left.substitute(level, names);
                right.substitute(level, names);
            }
            Process::Restriction(part) => part.substitute(level + 1, names),
            Process::Ambient(reference, part) => {
                reference.substitute(level, names);
                part.substitute(level, names);
            }
            Process::Action(action, part) | Process::Replication(action, part) => {
                action.substitute(level, names);
                part.substitute(level + u16::from(action.binds), names);
            }
        }
    }
}

impl Element {
    /// Whether this is a blocked ambient or a blocked action.
    pub fn is_blocked(&self) -> bool {
        match self {
            Element::Ambient { blocked, .. } => *blocked,
            Element::Process(_) => false,
            Element::BlockedAction(..) => true,
        }
    }

    /// The name and the contents, if this is an ambient.
    pub fn ambient(&self) -> Option<(u16, &[Element])> {
        match self {
            Element::Ambient { name, contents, .. } => Some((*name, contents)),
            _ => None,
        }
    }

    /// The action, if this is a blocked action.
    pub fn blocked_action(&self) -> Option<&Action> {
        match self {
            Element::BlockedAction(action, _) => Some(action),
            _ => None,
        }
    }

    /// The depth of the deepest process; a blocked action counts as an action.
    pub fn depth(&self) -> usize {
        match self {
            Element::Ambient { contents, .. } => deepest(contents, Element::depth),
            Element::Process(process) => process.depth(),
            Element::BlockedAction(_, process) => 1 + process.depth(),
        }
    }

    /// How many ambients stand inside each other here.
    pub fn nesting(&self) -> usize {
        match self {
            Element::Ambient { contents, .. } => 1 + deepest(contents, Element::nesting),
            _ => 0,
        }
    }
}

impl State {
    pub fn depth(&self) -> usize {
        deepest(&self.elements, Element::depth)
    }

    pub fn nesting(&self) -> usize {
        deepest(&self.elements, Element::nesting)
    }
}

fn deepest(elements: &[Element], measure: fn(&Element) -> usize) -> usize {
    elements.iter().map(measure).max().unwrap_or(0)
}
