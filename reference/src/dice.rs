// Dice: the seeded generator of random jobs and states.

use crate::cases::{bare, loaded};
use crate::machine::answer;
use crate::shapes::{parallel, restriction};
use crate::spelling::{LEAST_FREE, LISTED_NESTING, NESTING};
use crate::tree::{Action, Element, Job, Kind, Process, Reference, State};
use crate::uses::{roles, Role};

/// The counts of names that outputs and inputs are thrown with.
#[derive(Clone, Copy, Debug, PartialEq, Eq)]
pub enum Counts {
    /// One name each, as the tags 30 to 33 have it.
    One,
    /// None to four, by the tags 30 to 33 and 38 to 3B.
    All,
}

/// Where the process of a job stands in the state that a play or a run of it starts from.
#[derive(Clone, Copy, Debug, PartialEq, Eq)]
pub enum Roots {
    /// Directly in the root. Loading makes no such state, but all calls on states take it.
    Bare,
    /// In the cabinet, as loading puts it there.
    Cabinet,
}

/// How the names of a job are used. Those of a state are always used for everything.
#[derive(Clone, Copy, Debug, PartialEq, Eq)]
pub enum Names {
    /// All of them for everything: most jobs with an action are refused with 15.
    Mixed,
    /// The even ones for ambients and targets, the odd ones for channels, and all of them to be sent. Now and then all of
    /// them for everything.
    Apart,
}

/// What is thrown.
#[derive(Clone, Copy, Debug, PartialEq, Eq)]
pub struct Thrown {
    pub counts: Counts,
    pub roots: Roots,
    pub names: Names,
}

impl Thrown {
    pub fn bare(counts: Counts) -> Thrown {
        Thrown {
            counts,
            roots: Roots::Bare,
            names: Names::Mixed,
        }
    }
}

impl From<Counts> for Thrown {
    fn from(counts: Counts) -> Thrown {
        Thrown {
            counts,
            roots: Roots::Cabinet,
            names: Names::Apart,
        }
    }
}

/// Of so many jobs whose names are kept apart one uses all of them for everything.
const MIXED_UP: usize = 8;

/// A small xorshift generator.
pub struct Dice {
    bits: u64,
    thrown: Thrown,
    /// How many of the names, or of those for one use, are used often, so that actions meet.
    busy: u16,
    /// Whether what is thrown keeps its names apart.
    is_apart: bool,
    /// How many of four elements are blocked.
    blocked: usize,
}

impl Dice {
    pub fn new(thrown: impl Into<Thrown>, seed: u64) -> Dice {
        // The state may not be zero.
        let bits = seed.wrapping_mul(0x9E37_79B9_7F4A_7C15) ^ 0x2545_F491_4F6C_DD1D;
        Dice {
            bits: bits.max(1),
            thrown: thrown.into(),
            busy: 3,
            is_apart: false,
            blocked: 2,
        }
    }

    fn roll(&mut self) -> u64 {
        self.bits ^= self.bits << 13;
        self.bits ^= self.bits >> 7;
        self.bits ^= self.bits << 17;
        self.bits.wrapping_mul(0x2545_F491_4F6C_DD1D) >> 16
    }

    /// A number below the limit.
    pub fn below(&mut self, limit: usize) -> usize {
        (self.roll() % limit as u64) as usize
    }

    pub fn between(&mut self, low: usize, high: usize) -> usize {
        low + self.below(high - low + 1)
    }

    pub fn one_in(&mut self, chance: usize) -> bool {
        self.below(chance) == 0
    }

    pub fn pick<Item: Copy>(&mut self, items: &[Item]) -> Item {
        items[self.below(items.len())]
    }

    /// A name below the count, mostly one of the busy ones.
    pub fn name(&mut self, names: u16) -> u16 {
        let limit = if self.one_in(12) {
            names
        } else {
            names.min(self.busy)
        };
        self.below(usize::from(limit)) as u16
    }

    /// How many of so many names are for this role.
    fn names_for(&self, role: Role, names: u16) -> u16 {
        match role {
            Role::Box if self.is_apart => names.div_ceil(2),
            Role::Channel if self.is_apart => names / 2,
            _ => names,
        }
    }

    /// A name below the count that is for this role.
    fn name_for(&mut self, role: Role, names: u16) -> u16 {
        let name = self.name(self.names_for(role, names));
        match role {
            Role::Box if self.is_apart => 2 * name,
            Role::Channel if self.is_apart => 2 * name + 1,
            _ => name,
        }
    }

    /// Whether there is a name or a binder for this role.
    fn has(&self, role: Role, names: u16, binders: u16) -> bool {
        self.names_for(role, names) + binders > 0
    }

    /// Needs a name or a binder for the role.
    fn reference(&mut self, role: Role, names: u16, binders: u16) -> Reference {
        if binders > 0 && (self.names_for(role, names) == 0 || self.one_in(2)) {
            Reference::Variable(self.below(usize::from(binders)) as u16)
        } else {
            Reference::Name(self.name_for(role, names))
        }
    }

    pub fn counts(&self) -> Counts {
        self.thrown.counts
    }

    pub fn roots(&self) -> Roots {
        self.thrown.roots
    }

    /// The state that a play or a run of the job starts from. In a cabinet a job without free names has one, since
    /// it would not be loaded.
    pub fn started(&self, job: Job) -> State {
        match self.thrown.roots {
            Roots::Bare => bare(job),
            Roots::Cabinet => loaded(with_name(job)),
        }
    }

    /// A count of names.
    pub fn count(&mut self) -> u8 {
        match self.thrown.counts {
            Counts::One => 1,
            Counts::All => self.pick(&[0, 0, 1, 1, 2, 2, 3, 4]),
        }
    }

    /// Mostly this count, now and then another.
    pub fn count_like(&mut self, count: u8) -> u8 {
        if self.thrown.counts == Counts::All && self.one_in(4) {
            self.count()
        } else {
            count
        }
    }

    fn action(&mut self, kind: Kind, count: u8, names: u16, binders: u16) -> Action {
        let roles = roles(kind, count).into_iter();
        let references = roles.map(|role| self.reference(role, names, binders));
        let references: Vec<Reference> = references.collect();
        Action::of_references(kind, count, &references)
    }

    /// An action of any kind.
    fn any_action(&mut self, names: u16, binders: u16) -> Action {
        let kind = self.pick(&Kind::ALL);
        let count = self.count();
        self.action(kind, count, names, binders)
    }

    /// A process no deeper than the depth given, of about as many parts as the budget has.
    pub fn process(
        &mut self,
        names: u16,
        binders: u16,
        depth: usize,
        budget: &mut usize,
    ) -> Process {
        if depth <= 1 || *budget == 0 {
            return Process::Null;
        }
        *budget -= 1;
        let has_channel = self.has(Role::Channel, names, binders);
        if depth > 5 && has_channel && self.one_in(6) {
            return self.meeting(names, binders, depth - 4, budget);
        }
        let depth = depth - 1;
        let choices = match self.has(Role::Box, names, binders) {
            true if has_channel => 9,
            true => 6,
            false => 4,
        };
        match self.below(choices) {
            0 => Process::Null,
            1 | 2 => {
                let left = self.process(names, binders, depth, budget);
                let right = self.process(names, binders, depth, budget);
                parallel(left, right)
            }
            3 => restriction(self.process(names, binders + 1, depth, budget)),
            4 | 5 => {
                let name = self.reference(Role::Box, names, binders);
                let part = self.process(names, binders, depth, budget);
                Process::Ambient(name, Box::new(part))
            }
            choice => {
                let action = self.any_action(names, binders);
                let process = self.guarded(action, names, binders, depth, budget);
                match process {
                    Process::Action(action, part) if choice == 8 => {
                        Process::Replication(action, part)
                    }
                    process => process,
                }
            }
        }
    }

    /// The action and a random process after it.
    fn guarded(
        &mut self,
        action: Action,
        names: u16,
        binders: u16,
        depth: usize,
        budget: &mut usize,
    ) -> Process {
        let binders = binders + u16::from(action.binds);
        let part = self.process(names, binders, depth, budget);
        Process::Action(action, Box::new(part))
    }

    /// Two actions that answer each other, the sender or mover first; now and then their counts differ.
    fn pair(&mut self, names: u16, binders: u16) -> (Action, Action) {
        let kind = self.pick(&SENDERS);
        let count = self.count();
        let first = self.action(kind, count, names, binders);
        let count = self.count_like(count);
        let mut second = self.action(answer(kind), count, names, binders);
        second.channel = first.channel;
        (first, second)
    }

    /// Ambients in which two actions meet; at most four levels around a process of this depth.
    fn meeting(&mut self, names: u16, binders: u16, depth: usize, budget: &mut usize) -> Process {
        let (first, second) = self.pair(names, binders);
        let first_part = self.guarded(first, names, binders, depth, budget);
        let second_part = self.guarded(second, names, binders, depth, budget);
        let own = self.reference(Role::Box, names, binders);
        let other = self.reference(Role::Box, names, binders);
        let other = first.target.unwrap_or(other);
        let first_part = Process::Ambient(own, Box::new(first_part));
        let second_part = match first.target {
            Some(target) => Process::Ambient(target, Box::new(second_part)),
            None => second_part,
        };
        let both = if self.one_in(2) {
            parallel(first_part, second_part)
        } else {
            parallel(second_part, first_part)
        };
        if first.kind == Kind::Leave {
            Process::Ambient(other, Box::new(both))
        } else {
            both
        }
    }

    /// A list of elements whose ambients nest no deeper than the nesting given.
    fn elements(
        &mut self,
        names: u16,
        nesting: usize,
        blocked: bool,
        budget: &mut usize,
    ) -> Vec<Element> {
        let mut list = Vec::new();
        for _ in 0..self.below(6) {
            if *budget == 0 {
                break;
            }
            *budget -= 1;
            let wants_ambient = names > 0 && nesting > 0 && self.below(5) < 3;
            let wants_blocked = blocked || self.below(4) < self.blocked;
            list.push(if wants_ambient {
                Element::Ambient {
                    blocked: wants_blocked,
                    name: self.name(names),
                    contents: self.elements(names, nesting - 1, wants_blocked, budget),
                }
            } else if !wants_blocked {
                let mut budget = self.below(8);
                Element::Process(self.process(names, 0, 34, &mut budget))
            } else if names > 0 {
                let action = self.any_action(names, 0);
                self.acting(action, names, true)
            } else {
                break;
            });
        }
        if self.one_in(6) {
            self.plant(&mut list, names, blocked);
        }
        list
    }

    /// The action and a random process after it as an element, blocked or not.
    pub fn acting(&mut self, action: Action, names: u16, blocked: bool) -> Element {
        let mut budget = self.below(4);
        match self.guarded(action, names, 0, 33, &mut budget) {
            Process::Action(action, part) if blocked => Element::BlockedAction(action, *part),
            process => Element::Process(process),
        }
    }

    /// Puts two actions that answer each other into the list and its ambients, if it has any.
    fn plant(&mut self, list: &mut Vec<Element>, names: u16, blocked: bool) {
        let ambients: Vec<usize> = (0..list.len())
            .filter(|index| list[*index].ambient().is_some())
            .collect();
        if ambients.is_empty() {
            return;
        }
        let (mut first, second) = self.pair(names, 0);
        let (own, other) = (self.pick(&ambients), self.pick(&ambients));
        if let (Some(target), Some((name, _))) = (&mut first.target, list[other].ambient()) {
            *target = Reference::Name(name);
            self.put_in(&mut list[other], second, names);
        } else {
            let blocked = blocked || self.one_in(2);
            let element = self.acting(second, names, blocked);
            list.push(element);
        }
        self.put_in(&mut list[own], first, names);
    }

    /// Puts the action somewhere into the ambient.
    fn put_in(&mut self, ambient: &mut Element, action: Action, names: u16) {
        if let Element::Ambient {
            blocked, contents, ..
        } = ambient
        {
            let blocked = *blocked || self.one_in(2);
            let index = self.below(contents.len() + 1);
            contents.insert(index, self.acting(action, names, blocked));
        }
    }

    /// A job with few free names or as many as may be, of which a few are busy.
    pub fn job(&mut self, size: usize) -> Job {
        let is_apart = self.thrown.names == Names::Apart && !self.one_in(MIXED_UP);
        let busy = self.between(1, 4) as u16;
        let free = match is_apart {
            true => self.pick(&[0, 1, 2, 3, 4, 5, 1_024]),
            false => self.pick(&[0, 1, 2, 3, 3, 5, 1_024]),
        };
        self.job_of_names(is_apart, free, busy, size)
    }

    /// A job with this count of free names, so many of them busy, which are kept apart or not.
    pub fn job_of_names(&mut self, is_apart: bool, free: u16, busy: u16, size: usize) -> Job {
        self.is_apart = is_apart;
        self.busy = busy;
        let mut budget = size;
        // A job that comes out too small to be of use is thrown again.
        let mut process = Process::Null;
        for _ in 0..6 {
            process = self.process(free, 0, 32, &mut budget);
            if process != Process::Null {
                break;
            }
        }
        self.is_apart = false;
        Job { free, process }
    }

    /// A state that keeps to all rules, save that it may hold a blocked pair.
    pub fn state(&mut self, size: usize) -> State {
        let mut state = self.empty_state();
        let next = state.next;
        let mut budget = size;
        let mut elements = self.elements(next, NESTING, false, &mut budget);
        while budget > 0 && size > 8 {
            elements.append(&mut self.elements(next, NESTING, false, &mut budget));
            budget = budget.saturating_sub(1);
        }
        state.elements = elements;
        state
    }

    /// The names of a state, and how much of it is to be blocked.
    fn empty_state(&mut self) -> State {
        self.busy = self.pick(&[1, 2, 2, 3, 5, 9]);
        self.blocked = self.between(1, 4);
        let free = self.pick(&[0, 1, 2, 3, 3, 5, 8, 1_024]);
        let more = self.pick(&[0, 0, 1, 2, 300]);
        let next = if self.one_in(20) { 4_096 } else { free + more };
        State {
            free,
            next,
            elements: Vec::new(),
        }
    }

    /// A state that nests deeper than a result may, mostly no deeper than the listing reads: a column of ambients with a few
    /// elements in each of their lists. It may hold a blocked pair.
    pub fn nested_state(&mut self) -> State {
        let mut state = self.empty_state();
        state.next = state.next.max(1);
        let nesting = self.between(NESTING + 1, LISTED_NESTING + 1);
        let open = self.between(1, 2 * nesting);
        state.elements = self.column(state.next, nesting, open, false);
        state
    }

    /// The list with a column of so many ambients, of which so many of the outer ones are not blocked.
    fn column(&mut self, names: u16, nesting: usize, open: usize, blocked: bool) -> Vec<Element> {
        let mut budget = self.below(4);
        let mut list = self.elements(names, nesting.min(2), blocked, &mut budget);
        if nesting > 0 {
            let blocked = open == 0;
            let contents = self.column(names, nesting - 1, open.saturating_sub(1), blocked);
            let index = self.below(list.len() + 1);
            let name = self.name(names);
            list.insert(
                index,
                Element::Ambient {
                    blocked,
                    name,
                    contents,
                },
            );
        }
        list
    }

    pub fn bytes(&mut self, count: usize) -> Vec<u8> {
        (0..count).map(|_| self.below(256) as u8).collect()
    }
}

/// The job with one free name if it has none.
pub fn with_name(job: Job) -> Job {
    let free = job.free.max(LEAST_FREE);
    Job { free, ..job }
}

/// The kinds that send or move, each answered by one other.
const SENDERS: [Kind; 4] = [
    Kind::SiblingOutput,
    Kind::ParentOutput,
    Kind::Enter,
    Kind::Leave,
];
