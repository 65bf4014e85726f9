// The machine: weight, the writing of a job, loading, the step, the listing and the run.

use crate::naming::Naming;
use crate::partners::count_partners;
use crate::refusal::*;
use crate::spelling::{read_job, read_nested, read_process, read_state, Spelled};
use crate::spelling::{LISTED_NESTING, LONGEST, MOST_NAMES, NESTING, STATE_DEPTH};
use crate::tree::{Action, Element, Job, Kind, Process, Reference, State};

/// Stands for no partner in a choice.
pub const NO_PARTNER: u16 = 65_535;

/// How the partner stands to an action.
#[derive(Clone, Copy, PartialEq, Eq)]
enum Standing {
    /// In another ambient of the list that holds the action's ambient.
    Beside,
    /// In the list that holds the action's ambient.
    Around,
    /// In an ambient of the list that holds the action.
    Within,
}

/// One row for each kind, in the order of the kinds: the kind that answers it, how the partner
/// stands, and the rule when this side acts. Odd rules are the sender's or mover's.
const TABLE: [(Kind, Standing, u8); 8] = [
    (Kind::ExternalInput, Standing::Beside, 35),
    (Kind::InternalInput, Standing::Around, 37),
    (Kind::ParentOutput, Standing::Within, 38),
    (Kind::SiblingOutput, Standing::Beside, 36),
    (Kind::Accept, Standing::Beside, 39),
    (Kind::Release, Standing::Around, 41),
    (Kind::Enter, Standing::Beside, 40),
    (Kind::Leave, Standing::Within, 42),
];

/// The kind that answers this one.
pub fn answer(kind: Kind) -> Kind {
    TABLE[kind as usize].0
}

/// The weight of a state, which is 0 when all is blocked.
pub fn weight(state: &State) -> u32 {
    state.elements.iter().map(element_weight).sum()
}

fn element_weight(element: &Element) -> u32 {
    match element {
        Element::Ambient {
            blocked: false,
            contents,
            ..
        } => 1 + contents.iter().map(element_weight).sum::<u32>(),
        Element::Process(process) => process_weight(process),
        _ => 0,
    }
}

fn process_weight(process: &Process) -> u32 {
    match process {
        Process::Null | Process::Action(..) => 1,
        Process::Parallel(left, right) => 1 + process_weight(left) + process_weight(right),
        Process::Restriction(part) => 1 + process_weight(part),
        Process::Ambient(_, part) => 2 + process_weight(part),
        Process::Replication(..) => 2,
    }
}

/// Reads a state and weighs it.
pub fn weigh(state: &[u8]) -> Result<u32, u8> {
    Ok(weight(&read_state(state)?))
}

/// Writes the job with this count of free names and the process; gives its length.
pub fn write_job(free: u16, process: &[u8], out: &mut [u8]) -> Result<usize, u8> {
    let process = read_process(free, process)?;
    deliver(&Job { free, process }.encode(), out)
}

/// The name of the ambient that a job's process is loaded in.
pub const CABINET: u16 = 0;

/// Writes the state that a job starts as: its process in one ambient, the cabinet. Gives its length. Only here a job is
/// refused in which a free name is an ambient's and a channel.
pub fn load(job: &[u8], out: &mut [u8]) -> Result<usize, u8> {
    let job = read_job(job)?;
    if Naming::of(&job).is_mixed_up() {
        return Err(BOX_AND_CHANNEL);
    }
    let cabinet = Element::Ambient {
        blocked: false,
        name: CABINET,
        contents: vec![Element::Process(job.process)],
    };
    let state = State {
        free: job.free,
        next: job.free,
        elements: vec![cabinet],
    };
    deliver(&state.encode(), out)
}

/// Takes one step by the choice given; gives the rule and the length of the result.
pub fn step(state: &[u8], place: u16, partner: u16, out: &mut [u8]) -> Result<(u8, usize), u8> {
    let (rule, next) = advance(&read_state(state)?, place, partner)?;
    Ok((rule, deliver(&next.encode(), out)?))
}

/// Writes the places that can act, two bytes each; gives how many bytes that is. Only here a state may nest deeper than a
/// result.
pub fn list(state: &[u8], out: &mut [u8]) -> Result<usize, u8> {
    let places = acting_places(&read_nested(state, LISTED_NESTING)?);
    let bytes: Vec<u8> = places
        .iter()
        .flat_map(|place| place.to_be_bytes())
        .collect();
    deliver(&bytes, out)
}

/// Puts a result at the front of the output, or nothing if it does not fit.
pub fn deliver(result: &[u8], out: &mut [u8]) -> Result<usize, u8> {
    if result.len() > LONGEST.min(out.len()) {
        return Err(RESULT_TOO_LONG);
    }
    out[..result.len()].copy_from_slice(result);
    Ok(result.len())
}

#[derive(Clone, Copy, Debug, PartialEq, Eq)]
pub enum Ending {
    Blocked,
    Spent,
    /// 11, 12 or 13.
    Limit(u8),
}

impl Ending {
    /// 0 for all blocked, 1 for a spent budget, or the limit's number.
    pub fn number(self) -> u8 {
        match self {
            Ending::Blocked => 0,
            Ending::Spent => 1,
            Ending::Limit(number) => number,
        }
    }
}

#[derive(Clone, Copy, Debug, PartialEq, Eq)]
pub struct Run {
    pub ending: Ending,
    pub steps: u16,
    pub length: usize,
}

/// Runs to an ending and writes the last good state.
pub fn run(state: &[u8], budget: u16, out: &mut [u8]) -> Result<Run, u8> {
    run_watched(state, budget, out, &mut |_| {})
}

/// A step of a run: the choice, the rule, and the states before it and after it.
pub struct Turn<'run> {
    pub place: u16,
    pub partner: u16,
    pub rule: u8,
    pub before: &'run State,
    pub after: &'run State,
}

/// Runs as above and shows the watcher each step.
pub fn run_watched(
    bytes: &[u8],
    budget: u16,
    out: &mut [u8],
    watcher: &mut dyn FnMut(&Turn),
) -> Result<Run, u8> {
    let mut state = read_state(bytes)?;
    let mut last = bytes.to_vec();
    if last.len() > out.len() {
        return Err(RESULT_TOO_LONG);
    }
    let mut steps = 0;
    let ending = loop {
        let Some((place, partner)) = lowest_choice(&state) else {
            break Ending::Blocked;
        };
        if steps == budget {
            break Ending::Spent;
        }
        let (rule, next) = match advance(&state, place, partner) {
            Ok(outcome) => outcome,
            Err(number) => break Ending::Limit(number),
        };
        let encoded = next.encode();
        if encoded.len() > LONGEST.min(out.len()) {
            break Ending::Limit(RESULT_TOO_LONG);
        }
        watcher(&Turn {
            place,
            partner,
            rule,
            before: &state,
            after: &next,
        });
        (state, last, steps) = (next, encoded, steps + 1);
    };
    let length = deliver(&last, out)?;
    Ok(Run {
        ending,
        steps,
        length,
    })
}

/// What the program prints for a job.
pub fn session(job: &[u8]) -> String {
    session_counting(job, |turn| count_partners(turn.before, turn.place).count)
}

/// The like with this number last on the line of each step.
pub fn session_counting(job: &[u8], number: impl Fn(&Turn) -> u16) -> String {
    session_loading(job, load, number)
}

/// The like with the state that this makes of the job.
pub fn session_loading(
    job: &[u8],
    load: impl Fn(&[u8], &mut [u8]) -> Result<usize, u8>,
    number: impl Fn(&Turn) -> u16,
) -> String {
    let mut loaded = vec![0; LONGEST];
    let mut out = vec![0; LONGEST];
    let mut text = String::new();
    let ended = load(job, &mut loaded).and_then(|length| {
        run_watched(&loaded[..length], 65_535, &mut out, &mut |turn| {
            let partner = match turn.partner {
                NO_PARTNER => "-".to_string(),
                partner => partner.to_string(),
            };
            let (place, rule, number) = (turn.place, turn.rule, number(turn));
            text += &format!("{place} {partner} {rule} {number}\n");
        })
    });
    match ended {
        Err(number) => format!("{number}\n"),
        Ok(Run {
            ending,
            steps,
            length,
        }) => {
            let ending = match ending {
                Ending::Blocked => "blocked".to_string(),
                Ending::Spent => "spent".to_string(),
                Ending::Limit(number) => number.to_string(),
            };
            let weight = weigh(&out[..length]).expect("a run leaves a good state");
            format!("{text}{ending} {steps} {weight}\n")
        }
    }
}

/// The positions in the nested lists that lead from the root to an element.
pub type Path = Vec<usize>;

/// The paths of all elements, in the order of their places.
pub fn paths(state: &State) -> Vec<Path> {
    fn gather(list: &[Element], path: &mut Path, paths: &mut Vec<Path>) {
        for (index, element) in list.iter().enumerate() {
            path.push(index);
            paths.push(path.clone());
            if let Some((_, contents)) = element.ambient() {
                gather(contents, path, paths);
            }
            path.pop();
        }
    }
    let mut paths = Vec::new();
    gather(&state.elements, &mut Vec::new(), &mut paths);
    paths
}

/// The contents of the ambient the path leads to, or the root.
fn list_at<'tree>(root: &'tree [Element], path: &[usize]) -> &'tree [Element] {
    path.iter().fold(root, |list, index| {
        list[*index].ambient().expect("an ambient on the path").1
    })
}

fn changeable_list_at<'tree>(
    root: &'tree mut Vec<Element>,
    path: &[usize],
) -> &'tree mut Vec<Element> {
    path.iter()
        .fold(root, |list, index| match &mut list[*index] {
            Element::Ambient { contents, .. } => contents,
            _ => panic!("an ambient on the path"),
        })
}

/// The list that holds the element at the path, and where in it the element stands.
fn split(path: &[usize]) -> (usize, &[usize]) {
    let (index, list) = path.split_last().expect("a path is never empty");
    (*index, list)
}

/// The element the path leads to.
pub fn element_at<'tree>(root: &'tree [Element], path: &[usize]) -> &'tree Element {
    let (index, list) = split(path);
    &list_at(root, list)[index]
}

/// Whether no cause of 8 holds at the element.
pub fn can_act(element: &Element) -> bool {
    match element {
        Element::Ambient {
            blocked, contents, ..
        } => !blocked && contents.iter().all(Element::is_blocked),
        Element::Process(_) => true,
        Element::BlockedAction(..) => false,
    }
}

/// The places that can act, ascending.
pub fn acting_places(state: &State) -> Vec<u16> {
    let paths = paths(state);
    let places = paths.iter().zip(0..);
    let acting = places.filter(|(path, _)| can_act(element_at(&state.elements, path)));
    acting.map(|(_, place)| place).collect()
}

/// The places of the blocked partners of the action at the place, ascending.
pub fn partner_places(state: &State, place: u16) -> Vec<u16> {
    let paths = paths(state);
    let partners = partners(&state.elements, &paths[usize::from(place)]);
    let places = paths.iter().zip(0..);
    // The partners come in the order of their places, which is that of their paths.
    let chosen = places.filter(|(path, _)| partners.binary_search(path).is_ok());
    chosen.map(|(_, place)| place).collect()
}

/// A place, and a partner's place or 65,535.
pub type Choice = (u16, u16);

/// The lowest place that can act, with its lowest partner or none.
pub fn lowest_choice(state: &State) -> Option<Choice> {
    let place = *acting_places(state).first()?;
    Some((place, lowest_partner(state, place)))
}

/// The lowest partner of the place, or 65,535 if it has none.
pub fn lowest_partner(state: &State, place: u16) -> u16 {
    let partners = partner_places(state, place);
    partners.first().copied().unwrap_or(NO_PARTNER)
}

/// The paths of the blocked partners of the action at the path, in order; none if it is no action.
fn partners(root: &[Element], path: &[usize]) -> Vec<Path> {
    let action = match element_at(root, path) {
        Element::Process(Process::Action(action, _)) => action,
        Element::BlockedAction(action, _) => action,
        _ => return Vec::new(),
    };
    let (answer, standing, _) = TABLE[action.kind as usize];
    // The list where the ambients that take part stand, and which of them holds the action.
    let own_list = split(path).1;
    let (own_ambient, meeting) = match standing {
        Standing::Within => (None, own_list),
        _ if own_list.is_empty() => return Vec::new(),
        _ => (Some(split(own_list).0), split(own_list).1),
    };
    // There is nothing to leave at the root.
    if meeting.is_empty() && matches!(action.kind, Kind::Leave | Kind::Release) {
        return Vec::new();
    }
    let list = list_at(root, meeting);
    let own_name = own_ambient
        .and_then(|own| list[own].ambient())
        .map(|(name, _)| name);
    let answers = |element: &Element, name: Option<u16>| {
        element.blocked_action().is_some_and(|partner| {
            partner.kind == answer
                && partner.channel == action.channel
                && partner.count() == action.count()
                && is_meant_for(action, name)
                && is_meant_for(partner, own_name)
        })
    };
    let mut found = Vec::new();
    for (index, element) in list.iter().enumerate() {
        if standing == Standing::Around {
            if answers(element, None) {
                found.push([meeting, &[index]].concat());
            }
            continue;
        }
        // An ambient is never its own sibling.
        if own_ambient == Some(index) {
            continue;
        }
        let Some((name, contents)) = element.ambient() else {
            continue;
        };
        for (inner, element) in contents.iter().enumerate() {
            if answers(element, Some(name)) {
                found.push([meeting, &[index, inner]].concat());
            }
        }
    }
    found
}

/// Whether the action has no target, or the ambient of this name is its target.
fn is_meant_for(action: &Action, name: Option<u16>) -> bool {
    action
        .target
        .is_none_or(|target| Some(target.name()) == name)
}

/// One step on the tree: the rule and the result, or a refusal from 8 to 12.
pub fn advance(state: &State, place: u16, partner: u16) -> Result<(u8, State), u8> {
    let (rule, next) = advance_at_any_depth(state, place, partner)?;
    if next.depth() > STATE_DEPTH || next.nesting() > NESTING {
        return Err(RESULT_TOO_DEEP);
    }
    Ok((rule, next))
}

/// The like without the limits of depth and nesting.
pub fn advance_at_any_depth(state: &State, place: u16, partner: u16) -> Result<(u8, State), u8> {
    let paths = paths(state);
    let acts = |path: &&Path| can_act(element_at(&state.elements, path));
    let path = paths.get(usize::from(place)).filter(acts);
    let path = path.ok_or(CANNOT_ACT)?;
    let partners = partners(&state.elements, path);
    let mut next = state.clone();
    let rule = if partner == NO_PARTNER {
        if !partners.is_empty() {
            return Err(PARTNER_EXISTS);
        }
        act_alone(&mut next, path)?
    } else {
        let other = paths.get(usize::from(partner));
        let other = other.filter(|other| partners.contains(other));
        meet(&mut next.elements, path, other.ok_or(NOT_A_PARTNER)?)
    };
    Ok((rule, next))
}

/// Rules 29 to 34 and 43: what comes out stands in place of what acted.
fn act_alone(state: &mut State, path: &[usize]) -> Result<u8, u8> {
    let (index, list) = split(path);
    let list = changeable_list_at(&mut state.elements, list);
    let (rule, outcome) = match list[index].clone() {
        Element::Ambient { name, contents, .. } => {
            let blocked = true;
            let ambient = Element::Ambient {
                blocked,
                name,
                contents,
            };
            (29, vec![ambient])
        }
        Element::Process(Process::Replication(action, part)) => {
            // An element has no free variable, so the copy may stand under the action's binder.
            let again = Process::Replication(action, part.clone());
            let both = Process::Parallel(part, Box::new(again));
            let process = Process::Action(action, Box::new(both));
            (30, vec![Element::Process(process)])
        }
        Element::Process(Process::Null) => (31, vec![]),
        Element::Process(Process::Parallel(left, right)) => {
            (32, vec![Element::Process(*left), Element::Process(*right)])
        }
        Element::Process(Process::Restriction(mut part)) => {
            if state.next == MOST_NAMES {
                return Err(NAMES_USED_UP);
            }
            part.substitute(0, &[state.next]);
            state.next += 1;
            (33, vec![Element::Process(*part)])
        }
        Element::Process(Process::Ambient(reference, part)) => {
            let ambient = Element::Ambient {
                blocked: false,
                name: reference.name(),
                contents: vec![Element::Process(*part)],
            };
            (34, vec![ambient])
        }
        Element::Process(Process::Action(action, part)) => {
            (43, vec![Element::BlockedAction(action, *part)])
        }
        Element::BlockedAction(..) => panic!("a blocked action cannot act"),
    };
    list.splice(index..=index, outcome);
    Ok(rule)
}

/// Rules 35 to 42: the action that acts meets its blocked partner.
fn meet(root: &mut Vec<Element>, acting: &[usize], partner: &[usize]) -> u8 {
    let kind = match element_at(root, acting) {
        Element::Process(Process::Action(action, _)) => action.kind,
        _ => panic!("only an action meets a partner"),
    };
    let rule = TABLE[kind as usize].2;
    let (sender, receiver) = if rule % 2 == 1 {
        (acting, partner)
    } else {
        (partner, acting)
    };
    let sent = go_on(root, sender, &[]);
    go_on(root, receiver, &sent);
    match kind {
        Kind::Enter | Kind::Accept => {
            // The mover goes right behind the accepter's continuation.
            let (ambient, list) = split(split(sender).1);
            let moved = take_out(changeable_list_at(root, list), ambient);
            let mut behind = receiver.to_vec();
            if ambient < behind[list.len()] {
                behind[list.len()] -= 1;
            }
            put_behind(root, &behind, moved);
        }
        Kind::Leave | Kind::Release => {
            // The mover goes right behind the ambient it leaves.
            let (ambient, list) = split(split(sender).1);
            let moved = take_out(changeable_list_at(root, list), ambient);
            put_behind(root, list, moved);
        }
        _ => {}
    }
    rule
}

/// Puts the process after the action in the action's place, with the names received for the variables
/// that the action binds, and unblocks the ambient around it. Gives the names the action hands over.
fn go_on(root: &mut Vec<Element>, path: &[usize], received: &[u16]) -> Vec<u16> {
    let (index, list) = split(path);
    let (action, mut process) = match element_at(root, path).clone() {
        Element::Process(Process::Action(action, process)) => (action, *process),
        Element::BlockedAction(action, process) => (action, process),
        _ => panic!("only an action goes on"),
    };
    if !received.is_empty() {
        process.substitute(0, received);
    }
    changeable_list_at(root, list)[index] = Element::Process(process);
    if !list.is_empty() {
        let (index, list) = split(list);
        if let Element::Ambient { blocked, .. } = &mut changeable_list_at(root, list)[index] {
            *blocked = false;
        }
    }
    action.message.references().map(Reference::name).collect()
}

/// Takes a moving ambient out of its list and unblocks the actions at its top level only.
fn take_out(list: &mut Vec<Element>, index: usize) -> Element {
    let mut moved = list.remove(index);
    if let Element::Ambient { contents, .. } = &mut moved {
        for element in contents {
            if let Element::BlockedAction(action, process) = element {
                let process = Box::new(process.clone());
                *element = Element::Process(Process::Action(*action, process));
            }
        }
    }
    moved
}

fn put_behind(root: &mut Vec<Element>, path: &[usize], element: Element) {
    let (index, list) = split(path);
    changeable_list_at(root, list).insert(index + 1, element);
}
