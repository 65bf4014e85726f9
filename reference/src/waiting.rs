// States and jobs in which actions wait for one: its partners, and others that are none by one thing each.

use crate::cases::{loaded, play};
use crate::comparison::{asked_places, Call, Caller};
use crate::dice::{Counts, Dice};
use crate::machine::{answer, partner_places, NO_PARTNER};
use crate::partners::stands;
use crate::shapes::{acting, ambient, copies, in_ambient, parallel, restriction, root, TIMED_RUN};
use crate::spelling::{Spelled, LONGEST, NESTING, STATE_DEPTH};
use crate::tree::{Action, Element, Job, Kind, Process, Reference, State, MOST_COUNT};

/// What waits for an action: a partner, or what is none by one thing.
#[derive(Clone, Copy, Debug, PartialEq, Eq, PartialOrd, Ord)]
pub enum Waiting {
    Partner,
    OtherKind,
    OtherChannel,
    /// Meant for another ambient than the action's, or in another than the action is meant for.
    OtherName,
    OtherCount,
    /// Directly beside the action.
    TooNear,
    /// In an ambient where a partner could stand.
    TooDeep,
    /// As a partner could stand one list further out.
    TooFar,
    /// As a partner could stand in another list that is as deep.
    OtherList,
    Unblocked,
}

impl Waiting {
    const ALL: [Waiting; 10] = [
        Waiting::Partner,
        Waiting::OtherKind,
        Waiting::OtherChannel,
        Waiting::OtherName,
        Waiting::OtherCount,
        Waiting::TooNear,
        Waiting::TooDeep,
        Waiting::TooFar,
        Waiting::OtherList,
        Waiting::Unblocked,
    ];

    /// What can wait for an action of this kind.
    pub fn for_kind(kind: Kind) -> Vec<Waiting> {
        let has_name = kind.has_target() || answer(kind).has_target();
        let can_wait = |waiting: &Waiting| match waiting {
            Waiting::OtherName => has_name,
            Waiting::OtherCount => kind.has_count(),
            _ => true,
        };
        Waiting::ALL.into_iter().filter(can_wait).collect()
    }
}

/// A state in which others wait for an action of this kind, and how many of them are partners as it was made.
pub struct Waited {
    pub kind: Kind,
    pub state: State,
    pub partners: u16,
}

impl Waited {
    /// The place of the action.
    pub fn place(&self) -> u16 {
        let is_it = |element: &Element| match element {
            Element::Process(Process::Action(action, _)) => {
                action.kind == self.kind && action.channel == Reference::Name(CHANNEL)
            }
            _ => false,
        };
        let stands = stands(&self.state);
        let place = stands.iter().position(|stand| is_it(stand.element));
        place.expect("the action stands somewhere") as u16
    }

    /// The partners of places, steps of the action with none, with its lowest and with its highest partner, and a
    /// run of one step.
    fn calls(&self) -> Vec<Call> {
        let place = self.place();
        let asked = asked_places(&self.state.encode(), usize::from(place));
        let mut calls: Vec<Call> = asked.into_iter().map(Call::Partners).collect();
        if !calls.contains(&Call::Partners(place)) {
            calls.push(Call::Partners(place));
        }
        let partners = partner_places(&self.state, place);
        let ends = partners.first().into_iter().chain(partners.last());
        calls.push(Call::Step(place, NO_PARTNER));
        calls.extend(ends.map(|partner| Call::Step(place, *partner)));
        calls.dedup();
        calls.push(Call::Run(1));
        calls
    }
}

/// Shows states in which actions wait to the visitor, with the calls to make on them. Each round adds as many
/// random ones again.
pub fn every_waiting(seed: u64, rounds: usize, visit: Caller) {
    let mut dice = Dice::new(Counts::All, seed);
    let mut show = |group, waited: &Waited| visit(group, &waited.state.encode(), &waited.calls());
    each_alone(&mut dice, &mut |_, waited| show("one that waits", waited));
    for waited in crowds() {
        show("thousands that wait", &waited);
    }
    some_scenes(&mut dice, rounds * SCENES, &mut |waited| {
        show("some that wait", waited)
    });
    plays(&mut dice, rounds * PLAYS, visit);
}

/// How many jobs are played in a round.
const PLAYS: usize = 240;

/// States on the way of random plays of so many jobs in which some wait.
fn plays(dice: &mut Dice, count: usize, visit: Caller) {
    for turn in 0..count {
        let waiting = dice.between(2, 9);
        let state = loaded(waiting_job(Kind::ALL[turn % 8], waiting, 4));
        let mut turn = turn;
        play(dice, state, 60, &mut |_, state, choice| {
            let bytes = state.encode();
            let steps = choice.map(|(place, partner)| Call::Step(place, partner));
            let asked = asked_places(&bytes, turn).into_iter().map(Call::Partners);
            let calls: Vec<Call> = steps.into_iter().chain(asked).collect();
            visit("played while some wait", &bytes, &calls);
            turn += 1;
        });
    }
}

/// The names of a scene: of the ambient that an action is meant for, of channels, and how many there are.
const TARGET: u16 = 1;
const CHANNEL: u16 = 2;
const OTHER_CHANNEL: u16 = 3;
const NAMES: u16 = 8;

/// Whether an action of this kind stands in an ambient that takes part.
fn stands_in_ambient(kind: Kind) -> bool {
    !matches!(kind, Kind::InternalInput | Kind::Release)
}

/// An action of this kind and count that is meant for the ambient of this name, if for any.
fn made(kind: Kind, count: u8, target: u16, channel: u16) -> Action {
    let names = [target, channel, 4, 5, 6, 7];
    Action::counted(kind, count, &names[usize::from(!kind.has_target())..])
}

/// An action and the list where the ambients that take part stand, with what waits in it, beside the action, and
/// in the list around.
struct Scene {
    action: Action,
    /// How many names are handed over or taken, if any are.
    count: u8,
    /// The name of the action's ambient.
    own: u16,
    list: Vec<Element>,
    near: Vec<Element>,
    far: Vec<Element>,
    /// One of so many is put in an ambient of its own.
    spread: usize,
    /// How many partners were put in.
    partners: u16,
}

impl Scene {
    fn new(dice: &mut Dice, kind: Kind, own: u16) -> Scene {
        let count = dice.count();
        Scene {
            action: made(kind, count, TARGET, CHANNEL),
            count,
            own,
            list: Vec::new(),
            near: Vec::new(),
            far: Vec::new(),
            spread: dice.pick(&[1, 3, 50]),
            partners: 0,
        }
    }

    fn answer(&self) -> Kind {
        answer(self.action.kind)
    }

    /// The action that waits, with a random process behind it.
    fn element(&self, dice: &mut Dice, waiting: Waiting) -> Element {
        let (kind, own) = (self.action.kind, self.own);
        let is_other = |other: &Kind| ![kind, answer(kind)].contains(other);
        let others: Vec<Kind> = Kind::ALL.into_iter().filter(is_other).collect();
        let (mut other, mut count) = (answer(kind), self.count);
        let (mut target, mut channel) = (own, CHANNEL);
        match waiting {
            Waiting::OtherKind => other = dice.pick(&others),
            Waiting::OtherChannel => channel = OTHER_CHANNEL,
            Waiting::OtherName => target = dice.pick(&[1 - own, 4]),
            Waiting::OtherCount => {
                let more = dice.between(1, usize::from(MOST_COUNT)) as u8;
                count = (count + more) % (MOST_COUNT + 1);
            }
            _ => {}
        }
        let action = made(other, count, target, channel);
        dice.acting(action, NAMES, waiting != Waiting::Unblocked)
    }

    /// The name of an ambient for what waits.
    fn host_name(&self, dice: &mut Dice, waiting: Waiting) -> u16 {
        match (self.action.target, waiting) {
            (Some(_), Waiting::OtherName) => dice.pick(&[0, 4]),
            (Some(target), _) => target.name(),
            (None, _) => dice.pick(&[0, 1, 4]),
        }
    }

    fn add(&mut self, dice: &mut Dice, waiting: Waiting) {
        self.partners += u16::from(waiting == Waiting::Partner);
        let element = self.element(dice, waiting);
        let name = self.host_name(dice, waiting);
        let has_host = stands_in_ambient(self.answer());
        let hosted = |element| match has_host {
            true => ambient(name, vec![element]),
            false => element,
        };
        match waiting {
            Waiting::TooNear => insert(dice, &mut self.near, element),
            Waiting::TooFar => insert(dice, &mut self.far, hosted(element)),
            Waiting::OtherList => {
                let list = ambient(dice.pick(&[0, 1, 4]), vec![hosted(element)]);
                insert(dice, &mut self.far, list)
            }
            Waiting::TooDeep => self.put(dice, name, ambient(name, vec![element])),
            _ => self.put(dice, name, element),
        }
    }

    /// Puts the element where a partner could stand: in the list, or in an ambient there that has this name, a
    /// new one or another.
    fn put(&mut self, dice: &mut Dice, name: u16, element: Element) {
        if !stands_in_ambient(self.answer()) {
            return insert(dice, &mut self.list, element);
        }
        let spread = self.spread;
        let hosts = self.list.iter_mut().filter_map(|host| match host {
            Element::Ambient {
                name: other,
                contents,
                ..
            } if *other == name => Some(contents),
            _ => None,
        });
        let mut hosts: Vec<&mut Vec<Element>> = hosts.collect();
        if hosts.is_empty() || dice.one_in(spread) {
            return insert(dice, &mut self.list, ambient(name, vec![element]));
        }
        let index = dice.below(hosts.len());
        insert(dice, hosts[index], element);
    }

    /// Puts something that has no part in it somewhere; the same action, if it is behind something else, beside it.
    fn fill(&mut self, dice: &mut Dice) {
        let null = || Box::new(Process::Null);
        let same = || Process::Action(self.action, null());
        let sort = dice.below(7);
        let element = match sort {
            0 => Element::Process(Process::Null),
            1 => ambient(dice.pick(&[0, 1, 4]), Vec::new()),
            2 => dice.acting(made(Kind::Release, 1, 0, 5), NAMES, true),
            3 => dice.acting(made(Kind::Accept, 1, 0, 6), NAMES, false),
            4 => Element::Process(Process::Replication(self.action, null())),
            5 => Element::Process(parallel(same(), Process::Null)),
            _ => Element::Process(restriction(same())),
        };
        if sort > 3 || dice.one_in(3) {
            insert(dice, &mut self.near, element);
        } else {
            insert(dice, &mut self.list, element);
        }
    }

    /// The state with the list inside so many ambients.
    fn waited(self, dice: &mut Dice, levels: usize) -> Waited {
        let Scene {
            mut list,
            mut near,
            far,
            ..
        } = self;
        let kind = self.action.kind;
        let acting = dice.acting(self.action, NAMES, false);
        insert(dice, &mut near, acting);
        if stands_in_ambient(kind) {
            insert(dice, &mut list, ambient(self.own, near));
        } else {
            near.into_iter()
                .for_each(|element| insert(dice, &mut list, element));
        }
        let mut far = far.into_iter();
        for _ in 0..levels {
            list = vec![ambient(dice.pick(&[0, 1, 4]), list)];
            // They stand around the innermost ambient.
            far.by_ref()
                .for_each(|element| insert(dice, &mut list, element));
        }
        shut(dice, &mut list);
        // There is nothing to leave at the root.
        let meets = levels > 0 || !matches!(kind, Kind::Leave | Kind::Release);
        Waited {
            kind,
            state: root(NAMES, list),
            partners: if meets { self.partners } else { 0 },
        }
    }
}

/// Puts the element anywhere in the list.
fn insert(dice: &mut Dice, list: &mut Vec<Element>, element: Element) {
    let index = dice.below(list.len() + 1);
    list.insert(index, element);
}

/// Blocks some of the ambients that can be.
fn shut(dice: &mut Dice, list: &mut [Element]) {
    for element in list {
        if let Element::Ambient {
            blocked, contents, ..
        } = element
        {
            shut(dice, contents);
            *blocked = contents.iter().all(Element::is_blocked) && dice.one_in(2);
        }
    }
}

/// How many ambients a list stands in: none, some, or as many as leave two levels for what is in it.
const LEVELS: [usize; 4] = [0, 1, 2, NESTING - 2];

/// Everything that can wait for an action of each kind, alone and with partners, the list in ambients and not.
pub fn each_alone(dice: &mut Dice, visit: &mut dyn FnMut(Waiting, &Waited)) {
    for kind in Kind::ALL {
        for waiting in Waiting::for_kind(kind) {
            for turn in 0..4 * 2 * LEVELS.len() {
                let partners = [0, 1, 2, 4][turn % 4];
                let mut scene = Scene::new(dice, kind, (turn / 4 % 2) as u16);
                for waiting in [vec![Waiting::Partner; partners], vec![waiting]].concat() {
                    scene.add(dice, waiting);
                }
                visit(waiting, &scene.waited(dice, LEVELS[turn / 8]));
            }
        }
    }
}

/// How many scenes are thrown in a round; of so many eight are larger.
const SCENES: usize = 16_000;
const LARGER: usize = 80;

/// So many scenes of all sorts: none, one or some partners among others.
pub fn some_scenes(dice: &mut Dice, count: usize, visit: &mut dyn FnMut(&Waited)) {
    for turn in 0..count {
        let kind = Kind::ALL[turn % 8];
        let own = dice.below(2) as u16;
        let mut scene = Scene::new(dice, kind, own);
        let (partners, others) = if turn % LARGER < 8 {
            (dice.below(120), dice.below(120))
        } else {
            (dice.pick(&[0, 0, 1, 1, 2, 3, 5]), dice.below(5))
        };
        let sorts = Waiting::for_kind(kind);
        let others = (0..others).map(|_| dice.pick(&sorts));
        let others: Vec<Waiting> = others.collect();
        for waiting in [vec![Waiting::Partner; partners], others].concat() {
            scene.add(dice, waiting);
            if dice.one_in(4) {
                scene.fill(dice);
            }
        }
        let levels = dice.pick(&[0, 1, 1, 2, NESTING - 2]);
        visit(&scene.waited(dice, levels));
    }
}

/// How the crowds of a long state are made up: which of so many is a partner.
type Pattern = fn(usize, usize) -> bool;

const PATTERNS: [Pattern; 7] = [
    |_, _| true,
    |index, _| index % 3 > 0,
    |_, _| false,
    |index, _| index == 0,
    |index, count| index == count / 2,
    |index, count| index + 1 == count,
    |index, _| index % 3 == 1,
];

/// Long states for every kind: all that wait are partners, two of three, none, the first alone, one in the middle,
/// the last alone, and one of three; in one ambient, in one each, and seven in each, where partners stand in
/// ambients. The action stands in front and behind by turns.
pub fn crowds() -> Vec<Waited> {
    let mut crowds = Vec::new();
    for kind in Kind::ALL {
        let spreads: &[usize] = if stands_in_ambient(answer(kind)) {
            &[1, 7, LONGEST]
        } else {
            &[1]
        };
        for each in spreads {
            for pattern in PATTERNS {
                let is_behind = crowds.len() % 2 == 1;
                crowds.push(crowd(kind, LONGEST, *each, is_behind, pattern));
            }
        }
    }
    crowds
}

/// A state of at most so many bytes in which as many as fit wait for an action of this kind, so many in each
/// ambient, where partners stand in ambients. Those that are no partners are on another channel.
pub fn crowd(kind: Kind, size: usize, each: usize, is_behind: bool, pattern: Pattern) -> Waited {
    let waiting = |is_partner: bool| {
        let channel = if is_partner { CHANNEL } else { OTHER_CHANNEL };
        Element::BlockedAction(made(answer(kind), 1, TARGET, channel), Process::Null)
    };
    let state = |count: usize| {
        let element = |index| waiting(pattern(index, count));
        let elements: Vec<Element> = (0..count).map(element).collect();
        let hosts = elements.chunks(each).map(|some| Element::Ambient {
            blocked: true,
            name: TARGET,
            contents: some.to_vec(),
        });
        let mut list: Vec<Element> = if stands_in_ambient(answer(kind)) {
            hosts.collect()
        } else {
            elements
        };
        let action = made(kind, 1, TARGET, CHANNEL);
        let acting = Element::Process(Process::Action(action, Box::new(Process::Null)));
        let acting = if stands_in_ambient(kind) {
            ambient(TARGET, vec![acting])
        } else {
            acting
        };
        let index = if is_behind { list.len() } else { 0 };
        list.insert(index, acting);
        if matches!(kind, Kind::Leave | Kind::Release) {
            list = vec![ambient(TARGET, list)];
        }
        root(NAMES, list)
    };
    let [none, one] = [0, 1].map(|count| state(count).encode().len());
    let action = waiting(true).encode().len();
    // The length of the heads of the ambients around those that wait, for each of them.
    let head = one - none - action;
    let room = size - none;
    let count = if each >= LONGEST {
        (room - head) / action
    } else {
        let whole = room / (each * action + head);
        whole * each
    };
    let partners = (0..count).filter(|index| pattern(*index, count));
    Waited {
        kind,
        state: state(count),
        partners: partners.count() as u16,
    }
}

/// A job in which so many wait for an action of this kind, and then it meets some of them, one after another: at
/// most so many, and one alone if it moves.
pub fn waiting_job(kind: Kind, count: usize, meetings: usize) -> Job {
    let names = |kind: Kind, target: u16| {
        let names = [target, CHANNEL, 4];
        names[usize::from(!kind.has_target())..].to_vec()
    };
    let other = answer(kind);
    // The action stands in the ambient 0, if in any, those that wait in others.
    let one = acting(other, &names(other, 0), Process::Null);
    let waiting = match other {
        Kind::Enter | Kind::Leave => copies(&in_ambient(TARGET, one), count),
        Kind::InternalInput | Kind::Release => copies(&one, count),
        _ => in_ambient(TARGET, copies(&one, count)),
    };
    let meets = |after, _| acting(kind, &names(kind, TARGET), after);
    let chain = (0..meetings).fold(Process::Null, meets);
    let chain = if stands_in_ambient(kind) {
        in_ambient(0, chain)
    } else {
        chain
    };
    let both = parallel(waiting, chain);
    let process = match kind {
        Kind::Leave | Kind::Release => in_ambient(4, both),
        _ => both,
    };
    Job { free: 5, process }
}

/// The steps of a run of the states below.
pub const TAKING: u16 = 300;

/// A state of about as many bytes as others for timing a run have: outputs wait in an ambient, and inputs in front of
/// it take the lowest of them, one at nearly each of the steps. All that wait are partners, or as many of the last
/// as are taken at most.
pub fn taking_state(is_first: bool) -> State {
    let output =
        |channel| Element::BlockedAction(made(Kind::ParentOutput, 1, 0, channel), Process::Null);
    let takes = |after, _| acting(Kind::InternalInput, &[CHANNEL], after);
    let chain = Element::Process((0..LONGEST_CHAIN).fold(Process::Null, takes));
    let chains = usize::from(TAKING) / LONGEST_CHAIN + 1;
    let mut elements = vec![chain; chains];
    let taken = chains * LONGEST_CHAIN;
    let room = TIMED_RUN - root(NAMES, elements.clone()).encode().len();
    let count = room / output(CHANNEL).encode().len();
    let is_partner = |index: usize| is_first || index + taken >= count;
    let waiting = (0..count).map(|index| match is_partner(index) {
        true => output(CHANNEL),
        false => output(OTHER_CHANNEL),
    });
    elements.push(Element::Ambient {
        blocked: true,
        name: 0,
        contents: waiting.collect(),
    });
    root(NAMES, elements)
}

/// How many actions stand behind each other in a process of a state at most, one fewer than may.
const LONGEST_CHAIN: usize = STATE_DEPTH - 2;
