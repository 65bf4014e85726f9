// The cabinet that a job is loaded in: what stands at the limits of loading, and jobs in which the cabinet's name and
// its own channels matter.

use crate::cases::{cut_short, loaded, off_by_one, play, Visitor};
use crate::comparison::{asked_places, Call, Caller};
use crate::counts::bytes;
use crate::dice::{Counts, Dice};
use crate::machine::{acting_places, advance, lowest_choice, partner_places, run, Choice};
use crate::machine::{Ending, CABINET, NO_PARTNER};
use crate::partners::stands;
use crate::runs::MOST_STEPS;
use crate::shapes::*;
use crate::spelling::{Spelled, LONGEST, LONGEST_JOB};
use crate::tree::{Action, Element, Job, Kind, Process, Reference, State};

/// Counts of free names around what a job may have.
pub const FREES: [u16; 8] = [0, 1, 2, 1_023, 1_024, 1_025, 32_768, 65_535];

/// What may stand where a job's process is due, with the number that a job of one free name is refused with when it is
/// loaded, or 0. With 15 the job is written.
pub fn rests() -> Vec<(Vec<u8>, u8)> {
    let deep = |depth| job_of_depth(depth).process.encode();
    let mut rests: Vec<(Vec<u8>, u8)> = [
        ("20 0000", 0),
        ("23 0005 0000 20 0000", 0),
        ("22 0008 23 0005 8000 20 0000", 0),
        ("22 000C 24 0009 3A 0003 8000 02 20 0000", 0),
        ("24 0009 3A 0003 0000 02 20 0000", 15),
        ("", 2),
        ("20", 2),
        ("20 00", 2),
        ("20 0001", 2),
        ("FF", 2),
        ("FF 0000", 3),
        ("42 0003 20 0000", 3),
        ("20 0001 00", 4),
        ("20 0000 00", 4),
        ("20 0000 20 0000", 4),
        ("23 0005 0001 20 0000", 6),
        ("23 0005 8000 20 0000", 6),
        ("23 0005 0400 20 0000", 6),
        ("24 0009 3A 0003 0000 05 20 0000", 14),
        ("24 0009 3B 0003 0000 01 20 0000", 14),
    ]
    .map(|(text, number)| (bytes(text), number))
    .to_vec();
    rests.push((deep(32), 0));
    rests.push((deep(33), 5));
    rests.push(([deep(33), vec![0]].concat(), 5));
    rests
}

/// The bytes of a job with these parts, whatever they are.
pub fn job_of_parts(free: u16, rest: &[u8]) -> Vec<u8> {
    let length = (rest.len() + 2) as u16;
    let head = [&[0x10], &length.to_be_bytes()[..], &free.to_be_bytes()[..]].concat();
    [&head, rest].concat()
}

/// What is wrong before the count of free names, which would be 0, with the number that it is refused with.
pub const BEFORE_FREE: [(&str, u8); 14] = [
    ("10", 2),
    ("10 00", 2),
    ("10 0000", 2),
    ("10 0001 00", 2),
    // The count stands behind the field, or half of it does.
    ("10 0000 0000 20 0000", 2),
    ("10 0001 00 00 20 0000", 2),
    ("10 0000 FFFF", 2),
    ("10 0001 FF FF", 2),
    // The field goes past the end.
    ("10 0006 0000 20 0000", 2),
    ("10 FFFF 0000 20 0000", 2),
    ("10 0003 0000", 2),
    ("0F 0005 0000 20 0000", 3),
    ("11 0005 0000 20 0000", 3),
    ("20 0005 0000 20 0000", 3),
];

/// The job with no free names.
fn without_names(job: &[u8]) -> Vec<u8> {
    let mut job = job.to_vec();
    job[3..5].fill(0);
    job
}

/// Counts of free names with what is good and what is wrong behind and before them, and jobs of every length around
/// the longest that is loaded and the longest that is read, good and with something wrong in them.
pub fn at_the_limits(visit: Visitor) {
    let mut show = |bytes: &[u8]| visit("limits of loading", bytes);
    for free in FREES {
        for (rest, _) in rests() {
            let job = job_of_parts(free, &rest);
            show(&job);
            show(&[&job[..], &[0]].concat());
            // The job's field is a byte too long for the input, or for its parts.
            for change in [1, u16::MAX] {
                let mut changed = job.clone();
                let length = (rest.len() as u16 + 2).wrapping_add(change);
                changed[1..3].copy_from_slice(&length.to_be_bytes());
                show(&changed);
            }
        }
    }
    for (text, _) in BEFORE_FREE {
        show(&bytes(text));
    }
    for size in LONGEST_JOB - 1..=LONGEST + 1 {
        let job = job_of_size(size).encode();
        show(&job);
        show(&without_names(&job));
        show(&[&job[..], &[0]].concat());
        // The last field is no process.
        let mut changed = job;
        changed[size - 3] = 0xFF;
        show(&changed);
    }
    // States that are as long as may be, and longer.
    for size in LONGEST_JOB - 1..=LONGEST_JOB + 4 {
        show(&loaded(job_of_size(size)).encode());
    }
    for free in [0, 1] {
        let process = in_ambient(0, Process::Null);
        let job = Job { free, process }.encode();
        off_by_one(&job, &mut |_, bytes| show(bytes));
        cut_short(&job, &mut |_, bytes| show(bytes));
    }
}

/// The names of the jobs below: two decks, channels of leaving, of messages and of entering, a name to hand over, and
/// a channel on which the cabinet is woken. The name 0 is the cabinet's.
const DECK: u16 = 1;
const OTHER: u16 = 2;
const LEAVING: u16 = 3;
const MESSAGES: u16 = 4;
const ENTERING: u16 = 5;
const HANDED: u16 = 6;
const WAKING: u16 = 7;
const NAMES: u16 = 8;

/// An input and what comes after it, in which the name taken stands as the first reference of an action.
fn taking(kind: Kind, channel: u16, after: Kind, second: &[u16], last: Process) -> Process {
    let names = second.iter().copied().map(Reference::Name);
    let references: Vec<Reference> = [Reference::Variable(0)].into_iter().chain(names).collect();
    let action = Action::of_references(after, 1, &references);
    acting(kind, &[channel], Process::Action(action, Box::new(last)))
}

/// A deck that stands in the cabinet and leaves it; what it does then.
fn leaving_deck(then: Process) -> Process {
    in_ambient(DECK, acting(Kind::Leave, &[LEAVING], then))
}

/// The cabinet lets a deck go; what it does then.
fn releasing(then: Process) -> Process {
    acting(Kind::Release, &[LEAVING], then)
}

/// The cabinet lets a deck go and waits; what it does when the deck wakes it.
fn releasing_and_waiting(then: Process) -> Process {
    releasing(acting(Kind::ExternalInput, &[WAKING], then))
}

/// A deck that does this and then wakes the cabinet.
fn waking(first: Process) -> Process {
    let wakes = acting(
        Kind::SiblingOutput,
        &[CABINET, WAKING, HANDED],
        Process::Null,
    );
    parallel(first, wakes)
}

/// Two processes of the cabinet in which it takes part by its name or by its own channels.
fn cabinet_pairs() -> Vec<(&'static str, Process, Process)> {
    let null = || Process::Null;
    let to_cabinet = || acting(Kind::SiblingOutput, &[CABINET, MESSAGES, HANDED], null());
    let to_deck = || acting(Kind::SiblingOutput, &[DECK, MESSAGES, HANDED], null());
    let listening = || acting(Kind::ExternalInput, &[MESSAGES], null());
    // What was handed over is an ambient's name then.
    let shown = || {
        let inside = Process::Ambient(Reference::Variable(0), Box::new(null()));
        acting(Kind::ExternalInput, &[MESSAGES], inside)
    };
    let back = || acting(Kind::Enter, &[CABINET, ENTERING], null());
    let accepting = || acting(Kind::Accept, &[ENTERING], null());
    let into_deck = |then| acting(Kind::Enter, &[DECK, ENTERING], then);
    let counted = |kind, names: &[u16]| {
        let action = Action::counted(kind, 2, names);
        Process::Action(action, Box::new(null()))
    };
    vec![
        ("a deck leaves", releasing(null()), leaving_deck(null())),
        (
            "a deck that left sends to the cabinet",
            releasing(shown()),
            leaving_deck(to_cabinet()),
        ),
        (
            "the cabinet listens to what was sent to it",
            releasing_and_waiting(shown()),
            leaving_deck(waking(to_cabinet())),
        ),
        (
            "two names are sent to the cabinet",
            releasing(counted(Kind::ExternalInput, &[MESSAGES])),
            leaving_deck(counted(
                Kind::SiblingOutput,
                &[CABINET, MESSAGES, HANDED, CABINET],
            )),
        ),
        (
            "the cabinet sends to a deck that listens",
            releasing_and_waiting(to_deck()),
            leaving_deck(waking(listening())),
        ),
        (
            "a deck listens to what the cabinet sent",
            releasing(to_deck()),
            leaving_deck(listening()),
        ),
        (
            "a deck enters the cabinet again",
            releasing(accepting()),
            leaving_deck(back()),
        ),
        (
            "the cabinet accepts a deck that waits",
            releasing_and_waiting(accepting()),
            leaving_deck(waking(back())),
        ),
        (
            "a deck enters what it was told is the cabinet",
            releasing(parallel(
                acting(Kind::SiblingOutput, &[DECK, MESSAGES, CABINET], null()),
                accepting(),
            )),
            leaving_deck(taking(
                Kind::ExternalInput,
                MESSAGES,
                Kind::Enter,
                &[ENTERING],
                null(),
            )),
        ),
        (
            "a deck leaves and enters again and again",
            again(Kind::Release, &[LEAVING], accepting()),
            in_ambient(
                DECK,
                acting(
                    Kind::Leave,
                    &[LEAVING],
                    acting(
                        Kind::Enter,
                        &[CABINET, ENTERING],
                        acting(Kind::Leave, &[LEAVING], back()),
                    ),
                ),
            ),
        ),
        (
            "a deck tells the cabinet",
            acting(Kind::InternalInput, &[MESSAGES], null()),
            in_ambient(
                DECK,
                acting(Kind::ParentOutput, &[MESSAGES, HANDED], null()),
            ),
        ),
        (
            "two names are told to the cabinet",
            counted(Kind::InternalInput, &[MESSAGES]),
            in_ambient(
                DECK,
                counted(Kind::ParentOutput, &[MESSAGES, CABINET, HANDED]),
            ),
        ),
        (
            "the cabinet enters a deck and leaves it",
            releasing(into_deck(acting(Kind::Leave, &[WAKING], null()))),
            leaving_deck(acting(
                Kind::Accept,
                &[ENTERING],
                acting(Kind::Release, &[WAKING], null()),
            )),
        ),
        (
            "the cabinet enters a deck that accepts",
            releasing_and_waiting(into_deck(null())),
            leaving_deck(waking(accepting())),
        ),
        (
            "the cabinet is entered in a deck by what it let go",
            releasing(releasing(into_deck(accepting()))),
            parallel(
                leaving_deck(parallel(accepting(), accepting())),
                in_ambient(
                    OTHER,
                    acting(
                        Kind::Leave,
                        &[LEAVING],
                        acting(Kind::Enter, &[DECK, ENTERING], back()),
                    ),
                ),
            ),
        ),
        (
            "two decks that left meet outside",
            again(Kind::Release, &[LEAVING], null()),
            parallel(
                leaving_deck(shown()),
                in_ambient(OTHER, acting(Kind::Leave, &[LEAVING], to_deck())),
            ),
        ),
        // Where the cabinet is no partner.
        (
            "a deck in the cabinet sends to the cabinet's name",
            listening(),
            in_ambient(DECK, to_cabinet()),
        ),
        (
            "a deck in the cabinet would enter the cabinet",
            accepting(),
            in_ambient(DECK, back()),
        ),
        (
            "the cabinet would leave the root",
            acting(Kind::Leave, &[LEAVING], null()),
            in_ambient(DECK, releasing(null())),
        ),
        (
            "the cabinet sends to its own name",
            to_cabinet(),
            listening(),
        ),
        (
            "a deck that left sends to the cabinet on another channel",
            releasing(acting(Kind::ExternalInput, &[ENTERING], null())),
            leaving_deck(to_cabinet()),
        ),
        (
            "a deck that left tells nobody",
            releasing(acting(Kind::InternalInput, &[MESSAGES], null())),
            leaving_deck(acting(Kind::ParentOutput, &[MESSAGES, HANDED], null())),
        ),
    ]
}

/// An ambient of the cabinet's name leaves the cabinet, and sends to that name.
fn twin_job(cabinet: Process, twin: Process) -> Job {
    let twin = in_ambient(CABINET, acting(Kind::Leave, &[LEAVING], twin));
    Job {
        free: NAMES,
        process: parallel(releasing(cabinet), twin),
    }
}

/// Ambients of the cabinet's name beside the cabinet: one reaches the other, and never itself.
pub fn twin_jobs() -> Vec<(&'static str, Job)> {
    let sends = || {
        acting(
            Kind::SiblingOutput,
            &[CABINET, MESSAGES, HANDED],
            Process::Null,
        )
    };
    let listens = || acting(Kind::ExternalInput, &[MESSAGES], Process::Null);
    let enters = || acting(Kind::Enter, &[CABINET, ENTERING], Process::Null);
    let accepts = || acting(Kind::Accept, &[ENTERING], Process::Null);
    vec![
        (
            "the twin sends to itself",
            twin_job(Process::Null, parallel(sends(), listens())),
        ),
        (
            "the twin sends to the cabinet",
            twin_job(listens(), parallel(listens(), sends())),
        ),
        (
            "the cabinet sends to the twin",
            twin_job(parallel(listens(), sends()), listens()),
        ),
        (
            "the twin enters the cabinet",
            twin_job(accepts(), parallel(accepts(), enters())),
        ),
        (
            "the cabinet enters the twin",
            twin_job(parallel(accepts(), enters()), accepts()),
        ),
    ]
}

/// Deck 1 leaves the cabinet on channel 3 and sends it the name of reel 5 on channel 4; the cabinet puts a reel of
/// that name into deck 2, which accepts it on channel 6.
pub fn lent_deck() -> Job {
    let (leaving, listening, reel, own) = (3, 4, 5, 6);
    let enter = acting(Kind::Enter, &[2, own], Process::Null);
    let made = Process::Ambient(Reference::Variable(0), Box::new(enter));
    let cabinet = acting(
        Kind::Release,
        &[leaving],
        acting(Kind::ExternalInput, &[listening], made),
    );
    let sends = acting(
        Kind::SiblingOutput,
        &[CABINET, listening, reel],
        Process::Null,
    );
    let first = in_ambient(1, acting(Kind::Leave, &[leaving], sends));
    let second = in_ambient(2, acting(Kind::Accept, &[own], Process::Null));
    Job {
        free: 7,
        process: parallel(cabinet, parallel(first, second)),
    }
}

/// Jobs in which the cabinet takes part, each with the cabinet's own process in front and behind.
pub fn cabinet_jobs() -> Vec<(&'static str, Job)> {
    let mut jobs = Vec::new();
    for (name, cabinet, deck) in cabinet_pairs() {
        for process in [
            parallel(cabinet.clone(), deck.clone()),
            parallel(deck, cabinet),
        ] {
            let free = NAMES;
            jobs.push((name, Job { free, process }));
        }
    }
    jobs.push(("a lent deck", lent_deck()));
    jobs
}

/// The kinds that a deck acts by, and those that the cabinet does.
const OF_DECKS: [Kind; 11] = [
    Kind::Leave,
    Kind::Leave,
    Kind::Leave,
    Kind::SiblingOutput,
    Kind::SiblingOutput,
    Kind::Enter,
    Kind::Enter,
    Kind::ExternalInput,
    Kind::Accept,
    Kind::ParentOutput,
    Kind::ParentOutput,
];
const OF_CABINET: [Kind; 10] = [
    Kind::Release,
    Kind::Release,
    Kind::Release,
    Kind::ExternalInput,
    Kind::SiblingOutput,
    Kind::Accept,
    Kind::Accept,
    Kind::InternalInput,
    Kind::InternalInput,
    Kind::Enter,
];

/// Some actions of these kinds one after another, mostly on the channel that is for their kind, mostly of this count, and
/// many to the cabinet; now and then the first comes again and again.
fn thrown_chain(dice: &mut Dice, kinds: &[Kind], count: u8) -> Process {
    let mut actions = Vec::new();
    let mut binders = 0;
    for _ in 0..dice.between(1, 3) {
        let kind = dice.pick(kinds);
        let names = if dice.one_in(8) { dice.count() } else { count };
        let mut references = Vec::new();
        if kind.has_target() {
            references.push(if binders > 0 && dice.one_in(3) {
                Reference::Variable(0)
            } else {
                Reference::Name(dice.pick(&[CABINET, CABINET, DECK, OTHER]))
            });
        }
        let channel = match kind {
            Kind::Leave | Kind::Release => LEAVING,
            Kind::Enter | Kind::Accept => ENTERING,
            _ => MESSAGES,
        };
        let other = dice.one_in(12).then_some(MESSAGES);
        references.push(Reference::Name(other.unwrap_or(channel)));
        if kind.has_message() {
            let sent = (0..names).map(|_| Reference::Name(dice.pick(&[CABINET, DECK, HANDED])));
            references.extend(sent);
        }
        let action = Action::of_references(kind, names, &references);
        binders += u16::from(action.binds);
        actions.push(action);
    }
    let repeated = dice.one_in(16);
    let behind = |after, action: &Action| Process::Action(*action, Box::new(after));
    let chain = actions.iter().rev().fold(Process::Null, behind);
    match chain {
        Process::Action(action, after) if repeated => Process::Replication(action, after),
        chain => chain,
    }
}

/// Some of these beside each other.
fn beside(dice: &mut Dice, most: usize, kinds: &[Kind], count: u8) -> Process {
    let first = thrown_chain(dice, kinds, count);
    (1..dice.between(1, most)).fold(first, |others, _| {
        let chain = thrown_chain(dice, kinds, count);
        parallel(chain, others)
    })
}

/// A random job of decks that leave the cabinet, come back, and send to it, and of what the cabinet does itself.
pub fn thrown_job(dice: &mut Dice) -> Job {
    let count = dice.count();
    let mut process = beside(dice, 4, &OF_CABINET, count);
    if dice.one_in(2) {
        let release = acting(Kind::Release, &[LEAVING], Process::Null);
        process = parallel(copies(&release, 3), process);
    }
    for _ in 0..dice.between(1, 3) {
        let name = dice.pick(&[DECK, DECK, OTHER, OTHER, CABINET]);
        let mut deck = beside(dice, 2, &OF_DECKS, count);
        if dice.one_in(2) {
            deck = acting(Kind::Leave, &[LEAVING], deck);
        }
        let deck = in_ambient(name, deck);
        process = if dice.one_in(2) {
            parallel(deck, process)
        } else {
            parallel(process, deck)
        };
    }
    let free = NAMES;
    Job { free, process }
}

/// How many jobs are thrown in a round, and the turns of each play.
const THROWN: usize = 1_500;
const TURNS: usize = 50;

/// The budget of a run of a thrown job.
const MODEST: u16 = 300;

/// Shows the jobs, and the states on their way, to the visitor with the calls to make on them. Each round adds as many
/// random ones again.
pub fn every_cabinet(seed: u64, rounds: usize, visit: Caller) {
    by_hand(visit);
    let mut dice = Dice::new(Counts::All, seed);
    for _ in 0..rounds * THROWN {
        let job = thrown_job(&mut dice);
        thrown(&mut dice, job, visit);
    }
}

/// The jobs made by hand, and every state of their runs.
fn by_hand(visit: Caller) {
    const GROUP: &str = "decks and their cabinet";
    let jobs = cabinet_jobs().into_iter().chain(twin_jobs());
    for (turn, (_, job)) in jobs.enumerate() {
        visit(GROUP, &job.encode(), &[Call::Load]);
        visit(GROUP, &job.process.encode(), &[Call::Write(job.free)]);
        each_state(GROUP, turn, job, visit);
    }
}

/// Every state of the run of a job, with every place that can act.
pub fn each_state(group: &'static str, turn: usize, job: Job, visit: Caller) {
    let mut state = loaded(job);
    visit(group, &state.encode(), &budgets(&state));
    for _ in 0..LONGEST_RUN {
        visit(group, &state.encode(), &calls_on(&state, turn));
        let next = lowest_choice(&state).map(|(place, partner)| advance(&state, place, partner));
        match next {
            Some(Ok((_, next))) => state = next,
            _ => break,
        }
    }
}

/// All calls on a state, with a short run: a step at every place that can act, and the partners of some places.
pub fn calls_on(state: &State, turn: usize) -> Vec<Call> {
    let steps = all_choices(state).into_iter();
    let steps = steps.map(|(place, partner)| Call::Step(place, partner));
    let asked = asked_places(&state.encode(), turn).into_iter();
    let others = [Call::Weight, Call::List, Call::Run(2)].into_iter();
    let calls = others.chain(steps).chain(asked.map(Call::Partners));
    calls.collect()
}

/// The most steps of a job made by hand that are looked at.
const LONGEST_RUN: usize = 200;

/// Every place that can act, with none and with each of its partners.
pub fn all_choices(state: &State) -> Vec<Choice> {
    let mut choices = Vec::new();
    for place in acting_places(state) {
        let partners = partner_places(state, place).into_iter();
        choices.extend(partners.chain([NO_PARTNER]).map(|partner| (place, partner)));
    }
    choices
}

/// Runs of a few steps, of as many as there are, and of one fewer.
fn budgets(first: &State) -> Vec<Call> {
    let ended = run(&first.encode(), MODEST, &mut vec![0; LONGEST]);
    let ended = ended.expect("a loaded job is accepted");
    let mut budgets = vec![0, 1, 7];
    if ended.ending == Ending::Spent {
        budgets.push(MODEST);
    } else {
        budgets.extend([ended.steps.saturating_sub(1), ended.steps, MOST_STEPS]);
    }
    budgets.into_iter().map(Call::Run).collect()
}

/// Loads a job, runs it, and plays it: the states in which an action is next, and some of the others.
fn thrown(dice: &mut Dice, job: Job, visit: Caller) {
    const GROUP: &str = "played in a cabinet";
    visit(GROUP, &job.encode(), &[Call::Load]);
    let first = loaded(job);
    visit(GROUP, &first.encode(), &budgets(&first));
    let mut turn = 0;
    play(dice, first, TURNS, &mut |_, state, choice| {
        turn += 1;
        let place = choice.map_or(0, |(place, _)| place);
        let element = stands(state)
            .get(usize::from(place))
            .map(|stand| stand.element);
        let is_action = matches!(element, Some(Element::Process(Process::Action(..))));
        if !is_action && turn % 4 > 0 {
            return;
        }
        let bytes = state.encode();
        let steps = choice.into_iter().flat_map(|(place, partner)| {
            let other = if partner == NO_PARTNER { 0 } else { NO_PARTNER };
            [Call::Step(place, partner), Call::Step(place, other)]
        });
        let mut calls: Vec<Call> = steps.chain([Call::List]).collect();
        if turn % 4 == 0 {
            let asked = asked_places(&bytes, turn).into_iter();
            calls.extend(asked.map(Call::Partners));
        }
        visit(GROUP, &bytes, &calls);
    });
}
