// Actions with a count of names: how they are spelled and refused, who meets whom, and that all names are
// handed over at once, in order.

use reference::comparison::{second, Call};
use reference::counts::*;
use reference::machine::{advance, answer, load, partner_places, run_watched, session};
use reference::machine::{Ending, Turn, NO_PARTNER};
use reference::sessions::example;
use reference::spelling::{comes_to_count, read_job, read_process, read_state, Form, Spelled};
use reference::tree::{Action, Element, Job, Kind, Process, Reference, State, MOST_COUNT};

fn name(name: u16) -> Reference {
    Reference::Name(name)
}

fn variable(level: u16) -> Reference {
    Reference::Variable(level)
}

fn then(action: Action, process: Process) -> Process {
    Process::Action(action, Box::new(process))
}

/// A process that is told apart by its name.
fn mark(reference: Reference) -> Process {
    Process::Ambient(reference, Box::new(Process::Null))
}

fn both(left: Process, right: Process) -> Process {
    Process::Parallel(Box::new(left), Box::new(right))
}

fn output(references: &[Reference]) -> Action {
    let count = references.len() as u8 - 1;
    Action::of_references(Kind::ParentOutput, count, references)
}

fn input(count: u8, channel: Reference) -> Action {
    Action::of_references(Kind::InternalInput, count, &[channel])
}

fn state(elements: Vec<Element>) -> State {
    State {
        free: 9,
        next: 9,
        elements,
    }
}

fn holding(name: u16, element: Element) -> Element {
    Element::Ambient {
        blocked: false,
        name,
        contents: vec![element],
    }
}

/// A step on these elements at the root, which are spelled and read again first.
fn after(elements: &[Element], place: u16, partner: u16) -> Result<(u8, Vec<Element>), u8> {
    let before = state(elements.to_vec());
    assert_eq!(read_state(&before.encode()), Ok(before.clone()));
    let (rule, next) = advance(&before, place, partner)?;
    assert_eq!(read_state(&next.encode()), Ok(next.clone()));
    Ok((rule, next.elements))
}

/// The refusal of the bytes in this form, or 0.
fn number(form: Form, bytes: &[u8]) -> u8 {
    let refusal = match form {
        Form::Job => read_job(bytes).err(),
        Form::State | Form::Listed => read_state(bytes).err(),
        Form::Process(free) => read_process(free, bytes).err(),
    };
    refusal.unwrap_or(0)
}

/// The calls that read the form.
fn calls(form: Form) -> Vec<Call> {
    match form {
        Form::Job => vec![Call::Load],
        Form::State | Form::Listed => vec![
            Call::Weight,
            Call::List,
            Call::Step(0, NO_PARTNER),
            Call::Run(1),
        ],
        Form::Process(free) => vec![Call::Write(free)],
    }
}

#[test]
fn actions_are_refused_in_the_order_of_their_parts() {
    for (text, due) in SPELLED {
        for (form, bytes) in in_every_form(&bytes(text)) {
            assert_eq!(number(form, &bytes), *due, "{text}: {bytes:x?}");
            if *due == 0 {
                continue;
            }
            // Every call that reads it refuses it so, and leaves the output as it was.
            for call in calls(form) {
                let mut out = [0xA5; 200];
                let answer = second(call, &bytes, &mut out);
                assert_eq!(answer, Err(u32::from(*due)), "{text}: {call}");
                assert_eq!(out, [0xA5; 200], "{text}: {call}");
            }
            if matches!(form, Form::Job) {
                assert_eq!(session(&bytes), format!("{due}\n"));
            }
        }
    }
}

#[test]
fn each_count_has_one_spelling() {
    for kind in Kind::ALL {
        let names = [0, 1, 0, 1, 1, 0];
        for count in 0..=MOST_COUNT {
            let action = Action::counted(kind, count, &names);
            let spelled = action.encode();
            let has_count = kind.has_count() && count != 1;
            let tag = 0x30 + kind as u8 + if has_count { 8 } else { 0 };
            assert_eq!(spelled[0], tag);
            for (form, bytes) in in_every_form(&spelled) {
                assert_eq!(number(form, &bytes), 0);
                assert_eq!(comes_to_count(form, &bytes), has_count);
            }
            let job = Job {
                free: 2,
                process: then(action, Process::Null),
            };
            assert_eq!(read_job(&job.encode()), Ok(job));
        }
    }
    for (text, _) in SPELLED.iter().filter(|(_, number)| *number == 0) {
        for (form, bytes) in in_every_form(&bytes(text)) {
            let again = match form {
                Form::Job => read_job(&bytes).unwrap().encode(),
                Form::State | Form::Listed => read_state(&bytes).unwrap().encode(),
                Form::Process(free) => read_process(free, &bytes).unwrap().encode(),
            };
            assert_eq!(again, bytes, "{text}");
        }
    }
}

#[test]
fn a_wrong_count_is_one_of_the_reading_refusals() {
    let job = |process: &str| number(Form::Job, &bytes(process));
    // The lowest offset decides.
    let wrong = "24 0009 3A 0003 0000 05 20 0000";
    let tag = "99 0000";
    assert_eq!(job(&format!("10 0014 0001 21 000F {wrong} {tag}")), 14);
    assert_eq!(job(&format!("10 0014 0001 21 000F {tag} {wrong}")), 3);
    assert_eq!(job(&format!("10 000E 0001 {wrong}")), 14);
    assert_eq!(job(&format!("10 000E 0401 {wrong}")), 6);
    assert_eq!(job(&format!("10 000E 0001 {wrong} 00")), 14);
    // A variable that would be bound by the wrong count.
    assert_eq!(
        job("10 0013 0001 24 000E 3A 0003 0000 05 23 0005 8000 20 0000"),
        14
    );
    // A blocked pair is judged after it.
    let pair = two_blocked_counts(Kind::ParentOutput, 2, 2).encode();
    assert_eq!(number(Form::State, &pair), 7);
    let mut wrong = pair.clone();
    let input = pair
        .windows(6)
        .position(|six| six == bytes("3A 0003 0002 02"));
    wrong[input.unwrap() + 5] = 5;
    assert_eq!(number(Form::State, &wrong), 14);
}

#[test]
fn an_input_binds_as_many_variables_as_its_count() {
    for (counts, sum) in chains_of_inputs() {
        for level in [0, 1, 2, 3, 4, sum.max(1) - 1, sum, sum + 1, sum + 4] {
            let due = if level < sum { 0 } else { 6 };
            let [job, state] = job_and_state(behind_inputs(&counts, level));
            assert_eq!(number(Form::Job, &job), due, "{counts:?} {level}");
            assert_eq!(number(Form::State, &state), due, "{counts:?} {level}");
        }
    }
    // An input's own channel is not bound by it, but by the one before it.
    for (level, due) in [(1, 0), (2, 6)] {
        let inner = then(input(4, variable(level)), mark(variable(5)));
        let outer = then(input(2, name(0)), inner);
        let [job, _] = job_and_state(outer);
        assert_eq!(number(Form::Job, &job), due);
    }
}

/// A parent output of these names meets an internal input with this process behind it, once with the output
/// acting and once with the input acting.
fn handed(names: &[u16], process: Process) -> Process {
    let count = names.len() as u8;
    let references: Vec<Reference> = [&[7], names].concat().into_iter().map(name).collect();
    let output = output(&references);
    let input = input(count, name(7));
    let build = |output, input| vec![holding(3, output), input];
    let sending = then(output, Process::Null);
    let taking = then(input, process.clone());
    let first = build(
        Element::Process(sending),
        Element::BlockedAction(input, process),
    );
    let second = build(
        Element::BlockedAction(output, Process::Null),
        Element::Process(taking),
    );
    let (rule, sent) = after(&first, 1, 2).unwrap();
    assert_eq!(rule, 37);
    let (rule, taken) = after(&second, 2, 1).unwrap();
    assert_eq!(rule, 38);
    assert_eq!(sent, taken);
    for (elements, place) in [(first, 1), (second, 2)] {
        assert_eq!(after(&elements, place, NO_PARTNER), Err(10));
        assert_eq!(after(&elements, place, 0), Err(9));
        assert_eq!(after(&elements, place, place), Err(9));
    }
    match &sent[..] {
        [around, Element::Process(process)] => {
            assert_eq!(*around, holding(3, Element::Process(Process::Null)));
            process.clone()
        }
        elements => panic!("{elements:?}"),
    }
}

#[test]
fn all_names_are_handed_over_at_once_and_in_order() {
    assert_eq!(handed(&[], mark(name(1))), mark(name(1)));
    assert_eq!(handed(&[4], mark(variable(0))), mark(name(4)));
    // The last name is for the innermost variable, which is 0.
    let crossed = both(mark(variable(1)), mark(variable(0)));
    assert_eq!(handed(&[4, 5], crossed), both(mark(name(4)), mark(name(5))));
    let message = [0, 3, 1, 2, 0].map(variable);
    assert_eq!(
        handed(&[4, 5, 6, 8], then(output(&message), Process::Null)),
        then(output(&[8, 4, 6, 5, 8].map(name)), Process::Null)
    );
    let message = [name(1), variable(2), name(0), variable(0), variable(1)];
    assert_eq!(
        handed(&[4, 5, 6], then(output(&message), Process::Null)),
        then(output(&[1, 4, 0, 6, 5].map(name)), Process::Null)
    );
    // The same name twice, and a name that is a channel.
    let twice = both(
        mark(variable(1)),
        then(input(0, variable(0)), Process::Null),
    );
    assert_eq!(
        handed(&[7, 7], twice),
        both(mark(name(7)), then(input(0, name(7)), Process::Null))
    );
}

#[test]
fn names_are_handed_over_to_what_stands_under_other_binders() {
    // An input of three inside an input of two: 0 to 2 are its own, 3 and 4 the names handed over.
    let inner = |first: Reference, second: Reference| {
        let message = [first, variable(0), second, variable(2), variable(1)];
        then(input(3, second), then(output(&message), mark(first)))
    };
    assert_eq!(
        // The channel of the inner input stands outside of its binders.
        handed(
            &[4, 5],
            then(
                input(3, variable(0)),
                then(output(&[4, 0, 3, 2, 1].map(variable)), mark(variable(4)))
            )
        ),
        inner(name(4), name(5))
    );
    // Under a restriction, a replicated input of none, and an ambient.
    let under = |first: Reference, second: Reference, channel: Reference| {
        let message = [second, first, variable(0)];
        let inner = Process::Ambient(first, Box::new(then(output(&message), Process::Null)));
        let replicated = Process::Replication(input(0, channel), Box::new(inner));
        Process::Restriction(Box::new(replicated))
    };
    assert_eq!(
        handed(&[4, 5], under(variable(2), variable(1), variable(2))),
        under(name(4), name(5), name(4))
    );
    // A restriction takes one name behind an input of many.
    let behind = |reference| then(input(4, name(0)), mark(reference));
    let restricted = Process::Restriction(Box::new(behind(variable(4))));
    let (rule, elements) = {
        let before = state(vec![Element::Process(restricted)]);
        let (rule, next) = advance(&before, 0, NO_PARTNER).unwrap();
        (rule, next.elements)
    };
    assert_eq!(
        (rule, elements),
        (33, vec![Element::Process(behind(name(9)))])
    );
}

#[test]
fn a_replication_of_a_count_is_repeated_behind_its_action() {
    for count in 0..=MOST_COUNT {
        let part = showing(count);
        let action = input(count, name(2));
        let copy = Process::Replication(action, Box::new(part.clone()));
        let expected = then(action, both(part, copy.clone()));
        let outcome = after(&[Element::Process(copy)], 0, NO_PARTNER);
        assert_eq!(outcome, Ok((30, vec![Element::Process(expected)])));
    }
}

/// The place of the action and the place of the other one.
fn places(state: &State) -> [u16; 2] {
    let mut acting = None;
    let mut blocked = None;
    let mut place = 0;
    let mut look = |element: &Element| {
        match element {
            Element::Process(_) => acting = Some(place),
            Element::BlockedAction(..) => blocked = Some(place),
            Element::Ambient { .. } => {}
        }
        place += 1;
    };
    for element in &state.elements {
        look(element);
        if let Some((_, contents)) = element.ambient() {
            contents.iter().for_each(&mut look);
        }
    }
    [acting.unwrap(), blocked.unwrap()]
}

#[test]
fn partners_agree_in_their_count() {
    for kind in WITH_COUNT {
        for count in 0..=MOST_COUNT {
            for other in 0..=MOST_COUNT {
                for backwards in [false, true] {
                    let state = two_counts(kind, count, other, backwards);
                    assert_eq!(read_state(&state.encode()), Ok(state.clone()));
                    let [place, partner] = places(&state);
                    let alone = advance(&state, place, NO_PARTNER).map(|(rule, _)| rule);
                    let met = advance(&state, place, partner).map(|(rule, _)| rule);
                    if count == other {
                        let rule = 35 + [0, 2, 3, 1][kind as usize];
                        assert_eq!((alone, met), (Err(10), Ok(rule)));
                        assert_eq!(partner_places(&state, place), [partner]);
                    } else {
                        assert_eq!((alone, met), (Ok(43), Err(9)));
                        assert!(partner_places(&state, place).is_empty());
                    }
                }
                // Both blocked are a pair only where their counts agree.
                let state = two_blocked_counts(kind, count, other);
                let due = if count == other {
                    Err(7)
                } else {
                    Ok(state.clone())
                };
                assert_eq!(read_state(&state.encode()), due);
            }
        }
    }
}

#[test]
fn the_nearest_of_another_count_is_passed_over() {
    // Four receivers of four counts, of which the third answers.
    for kind in [Kind::ExternalInput, Kind::SiblingOutput] {
        let (action, process) = handing(answer(kind), 3, 2);
        let own = if kind == Kind::SiblingOutput { 1 } else { 0 };
        let mut elements = vec![holding(own, Element::Process(then(action, process)))];
        for count in [2, 4, 3, 1] {
            let (action, process) = handing(kind, count, 2);
            elements.push(holding(1, Element::BlockedAction(action, process)));
        }
        assert_eq!(after(&elements, 1, NO_PARTNER), Err(10));
        for (partner, due) in [(3, Err(9)), (5, Err(9)), (7, Ok(())), (9, Err(9))] {
            assert_eq!(after(&elements, 1, partner).map(|_| ()), due);
        }
    }
}

/// What the cabinet holds, which stands alone in the root.
fn in_cabinet(state: &State) -> &[Element] {
    match &state.elements[..] {
        [Element::Ambient {
            name: 0, contents, ..
        }] => contents,
        elements => panic!("{elements:?}"),
    }
}

#[test]
fn the_numbered_reel_is_answered_on_its_channel() {
    let job = example("numbered-reel");
    let mut state = vec![0; 200];
    let length = load(&job, &mut state).unwrap();
    let mut met = Vec::new();
    let mut answers = Vec::new();
    let mut last = None;
    let mut watcher = |turn: &Turn| {
        if (35..=42).contains(&turn.rule) {
            met.push(turn.rule);
        }
        // The name 5 is the channel that the reel made.
        let answer = then(
            Action::named(Kind::SiblingOutput, &[1, 5, 4]),
            Process::Null,
        );
        for element in in_cabinet(turn.after) {
            let Some((2, contents)) = element.ambient() else {
                continue;
            };
            let is_answer = |held: &Element| match held {
                Element::Process(Process::Parallel(left, _)) => **left == answer,
                _ => false,
            };
            if contents.iter().any(is_answer) {
                answers.push(met.clone());
            }
        }
        last = Some(turn.after.clone());
    };
    let run = run_watched(&state[..length], 65_535, &mut [0; 300], &mut watcher).unwrap();
    assert_eq!(run.ending, Ending::Blocked);
    // The request of two names, the answer, and the reel's entering the case.
    assert_eq!(met, [36, 35, 40]);
    assert!(!answers.is_empty() && answers.iter().all(|met| *met == [36]));
    let holds = |name: u16, inner: u16| {
        let last = in_cabinet(last.as_ref().unwrap()).iter();
        let mut found = last.filter_map(Element::ambient);
        found.any(|(outer, contents)| {
            let mut held = contents.iter().filter_map(Element::ambient);
            outer == name && held.any(|(held, _)| held == inner)
        })
    };
    assert!(holds(4, 1));
    assert!(session(&job).ends_with("\nblocked 28 0\n"));
}

#[test]
fn what_is_handed_over_is_what_the_process_shows() {
    for kind in WITH_COUNT {
        for count in 0..=MOST_COUNT {
            let state = two_counts(kind, count, count, false);
            let [place, partner] = places(&state);
            let (_, next) = advance(&state, place, partner).unwrap();
            // The names 4, 5, .. in the order of the variables, the outermost first.
            let ambients = (0..count).rev().fold(Process::Null, |behind, index| {
                both(mark(name(4 + u16::from(index))), behind)
            });
            let due = if count == 0 {
                ambients
            } else {
                let last = name(3 + u16::from(count));
                let shown = then(
                    Action::of_references(
                        Kind::SiblingOutput,
                        4,
                        &[last, name(4), variable(2), name(4), last, variable(0)],
                    ),
                    Process::Null,
                );
                both(ambients, then(input(3, name(4)), shown))
            };
            let found = next.elements.iter().any(|element| {
                let process = Element::Process(due.clone());
                *element == process
                    || element
                        .ambient()
                        .is_some_and(|(_, contents)| contents.contains(&process))
            });
            assert!(found, "{kind:?} {count}: {next:?}");
        }
    }
}
