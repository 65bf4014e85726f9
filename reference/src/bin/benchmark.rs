// Times reading, writing, loading, listing, stepping, running, the panel, the partners of a place and sweeping by the proved
// library against the second implementation, and the two programs, in one go. An older library, which does not count
// partners or does not sweep, is timed without these. Where an earlier build of the library is linked beside it, the two are
// timed in turn.

use reference::accesses::{self, told, Access};
use reference::cases::loaded;
use reference::comparison::{proved, second, Call, Side};
use reference::earlier::{earlier, LINKED, NOT_LINKED};
use reference::machine::{advance, lowest_choice, run_watched, Choice, Turn, NO_PARTNER};
use reference::panel::{Panel, ACKNOWLEDGE, COMMAND, PLACE, STEP};
use reference::proved::{found_program, step, COUNTING, NO_PROGRAM, SWEEPING};
use reference::runs::MOST_STEPS;
use reference::sessions::{example, printed_by};
use reference::shapes::{asking_job, counted_run, counted_state, crowded_counts, handing_state};
use reference::shapes::{crowded_states, endless_jobs, meeting_state, printed_job};
use reference::shapes::{listed_state, process_of_size, timed_jobs, wide_job};
use reference::shapes::{timed_choices, timed_runs, timed_states, TIMED_RUN};
use reference::spelling::{Spelled, LISTED_NESTING, LONGEST};
use reference::sweeping::BOX;
use reference::throwaways::{announced_reels, timed_sweeps};
use reference::tree::{Kind, State};
use reference::waiting::{crowd, taking_state, waiting_job, Waited, TAKING};
use std::hint::black_box;
use std::path::Path;
use std::time::Instant;

/// How often each call is timed; the quickest counts.
const ROUNDS: usize = 25;

/// How often the calls are made in one timing.
const REPEATS: usize = 8;

/// How often each call and each run is timed beside an earlier library.
const BESIDE_ROUNDS: usize = 60;

/// How often a run is timed, how often its first state is copied in one timing, and the budget on a
/// long state.
const RUN_ROUNDS: usize = 7;
const RUN_COPIES: usize = 1_000;
const LONG_RUN: u16 = 100;

/// How often a session is timed: a short one, and one of many steps.
const SHORT_SESSION_ROUNDS: usize = 200;
const SESSION_ROUNDS: usize = 7;

/// The shorter states, and how many of them are as long as one of the longest.
const SHORT: usize = 4_096;
const SHORT_STATES: u64 = 8;

/// How many shapes of state are timed; the last has actions of all counts.
const SHAPES: usize = 4;

/// What the proved library is to take at most of the second implementation's time.
const READING_BOUND: f64 = 0.5;
const STEP_BOUND: f64 = 0.25;
const RUN_BOUND: f64 = 0.1;

/// What a sweep by the proved library is to take at most of the time in which it reads the state.
const SWEEP_BOUND: f64 = 3.0;

/// What a loading is to take at most of the time that it takes an earlier library.
const LOADING_BOUND: f64 = 1.5;

/// A call and the bytes it is made on.
type Timed = (Call, Vec<u8>);

/// Makes a call on an input and an output buffer.
type Make<'make> = &'make dyn Fn(Call, &[u8], &mut [u8]);

/// Nanoseconds by the proved library, by the second implementation, and for copying the input once.
struct Times {
    proved: f64,
    second: f64,
    copy: f64,
}

/// How often the calls are timed, and how often they and the copies are made in one timing.
struct Effort {
    rounds: usize,
    repeats: usize,
    copies: usize,
}

/// Times both sides in turn on the same calls, for each byte of the input.
fn time(timed: &[Timed]) -> Times {
    let bytes: usize = timed.iter().map(|(_, input)| input.len()).sum();
    let effort = Effort {
        rounds: ROUNDS,
        repeats: REPEATS,
        copies: REPEATS,
    };
    let times = quickest(timed, effort);
    Times {
        proved: times.proved / bytes as f64,
        second: times.second / bytes as f64,
        copy: times.copy / bytes as f64,
    }
}

/// Nanoseconds for making all of the calls once, where that is done so often.
fn time_once(timed: &[Timed], repeats: usize, out: &mut [u8], make: Make) -> f64 {
    let start = Instant::now();
    for (call, input) in timed.iter().cycle().take(repeats * timed.len()) {
        make(*call, black_box(input), black_box(out));
    }
    start.elapsed().as_nanos() as f64 / repeats as f64
}

/// Makes a call by one side, which is to accept it.
fn accepted(side: Side) -> impl Fn(Call, &[u8], &mut [u8]) {
    move |call, input, out| {
        let answer = black_box(side(call, input, out));
        assert!(answer.is_ok(), "a timed call was refused");
    }
}

/// Times both sides in turn on the same calls; each time is for making all of them once.
fn quickest(timed: &[Timed], effort: Effort) -> Times {
    let mut out = vec![0; LONGEST];
    let mut best = Times {
        proved: f64::INFINITY,
        second: f64::INFINITY,
        copy: f64::INFINITY,
    };
    let Effort {
        rounds,
        repeats,
        copies,
    } = effort;
    for _ in 0..rounds {
        let mut once = |repeats: usize, make: Make| time_once(timed, repeats, &mut out, make);
        best.proved = best.proved.min(once(repeats, &accepted(proved)));
        best.second = best.second.min(once(repeats, &accepted(second)));
        best.copy = best.copy.min(once(copies, &|_, input, out| {
            out[..input.len()].copy_from_slice(input)
        }));
    }
    best
}

/// The long state of a shape and the short ones. As many bytes are timed of the short ones.
fn states(shape: usize) -> (&'static str, [Vec<State>; 2]) {
    let made = |size: usize, seed: u64| match shape {
        3 => counted_state(size, seed),
        _ => timed_states(size, seed).swap_remove(shape),
    };
    let (name, long) = made(LONGEST, 1);
    let short = (1..=SHORT_STATES).map(|seed| made(SHORT, seed).1);
    (name, [vec![long], short.collect()])
}

/// The same call on each of the states.
fn on_each(states: &[State], call: impl Fn(&State) -> Call) -> Vec<Timed> {
    let timed = states.iter().map(|state| (call(state), state.encode()));
    timed.collect()
}

/// A step by the lowest or by the middle choice of each state.
fn stepping(states: &[State], choice: usize) -> Vec<Timed> {
    on_each(states, |state| {
        let (place, partner) = timed_choices(state)[choice];
        Call::Step(place, partner)
    })
}

const LOWEST: usize = 0;
const MIDDLE: usize = 1;

/// Prints a line of a table with multiples of copying; gives the ratio of the two sides.
fn print_line(name: &str, timed: &[Timed]) -> f64 {
    let Times {
        proved,
        second,
        copy,
    } = time(timed);
    let (length, ratio) = (timed[0].1.len(), proved / second);
    let (proved_copies, second_copies) = (proved / copy, second / copy);
    println!(
        "{name:16} {length:7} {proved:9.2} {second:9.2} {ratio:14.2} {proved_copies:12.1} {second_copies:12.1}"
    );
    ratio
}

/// Prints the head of such a table.
fn print_head(title: &str) {
    println!();
    println!("{title}, nanoseconds for each byte, and as a multiple of copying the input once");
    println!(
        "shape              bytes    proved    second  proved/second  proved/copy  second/copy"
    );
}

/// Gives the greatest ratio.
fn reading() -> f64 {
    println!("reading states, nanoseconds for each byte");
    println!("shape      bytes    proved    second  proved/second");
    let mut growths = Vec::new();
    let mut greatest = 0.0f64;
    for shape in 0..SHAPES {
        let (name, both) = states(shape);
        let [long, short] = both.map(|states| {
            let times = time(&on_each(&states, |_| Call::Weight));
            let Times { proved, second, .. } = times;
            let (length, ratio) = (states[0].encode().len(), proved / second);
            println!("{name:8} {length:7} {proved:9.2} {second:9.2} {ratio:14.2}");
            greatest = greatest.max(ratio);
            times
        });
        growths.push((name, long.proved / short.proved, long.second / short.second));
    }
    println!();
    println!("nanoseconds for each byte at 32 KB over those at 4 KB");
    println!("shape       proved    second");
    for (name, proved, second) in growths {
        println!("{name:8} {proved:9.2} {second:9.2}");
    }
    greatest
}

/// Processes from which the longest job is written, and ones of a shorter job.
fn writing() {
    print_head("writing jobs");
    for size in [LONGEST, SHORT] {
        let halves = process_of_size(size - 5).encode();
        let wide = wide_job(size).process.encode();
        for (name, process) in [("halves", halves), ("wide", wide)] {
            let count = LONGEST / size;
            print_line(name, &vec![(Call::Write(2), process); count]);
        }
    }
}

/// The loading of each job that is timed, as often as makes up a long one.
fn timed_loadings() -> Vec<(&'static str, Vec<Timed>)> {
    let jobs = timed_jobs().into_iter();
    let loadings = jobs.map(|(name, job)| {
        let job = job.encode();
        let count = LONGEST / job.len();
        (name, vec![(Call::Load, job); count])
    });
    loadings.collect()
}

fn loading() {
    print_head("loading jobs");
    for (name, timed) in timed_loadings() {
        print_line(name, &timed);
    }
}

/// The listing of a state that is as deep as the listing reads.
fn deepest_listing() -> (String, Vec<Timed>) {
    let timed = on_each(&[listed_state(LONGEST)], |_| Call::List);
    (format!("{LISTED_NESTING} deep"), timed)
}

/// Gives the greatest ratio of a step.
fn listing_and_stepping() -> f64 {
    print_head("listing states");
    for shape in 0..SHAPES {
        let (name, both) = states(shape);
        for states in both {
            print_line(name, &on_each(&states, |_| Call::List));
        }
    }
    let (name, timed) = deepest_listing();
    print_line(&name, &timed);
    print_head("stepping");
    let mut greatest = 0.0f64;
    let mut print_step = |name: &str, timed: &[Timed]| {
        greatest = greatest.max(print_line(name, timed));
    };
    for shape in 0..SHAPES {
        let (name, both) = states(shape);
        for states in both {
            print_step(&format!("{name}, lowest"), &stepping(&states, LOWEST));
            print_step(&format!("{name}, middle"), &stepping(&states, MIDDLE));
        }
    }
    for size in [LONGEST, SHORT] {
        let count = LONGEST / size;
        let states = vec![meeting_state(size); count];
        print_step("moving", &stepping(&states, LOWEST));
        let states = vec![handing_state(size); count];
        print_step("handing over", &stepping(&states, LOWEST));
    }
    greatest
}

/// Small jobs that play to the largest budget, and long states that play to a smaller one.
fn runs() -> Vec<(&'static str, State, u16)> {
    let (name, job) = endless_jobs().swap_remove(0);
    let mut runs = vec![
        (name, loaded(job), MOST_STEPS),
        ("asking", loaded(asking_job()), MOST_STEPS),
    ];
    for (name, state) in timed_runs().into_iter().chain([counted_run()]) {
        runs.push((name, state, LONG_RUN));
    }
    runs
}

/// Gives the greatest ratio.
fn running() -> f64 {
    println!();
    println!(
        "running, nanoseconds for each step, and as a multiple of copying the first state once"
    );
    println!(
        "shape           bytes  steps    proved    second  proved/second  proved/copy  second/copy"
    );
    let mut greatest = 0.0f64;
    for (name, state, budget) in runs() {
        let (call, bytes) = (Call::Run(budget), state.encode());
        for side in [proved, second] {
            let outcome = side(call, &bytes, &mut vec![0; LONGEST]);
            let steps = outcome.map(|outcome| outcome.steps);
            assert_eq!(steps, Ok(u32::from(budget)), "a timed run ended early");
        }
        let length = bytes.len();
        let effort = Effort {
            rounds: RUN_ROUNDS,
            repeats: 1,
            copies: RUN_COPIES,
        };
        let times = quickest(&[(call, bytes)], effort);
        let [proved, second] = [times.proved, times.second].map(|time| time / f64::from(budget));
        let [proved_copies, second_copies] = [proved, second].map(|time| time / times.copy);
        let ratio = proved / second;
        println!(
            "{name:13} {length:7} {budget:6} {proved:9.0} {second:9.0} {ratio:14.2} {proved_copies:12.1} {second_copies:12.1}"
        );
        greatest = greatest.max(ratio);
    }
    greatest
}

/// The steps of a run.
fn steps_of(state: &[u8], budget: u16) -> Vec<Choice> {
    let mut steps = Vec::new();
    let mut watcher = |turn: &Turn| steps.push((turn.place, turn.partner));
    let ended = run_watched(state, budget, &mut vec![0; LONGEST], &mut watcher);
    assert!(ended.is_ok(), "a timed run was refused");
    steps
}

/// Two buffers of the longest state, the first with this state in front.
fn two_buffers(state: &[u8]) -> [Vec<u8>; 2] {
    let mut first = state.to_vec();
    first.resize(LONGEST, 0);
    [first, vec![0; LONGEST]]
}

/// Takes the steps by a panel: place and partner are written, the step is commanded and acknowledged.
fn by_panel(side: accesses::Side, state: &[u8], steps: &[Choice]) {
    let [mut buffer, mut spare] = two_buffers(state);
    let mut panel = Panel::started(state.len() as u32);
    for (place, partner) in steps {
        let [a, b] = place.to_be_bytes();
        let [c, d] = partner.to_be_bytes();
        let mut write = |panel: &mut Panel, address, value| {
            let access = Access::Write(address, value, LONGEST);
            side(access, black_box(panel), &mut buffer, &mut spare);
        };
        for (address, value) in (PLACE..).zip([a, b, c, d]) {
            write(&mut panel, address, value);
        }
        write(&mut panel, COMMAND, STEP);
        assert!(told(&panel).is_ok(), "a timed step was refused");
        write(&mut panel, COMMAND, ACKNOWLEDGE);
    }
}

/// Takes the steps by the proved library's step, from one buffer to the other and back.
fn by_step(state: &[u8], steps: &[Choice]) {
    let [mut buffer, mut spare] = two_buffers(state);
    let mut length = state.len();
    for (place, partner) in steps {
        let stepped = step(black_box(&buffer[..length]), *place, *partner, &mut spare);
        let [_, result] = stepped.expect("a timed step is accepted");
        length = result as usize;
        std::mem::swap(&mut buffer, &mut spare);
    }
}

/// The steps of the runs above, by the panel and by the call of a step.
fn by_the_panel() {
    println!();
    println!("the panel: the steps of these runs, nanoseconds for each, and over the proved library's own step");
    println!(
        "shape           bytes  steps    proved    second  proved/second      step   panel/step"
    );
    for (name, state, budget) in runs() {
        let bytes = state.encode();
        let steps = steps_of(&bytes, budget);
        let mut best = [f64::INFINITY; 3];
        for _ in 0..RUN_ROUNDS {
            let makes: [&dyn Fn(); 3] = [
                &|| by_panel(accesses::proved, &bytes, &steps),
                &|| by_panel(accesses::second, &bytes, &steps),
                &|| by_step(&bytes, &steps),
            ];
            for (make, best) in makes.into_iter().zip(&mut best) {
                let start = Instant::now();
                make();
                let time = start.elapsed().as_nanos() as f64 / steps.len() as f64;
                *best = best.min(time);
            }
        }
        let [proved, second, step] = best;
        let (length, count) = (bytes.len(), steps.len());
        let (ratio, over) = (proved / second, proved / step);
        println!(
            "{name:13} {length:7} {count:6} {proved:9.0} {second:9.0} {ratio:14.2} {step:9.0} {over:12.2}"
        );
    }
}

/// The state of the printed session in which the adapter waits and the deck's accept is next.
fn small_waited() -> Waited {
    let mut state = loaded(printed_job());
    loop {
        let (place, partner) = lowest_choice(&state).expect("the session goes on");
        if partner != NO_PARTNER {
            let kind = Kind::Accept;
            return Waited {
                kind,
                state,
                partners: 1,
            };
        }
        state = advance(&state, place, partner)
            .expect("the session goes on")
            .1;
    }
}

/// The kinds of action whose partners are timed, with how many that wait stand in an ambient: inputs in one list,
/// inputs in one ambient, and hosts in an ambient each.
const TIMED_KINDS: [(&str, Kind, usize); 3] = [
    ("inputs in a list", Kind::ParentOutput, 1),
    ("inputs in an ambient", Kind::SiblingOutput, LONGEST),
    ("hosts, an ambient each", Kind::Enter, 1),
];

/// Which of so many that wait are partners.
type Pattern = fn(usize, usize) -> bool;

const ALL: Pattern = |_, _| true;
const LAST: Pattern = |index, count| index + 1 == count;

/// The quickest of several times, in nanoseconds, that each call takes on its state, in turn, where it is made so
/// often in one timing.
fn time_calls<const COUNT: usize>(
    calls: [(Side, Call, &[u8]); COUNT],
    repeats: usize,
) -> [f64; COUNT] {
    let mut out = vec![0; LONGEST];
    let mut best = [f64::INFINITY; COUNT];
    for _ in 0..ROUNDS {
        for ((side, call, state), best) in calls.iter().zip(&mut best) {
            let start = Instant::now();
            for _ in 0..repeats {
                // A refusal is an answer too.
                let _ = black_box(side(*call, black_box(state), black_box(&mut out)));
            }
            *best = best.min(start.elapsed().as_nanos() as f64 / repeats as f64);
        }
    }
    best
}

/// How often a call is made in one timing on a state of so many bytes.
fn repeats(state: &[u8]) -> usize {
    REPEATS * LONGEST / state.len()
}

/// The partners of a place: in a small state, and in states of 32 KB where none of thousands is one, the first, the
/// last, and all.
fn counting() {
    println!();
    println!("the partners of a place, nanoseconds for each call, and over reading the state");
    println!(
        "those that wait                    bytes  partners    proved    second  proved/second   reading  proved/reading"
    );
    let print_row = |name: &str, waited: &Waited| {
        let bytes = waited.state.encode();
        let call = Call::Partners(waited.place());
        for side in [proved, second] {
            let found = side(call, &bytes, &mut []).map(|outcome| outcome.count);
            assert_eq!(found, Ok(u32::from(waited.partners)), "{name}");
        }
        let calls = [
            (proved as Side, call, &bytes[..]),
            (second, call, &bytes),
            (proved, Call::Weight, &bytes),
        ];
        let [proved, second, reading] = time_calls(calls, repeats(&bytes));
        let (length, partners) = (bytes.len(), waited.partners);
        let (ratio, over) = (proved / second, proved / reading);
        println!(
            "{name:33} {length:6} {partners:9} {proved:9.0} {second:9.0} {ratio:14.2} {reading:9.0} {over:15.2}"
        );
    };
    print_row("one, the printed session", &small_waited());
    let patterns: [(&str, Pattern); 4] = [
        ("none", |_, _| false),
        ("first", |index, _| index == 0),
        ("last", LAST),
        ("all", ALL),
    ];
    for (name, kind, each) in TIMED_KINDS {
        for (which, pattern) in patterns {
            let waited = crowd(kind, LONGEST, each, false, pattern);
            print_row(&format!("{name}, {which}"), &waited);
        }
    }
}

/// The last state of the job whose announcements leave throwaway ambients.
fn small_littered() -> State {
    let mut state = loaded(announced_reels());
    while let Some((place, partner)) = lowest_choice(&state) {
        let stepped = advance(&state, place, partner);
        state = stepped.expect("the job goes on").1;
    }
    state
}

/// Sweeps of 32 KB and 4 KB: of states where all empty ambients go, where none does for one thing or another, where
/// some do, and of the shapes of before; and of a small state. Gives the greatest multiple of reading 32 KB.
fn sweeping() -> f64 {
    println!();
    println!(
        "sweeping, nanoseconds for each byte, and over reading the state, which is to be at most {SWEEP_BOUND} for 32 KB"
    );
    println!(
        "shape                bytes  removed    proved    second  proved/second   reading  proved/reading"
    );
    let print_row = |name: &str, state: &State| {
        let bytes = state.encode();
        let mut out = vec![0; LONGEST];
        let outcomes = [proved, second].map(|side| side(Call::Sweep, &bytes, &mut out));
        assert_eq!(outcomes[0], outcomes[1], "{name}");
        let left = outcomes[0].expect("a timed sweep is accepted").result as usize;
        let calls = [
            (proved as Side, Call::Sweep, &bytes[..]),
            (second, Call::Sweep, &bytes),
            (proved, Call::Weight, &bytes),
        ];
        let length = bytes.len();
        let times = time_calls(calls, repeats(&bytes));
        let [proved, second, reading] = times.map(|time| time / length as f64);
        let (removed, ratio, over) = ((length - left) / BOX, proved / second, proved / reading);
        println!(
            "{name:19} {length:6} {removed:8} {proved:9.2} {second:9.2} {ratio:14.2} {reading:9.2} {over:15.2}"
        );
        over
    };
    let mut greatest = 0.0f64;
    for size in [LONGEST, SHORT] {
        let shapes = timed_states(size, 1).into_iter();
        let shapes = shapes.chain([counted_state(size, 1)]);
        for (name, state) in timed_sweeps(size).into_iter().chain(shapes) {
            let over = print_row(name, &state);
            if size == LONGEST {
                greatest = greatest.max(over);
            }
        }
    }
    print_row("announced reels", &small_littered());
    greatest
}

/// Whether there is any partner: a step with none named, which is refused with 10. Where all of thousands answer the
/// search can leave at the first, where the last alone does it has to look at all. Beside it the partners of the
/// first state, which are looked at to the end.
fn asking_for_any() {
    println!();
    println!("whether there is any partner (a step refused with 10), nanoseconds for each call");
    println!(
        "those that wait           bytes  all answer  last alone   all/last  partners of all  partners/any"
    );
    for (name, kind, each) in TIMED_KINDS {
        let [all, last] = [ALL, LAST].map(|pattern| crowd(kind, LONGEST, each, false, pattern));
        let [all_bytes, last_bytes] = [&all, &last].map(|waited| waited.state.encode());
        let [any_all, any_last] =
            [&all, &last].map(|waited| Call::Step(waited.place(), NO_PARTNER));
        for (any, bytes) in [(any_all, &all_bytes), (any_last, &last_bytes)] {
            assert_eq!(proved(any, bytes, &mut vec![0; LONGEST]), Err(10), "{name}");
        }
        let counts = match COUNTING {
            true => Call::Partners(all.place()),
            false => any_all,
        };
        let calls = [
            (proved as Side, any_all, &all_bytes[..]),
            (proved, any_last, &last_bytes),
            (proved, counts, &all_bytes),
        ];
        let [first, whole, partners] = time_calls(calls, repeats(&all_bytes));
        let (length, ratio) = (all_bytes.len(), first / whole);
        print!("{name:24} {length:6} {first:11.0} {whole:11.0} {ratio:10.2}");
        match COUNTING {
            true => println!(" {partners:16.0} {:13.2}", partners / first),
            false => println!(" {:>16} {:>13}", "-", "-"),
        }
    }
}

/// A run that meets the lowest of thousands at nearly each step: the first, where the search can leave at once, and
/// one behind all that are none, where it has to look at them.
fn running_among_thousands() {
    println!();
    println!("a run that takes the lowest of thousands, nanoseconds for each step");
    println!("the lowest is      bytes  steps    proved    second  proved/second");
    for (name, is_first) in [("the first", true), ("behind the others", false)] {
        let (call, bytes) = (Call::Run(TAKING), taking_state(is_first).encode());
        let rules = steps_of(&bytes, TAKING);
        let met = rules.iter().filter(|(_, partner)| *partner != NO_PARTNER);
        assert!(10 * met.count() > 9 * usize::from(TAKING));
        let length = bytes.len();
        let effort = Effort {
            rounds: RUN_ROUNDS,
            repeats: 1,
            copies: 1,
        };
        let times = quickest(&[(call, bytes)], effort);
        let [proved, second] = [times.proved, times.second].map(|time| time / f64::from(TAKING));
        let ratio = proved / second;
        println!("{name:17} {length:6} {TAKING:6} {proved:9.0} {second:9.0} {ratio:14.2}");
    }
}

/// Prints how long the earlier library and the present one take for the same calls, in turn, in nanoseconds for each of
/// so many; gives the ratio of the two.
fn print_beside(name: &str, timed: &[Timed], repeats: usize, count: usize) -> f64 {
    let mut out = vec![0; LONGEST];
    let mut best = [f64::INFINITY; 2];
    for _ in 0..BESIDE_ROUNDS {
        for (side, best) in [earlier as Side, proved].into_iter().zip(&mut best) {
            *best = best.min(time_once(timed, repeats, &mut out, &accepted(side)));
        }
    }
    let [before, after] = best.map(|time| time / count as f64);
    let (length, ratio) = (timed[0].1.len(), after / before);
    println!("{name:26} {length:7} {before:9.2} {after:9.2} {ratio:14.3}");
    ratio
}

/// Reading, loading, listing, stepping and running by an earlier build of the library and by the present one.
fn beside_earlier() {
    let print_bytes = |name: &str, timed: &[Timed]| {
        let bytes = timed.iter().map(|(_, input)| input.len()).sum();
        print_beside(name, timed, REPEATS, bytes)
    };
    println!();
    println!("beside the earlier library, nanoseconds for each byte");
    println!("call                         bytes   earlier    proved  proved/earlier");
    for shape in 0..SHAPES {
        let (name, both) = states(shape);
        for states in both {
            let on_all = |call| on_each(&states, |_| call);
            print_bytes(&format!("reading {name}"), &on_all(Call::Weight));
            print_bytes(&format!("listing {name}"), &on_all(Call::List));
            for (choice, place) in [(LOWEST, "lowest"), (MIDDLE, "middle")] {
                print_bytes(
                    &format!("stepping {name}, {place}"),
                    &stepping(&states, choice),
                );
            }
        }
    }
    let (name, timed) = deepest_listing();
    print_bytes(&format!("listing {name}"), &timed);
    for size in [LONGEST, SHORT] {
        let count = LONGEST / size;
        for (name, state) in [
            ("stepping, moving", meeting_state(size)),
            ("stepping, handing over", handing_state(size)),
        ] {
            print_bytes(name, &stepping(&vec![state; count], LOWEST));
        }
    }
    let mut greatest = 0.0f64;
    for (name, timed) in timed_loadings() {
        greatest = greatest.max(print_bytes(&format!("loading {name}"), &timed));
    }
    println!("the greatest ratio of a loading: {greatest:.3}, at most {LOADING_BOUND:.3}");
    println!();
    println!("beside the earlier library, nanoseconds for each step of a run");
    println!("call                         bytes   earlier    proved  proved/earlier");
    for (name, state, budget) in runs() {
        let timed = [(Call::Run(budget), state.encode())];
        let name = format!("running {name}");
        print_beside(&name, &timed, 1, usize::from(budget));
    }
}

/// The state that takes longest to search for blocked pairs, and a step on it.
fn worst_for_pairs() {
    println!();
    println!("many blocked actions and no pair, over the like state with none blocked");
    println!("crowd                                       proved    second");
    let mut worst = None;
    let mut most = 0.0;
    for (name, blocked, unblocked) in crowded_states().into_iter().chain([crowded_counts()]) {
        let many = time(&[(Call::Weight, blocked.encode())]);
        let none = time(&[(Call::Weight, unblocked.encode())]);
        let (proved, second) = (many.proved / none.proved, many.second / none.second);
        println!("{name:40} {proved:9.2} {second:9.2}");
        if proved > most {
            most = proved;
            worst = Some((name, blocked));
        }
    }
    let (name, state) = worst.expect("there are crowds");
    println!("worst for the proved library: {most:.2}, {name}");
    print_head("stepping on the worst of these");
    print_line("lowest", &stepping(&[state], LOWEST));
}

/// The quickest of several times in milliseconds that each program takes from its start to its end, in
/// turn, with the input on its standard input and its standard output read through a pipe.
fn time_programs<const COUNT: usize>(
    programs: [&Path; COUNT],
    input: &[u8],
    rounds: usize,
) -> [f64; COUNT] {
    let mut best = [f64::INFINITY; COUNT];
    for _ in 0..rounds {
        for (program, best) in programs.iter().zip(&mut best) {
            let start = Instant::now();
            black_box(printed_by(program, input)).expect("a timed program ends well");
            *best = best.min(start.elapsed().as_secs_f64() * 1_000.0);
        }
    }
    best
}

/// Both programs on the same jobs, and a process that does nothing.
fn sessions(proved: &Path, second: &Path) {
    println!();
    println!("the programs, milliseconds from start to end, what they print read through a pipe");
    println!("job                 bytes  steps    proved    second  proved/second");
    for (name, job, rounds) in [
        (
            "adapter-and-deck",
            printed_job().encode(),
            SHORT_SESSION_ROUNDS,
        ),
        ("endless", example("endless"), SESSION_ROUNDS),
        ("wide", wide_job(TIMED_RUN).encode(), SESSION_ROUNDS),
        (
            "waiting",
            waiting_job(Kind::InternalInput, 1_900, 30).encode(),
            SESSION_ROUNDS,
        ),
    ] {
        let [printed, due] = [proved, second].map(|program| printed_by(program, &job));
        // An older program prints no number of partners.
        assert!(printed == due || !COUNTING, "the programs differ on {name}");
        let lines = due.iter().flatten().filter(|byte| **byte == b'\n');
        let (length, steps) = (job.len(), lines.count() - 1);
        let [proved, second] = time_programs([proved, second], &job, rounds);
        let ratio = proved / second;
        println!("{name:17} {length:7} {steps:6} {proved:9.2} {second:9.2} {ratio:14.2}");
    }
    let [nothing] = time_programs([Path::new("true")], &[], SHORT_SESSION_ROUNDS);
    println!("a process that does nothing: {nothing:.2}");
}

fn main() {
    let program = found_program();
    let read = reading();
    writing();
    loading();
    let step = listing_and_stepping();
    let run = running();
    by_the_panel();
    match COUNTING {
        true => counting(),
        false => {
            println!("\nthe partners of a place were not timed: this library does not count them")
        }
    }
    let sweep = match SWEEPING {
        true => Some(sweeping()),
        false => {
            println!("\nsweeping was not timed: this library does not sweep");
            None
        }
    };
    asking_for_any();
    running_among_thousands();
    println!();
    println!("the greatest of these ratios, and what it is to be at most");
    for (name, greatest, bound) in [
        ("reading", read, READING_BOUND),
        ("a step", step, STEP_BOUND),
        ("a run", run, RUN_BOUND),
    ] {
        println!("{name:8} {greatest:9.2} {bound:9.2}");
    }
    if let Some(greatest) = sweep {
        println!("a sweep of 32 KB over reading it: {greatest:.2}, at most {SWEEP_BOUND:.2}");
    }
    worst_for_pairs();
    match LINKED {
        true => beside_earlier(),
        false => println!("\nno earlier library was timed beside this one: {NOT_LINKED}"),
    }
    let this = std::env::current_exe().expect("this program has a path");
    let second = this.with_file_name("session");
    match program {
        Some(proved) if second.exists() => sessions(&proved, &second),
        Some(_) => {
            println!("\nthe programs were not timed: cargo build --release makes the second")
        }
        None => println!("\nthe programs were not timed: {NO_PROGRAM}"),
    }
}
