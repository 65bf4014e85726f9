// Sides that are wrong in one thing each about how deep ambients nest, made of the second implementation.

use reference::accesses::{self, Access};
use reference::comparison::{second, Answer, Call, Outcome, Side};
use reference::counts::field;
use reference::machine::{acting_places, advance, advance_at_any_depth, can_act, deliver};
use reference::machine::{element_at, lowest_choice, paths, weight, Path};
use reference::nested::ANY_NESTING;
use reference::panel::{Panel, ALL_BLOCKED, FLAGS, PARTNER, PLACE, REFUSAL, REFUSED, RULE};
use reference::panel::{STEP_DONE, WEIGHT};
use reference::partners::count_partners;
use reference::spelling::{blocked_pair, read_job, read_nested, read_nested_with_pairs};
use reference::spelling::{read_process, Spelled};
use reference::spelling::{LISTED_NESTING, LONGEST, NESTING, STATE_DEPTH};
use reference::sweeping::swept;
use reference::tree::{Element, Process, State};

/// Reads a state.
type Reading<'reading> = &'reading dyn Fn(&[u8]) -> Result<State, u8>;

/// Takes a step on a state.
type Advance<'advance> = &'advance dyn Fn(&State, u16, u16) -> Result<(u8, State), u8>;

/// Gives the places that a listing writes.
type Places<'places> = &'places dyn Fn(&State) -> Vec<u16>;

/// An outcome with nothing in it but this.
fn plain(result: usize) -> Outcome {
    Outcome {
        result: result as u32,
        ..Outcome::default()
    }
}

/// How a call reads, steps and lists.
type Parts<'parts> = (Reading<'parts>, Advance<'parts>, Places<'parts>);

/// Makes a call on a state that is read so, stepped so and listed so.
fn made(call: Call, input: &[u8], out: &mut [u8], parts: Parts) -> Answer {
    match call {
        Call::Load | Call::Write(_) => second(call, input, out),
        _ => made_on_state(call, input, out, parts).map_err(u32::from),
    }
}

fn made_on_state(
    call: Call,
    input: &[u8],
    out: &mut [u8],
    (read, advance, places): Parts,
) -> Result<Outcome, u8> {
    let state = read(input)?;
    let mut written = |bytes: &[u8]| deliver(bytes, out).map(plain);
    match call {
        Call::Weight => Ok(plain(weight(&state) as usize)),
        Call::List => {
            let places = places(&state).into_iter();
            let bytes: Vec<u8> = places.flat_map(u16::to_be_bytes).collect();
            written(&bytes)
        }
        Call::Step(place, partner) => {
            let (rule, next) = advance(&state, place, partner)?;
            Ok(Outcome {
                rule: u32::from(rule),
                ..written(&next.encode())?
            })
        }
        Call::Run(budget) => ran(state, input, budget, out, advance),
        Call::Partners(place) => {
            if !acting_places(&state).contains(&place) {
                return Err(8);
            }
            let found = count_partners(&state, place);
            Ok(Outcome {
                lowest: u32::from(found.lowest),
                count: u32::from(found.count),
                ..plain(0)
            })
        }
        Call::Sweep => written(&swept(&state).encode()),
        Call::Load | Call::Write(_) => panic!("no call on a state"),
    }
}

/// A run of a state by steps that are taken so.
fn ran(
    mut state: State,
    first: &[u8],
    budget: u16,
    out: &mut [u8],
    advance: Advance,
) -> Result<Outcome, u8> {
    let mut last = first.to_vec();
    if last.len() > out.len() {
        return Err(13);
    }
    let mut steps = 0;
    let ending = loop {
        let Some((place, partner)) = lowest_choice(&state) else {
            break 0;
        };
        if steps == u32::from(budget) {
            break 1;
        }
        let next = match advance(&state, place, partner) {
            Ok((_, next)) => next,
            Err(number) => break number,
        };
        let encoded = next.encode();
        if encoded.len() > LONGEST.min(out.len()) {
            break 13;
        }
        (state, last, steps) = (next, encoded, steps + 1);
    };
    Ok(Outcome {
        ending: u32::from(ending),
        steps,
        ..plain(deliver(&last, out)?)
    })
}

/// How deep ambients nest at most in what a call reads.
fn limit(call: Call) -> usize {
    match call {
        Call::List => LISTED_NESTING,
        _ => NESTING,
    }
}

/// The second implementation made of these parts.
pub const RIGHT: Side = |call, input, out| {
    let read = |bytes: &[u8]| judged(bytes, limit(call), level);
    made(call, input, out, (&read, &advance, &acting_places))
};

/// The calls that read a state, by their numbers here.
const CALLS: [&str; 6] = ["weight", "list", "step", "run", "partners", "sweep"];
const WEIGHT_CALL: usize = 0;
const LIST: usize = 1;
const STEP: usize = 2;
const RUN: usize = 3;
const ASKED: usize = 4;
const SWEEP: usize = 5;

/// The second implementation where this call reads so deep.
fn reads<const CALL: usize, const LIMIT: usize>(
    call: Call,
    input: &[u8],
    out: &mut [u8],
) -> Answer {
    if call.name() != CALLS[CALL] {
        return second(call, input, out);
    }
    let read = |bytes: &[u8]| read_nested(bytes, LIMIT);
    made(call, input, out, (&read, &advance, &acting_places))
}

/// The second implementation where the results of this call nest so deep.
fn results<const CALL: usize, const LIMIT: usize>(
    call: Call,
    input: &[u8],
    out: &mut [u8],
) -> Answer {
    if call.name() != CALLS[CALL] {
        return second(call, input, out);
    }
    let advance = |state: &State, place, partner| {
        let (rule, next) = advance_at_any_depth(state, place, partner)?;
        let is_deep = next.depth() > STATE_DEPTH || next.nesting() > LIMIT;
        if is_deep {
            Err(12)
        } else {
            Ok((rule, next))
        }
    };
    let read = |bytes: &[u8]| read_nested(bytes, NESTING);
    made(call, input, out, (&read, &advance, &acting_places))
}

/// A step that was taken: its rule, the path of what acted, the state before it and the state after it.
struct Taken<'step> {
    rule: u8,
    path: Path,
    before: &'step State,
    after: &'step State,
}

impl Taken<'_> {
    fn enters(&self) -> bool {
        matches!(self.rule, 39 | 40)
    }

    fn leaves(&self) -> bool {
        matches!(self.rule, 41 | 42)
    }

    /// Whether the result nests too deep.
    fn is_deep(&self) -> bool {
        self.after.nesting() > NESTING
    }

    /// The level at which the ambient that enters stands then.
    fn level_entered(&self) -> usize {
        self.path.len()
    }
}

/// The second implementation with another judging of the nesting of a result; of the step that was taken.
macro_rules! judging {
    ($is_deep:expr) => {
        |call, input, out| {
            let is_deep: fn(&Taken) -> bool = $is_deep;
            let advance = |state: &State, place: u16, partner: u16| {
                let (rule, next) = advance_at_any_depth(state, place, partner)?;
                let taken = Taken {
                    rule,
                    path: paths(state).swap_remove(usize::from(place)),
                    before: state,
                    after: &next,
                };
                match next.depth() > STATE_DEPTH || is_deep(&taken) {
                    true => Err(12),
                    false => Ok((rule, next)),
                }
            };
            let read = |bytes: &[u8]| read_nested(bytes, limit(call));
            made(call, input, out, (&read, &advance, &acting_places))
        }
    };
}

/// The second implementation that reads a state in another way; of the bytes and the limit of nesting.
macro_rules! reading {
    ($read:expr) => {
        |call, input, out| {
            let read: fn(&[u8], usize) -> Result<State, u8> = $read;
            let read = |bytes: &[u8]| read(bytes, limit(call));
            made(call, input, out, (&read, &advance, &acting_places))
        }
    };
}

/// The like where another level counts for a field.
macro_rules! leveling {
    ($level:expr) => {
        reading!(|bytes, limit| judged(bytes, limit, $level))
    };
}

/// The second implementation that reads a state of a listing in another way.
macro_rules! listing_of {
    ($read:expr) => {
        |call, input, out| {
            let read: fn(&[u8]) -> Result<State, u8> = $read;
            match call {
                Call::List => made(call, input, out, (&read, &advance, &acting_places)),
                call => second(call, input, out),
            }
        }
    };
}

/// The second implementation that lists other places.
macro_rules! listing {
    ($places:expr) => {
        |call, input, out| {
            let places: fn(&State) -> Vec<u16> = $places;
            let read = |bytes: &[u8]| read_nested(bytes, LISTED_NESTING);
            match call {
                Call::List => made(call, input, out, (&read, &advance, &places)),
                call => second(call, input, out),
            }
        }
    };
}

/// An element's field as it stands in the bytes.
struct Spot<'bytes> {
    bytes: &'bytes [u8],
    start: usize,
    /// Where the field around it ends.
    end: usize,
    /// Where the fields of the ambients around it start.
    around: Vec<usize>,
    /// Its number in its list.
    index: usize,
}

impl Spot<'_> {
    fn tag(&self) -> u8 {
        self.bytes[self.start]
    }

    /// Whether it is an ambient; no 40 is due in a 41.
    fn is_ambient(&self) -> bool {
        let is_shut = |start: &usize| self.bytes[*start] == 0x41;
        match self.tag() {
            0x40 => !self.around.last().is_some_and(is_shut),
            tag => tag == 0x41,
        }
    }

    fn has_header(&self) -> bool {
        self.end - self.start >= 3
    }

    /// Where the field ends, if its header is there and it ends within the field around it.
    fn own_end(&self) -> Option<usize> {
        let length = self.bytes.get(self.start + 1..self.start + 3)?;
        let end = self.start + 3 + usize::from(u16::from_be_bytes([length[0], length[1]]));
        (self.has_header() && end <= self.end).then_some(end)
    }

    fn body(&self) -> &[u8] {
        let end = self.own_end().expect("the field is whole");
        &self.bytes[self.start + 3..end]
    }

    /// The state that ends in front of the field.
    fn before(&self) -> Vec<u8> {
        let mut bytes = self.bytes[..self.start].to_vec();
        for start in [0].iter().chain(&self.around) {
            let length = (self.start - start - 3) as u16;
            bytes[start + 1..start + 3].copy_from_slice(&length.to_be_bytes());
        }
        bytes
    }
}

/// The fields of the elements of a state in the order of the bytes, up to the first that is not whole.
fn spots(bytes: &[u8]) -> Vec<Spot<'_>> {
    fn gather<'bytes>(
        bytes: &'bytes [u8],
        (mut start, end): (usize, usize),
        around: &[usize],
        spots: &mut Vec<Spot<'bytes>>,
    ) -> bool {
        let mut index = 0;
        while start < end {
            let around = around.to_vec();
            let spot = Spot {
                bytes,
                start,
                end,
                around,
                index,
            };
            let (own_end, is_ambient) = (spot.own_end(), spot.is_ambient());
            let inner = [&spot.around[..], &[start]].concat();
            spots.push(spot);
            let Some(own_end) = own_end else {
                return false;
            };
            let is_whole = !is_ambient || gather(bytes, (start + 5, own_end), &inner, spots);
            if !is_whole || inner.len() > ANY_NESTING {
                return false;
            }
            start = own_end;
            index += 1;
        }
        true
    }
    let mut spots = Vec::new();
    if let [0x11, high, low, ..] = bytes {
        let end = 3 + usize::from(u16::from_be_bytes([*high, *low]));
        if end <= bytes.len() {
            gather(bytes, (7, end), &[], &mut spots);
        }
    }
    spots
}

/// The level of a field: that of an ambient whose field is whole, a root ambient being at 1, and 0 for any other.
fn level(spot: &Spot) -> usize {
    match spot.is_ambient() && spot.own_end().is_some() {
        true => spot.around.len() + 1,
        false => 0,
    }
}

/// The first field whose level is greater than the limit, if nothing is refused in front of it.
fn first_deep(bytes: &[u8], limit: usize, level: fn(&Spot) -> usize) -> Option<Spot<'_>> {
    let deep = spots(bytes).into_iter().find(|spot| level(spot) > limit);
    let is_first = |spot: &Spot| read_nested_with_pairs(&spot.before(), ANY_NESTING).is_ok();
    deep.filter(|_| bytes.len() <= LONGEST).filter(is_first)
}

/// Reads a state and refuses the first field with 5 whose level is greater than the limit.
fn judged(bytes: &[u8], limit: usize, level: fn(&Spot) -> usize) -> Result<State, u8> {
    match first_deep(bytes, limit, level) {
        Some(_) => Err(5),
        None => read_nested(bytes, ANY_NESTING),
    }
}

/// Reads a state and asks for another number where the first ambient that is too deep stands.
fn answered(bytes: &[u8], limit: usize, number: fn(&Spot) -> u8) -> Result<State, u8> {
    match first_deep(bytes, limit, level) {
        Some(spot) => Err(number(&spot)),
        None => read_nested(bytes, ANY_NESTING),
    }
}

/// The list with nothing in the ambients at this level.
fn emptied(list: &[Element], level: usize) -> Vec<Element> {
    let mut list = list.to_vec();
    for element in &mut list {
        if let Element::Ambient { contents, .. } = element {
            *contents = match level {
                1 => Vec::new(),
                level => emptied(contents, level - 1),
            };
        }
    }
    list
}

/// Whether the state nests deeper than a result may.
fn is_deep(state: &State) -> bool {
    state.nesting() > NESTING
}

/// Reads the state of a listing, and looks for a blocked pair in what this gives.
fn paired(bytes: &[u8], looked_at: fn(&State) -> Vec<Element>) -> Result<State, u8> {
    let state = read_nested_with_pairs(bytes, LISTED_NESTING)?;
    match blocked_pair(&looked_at(&state), false) {
        true => Err(7),
        false => Ok(state),
    }
}

/// The places of the elements of which this holds, where only those are numbered that are.
fn chosen(
    state: &State,
    is_numbered: fn(&Path) -> bool,
    is_listed: fn(&Element, &Path) -> bool,
) -> Vec<u16> {
    let paths = paths(state).into_iter().filter(is_numbered);
    let listed = paths.zip(0..).filter(|(path, _)| {
        let element = element_at(&state.elements, path);
        is_listed(element, path)
    });
    listed.map(|(_, place)| place).collect()
}

/// The like where all are numbered.
fn listed(state: &State, is_listed: fn(&Element, &Path) -> bool) -> Vec<u16> {
    chosen(state, |_| true, is_listed)
}

/// How deep the ambients of elements and of processes nest.
fn nesting_with_processes(list: &[Element]) -> usize {
    fn of_process(process: &Process) -> usize {
        match process {
            Process::Null => 0,
            Process::Parallel(left, right) => of_process(left).max(of_process(right)),
            Process::Ambient(_, part) => 1 + of_process(part),
            Process::Restriction(part)
            | Process::Action(_, part)
            | Process::Replication(_, part) => of_process(part),
        }
    }
    let nestings = list.iter().map(|element| match element {
        Element::Ambient { contents, .. } => 1 + nesting_with_processes(contents),
        Element::Process(process) | Element::BlockedAction(_, process) => of_process(process),
    });
    nestings.max().unwrap_or(0)
}

/// How deep the ambients of which this holds nest.
fn nesting_of(list: &[Element], counts: fn(bool) -> bool) -> usize {
    let nestings = list.iter().map(|element| match element {
        Element::Ambient {
            blocked, contents, ..
        } => usize::from(counts(*blocked)) + nesting_of(contents, counts),
        _ => 0,
    });
    nestings.max().unwrap_or(0)
}

/// Whether an ambient deeper than a result may have it is blocked, or is not.
fn has_deep(list: &[Element], level: usize, is_blocked: bool) -> bool {
    list.iter().any(|element| match element {
        Element::Ambient {
            blocked, contents, ..
        } => level > NESTING && *blocked == is_blocked || has_deep(contents, level + 1, is_blocked),
        _ => false,
    })
}

/// A wrong side, with what is wrong in it.
pub type Wrong = (&'static str, Side);

/// What a call does, at each wrong limit.
macro_rules! at_wrong_limits {
    ($what:literal, $side:ident, $call:ident) => {
        [
            (
                concat!($what, " at the old limit"),
                $side::<$call, 16> as Side,
            ),
            (concat!($what, " at 9"), $side::<$call, 9>),
            (concat!($what, " at 7"), $side::<$call, 7>),
            (
                concat!($what, " at any nesting"),
                $side::<$call, ANY_NESTING>,
            ),
        ]
    };
}

/// How deep the calls read.
fn wrong_limits() -> Vec<Wrong> {
    let mut wrong: Vec<Wrong> = vec![
        ("the listing reads at the new limit", reads::<LIST, 8>),
        ("the listing reads at 7", reads::<LIST, 7>),
        ("the listing reads at 9", reads::<LIST, 9>),
        ("the listing reads at 15", reads::<LIST, 15>),
        ("the listing reads at 17", reads::<LIST, 17>),
        ("the listing has no limit", reads::<LIST, ANY_NESTING>),
        (
            "a sweep judges what is left",
            |call, input, out| match call {
                Call::Sweep => {
                    let read = |bytes: &[u8]| {
                        let state = read_nested(bytes, LISTED_NESTING)?;
                        let is_deep = is_deep(&swept(&state));
                        if is_deep {
                            Err(5)
                        } else {
                            Ok(state)
                        }
                    };
                    made(call, input, out, (&read, &advance, &acting_places))
                }
                call => second(call, input, out),
            },
        ),
        (
            "a run reads deeper where nothing can act",
            |call, input, out| match call {
                Call::Run(_) => {
                    let read = |bytes: &[u8]| match read_nested(bytes, LISTED_NESTING) {
                        Ok(state) if acting_places(&state).is_empty() => Ok(state),
                        _ => read_nested(bytes, NESTING),
                    };
                    made(call, input, out, (&read, &advance, &acting_places))
                }
                call => second(call, input, out),
            },
        ),
    ];
    wrong.extend(at_wrong_limits!("the weight reads", reads, WEIGHT_CALL));
    wrong.extend(at_wrong_limits!("a step reads", reads, STEP));
    wrong.extend(at_wrong_limits!("a run reads", reads, RUN));
    wrong.extend(at_wrong_limits!("partners read", reads, ASKED));
    wrong.extend(at_wrong_limits!("a sweep reads", reads, SWEEP));
    wrong
}

/// How deep results nest.
fn wrong_results() -> Vec<Wrong> {
    let mut wrong: Vec<Wrong> = vec![
        (
            "only results of rule 34 are judged",
            judging!(|taken| taken.is_deep() && taken.rule == 34),
        ),
        (
            "only results of rules 39 and 40 are judged",
            judging!(|taken| taken.is_deep() && taken.enters()),
        ),
        (
            "results of rule 39 are not judged",
            judging!(|taken| taken.is_deep() && taken.rule != 39),
        ),
        (
            "results of rule 40 are not judged",
            judging!(|taken| taken.is_deep() && taken.rule != 40),
        ),
        (
            "rule 34 needs a level more",
            judging!(|taken| taken.is_deep() || taken.rule == 34 && taken.path.len() + 1 > NESTING),
        ),
        (
            "nothing enters where the state is as deep as may be",
            judging!(|taken| taken.is_deep() || taken.enters() && taken.before.nesting() == NESTING),
        ),
        (
            "nothing leaves where the state is as deep as may be",
            judging!(|taken| taken.is_deep() || taken.leaves() && taken.before.nesting() == NESTING),
        ),
        (
            "no ambient is made where the state is as deep as may be",
            judging!(
                |taken| taken.is_deep() || taken.rule == 34 && taken.before.nesting() == NESTING
            ),
        ),
        (
            "what an ambient holds that enters is not judged",
            judging!(|taken| match taken.enters() {
                true => taken.level_entered() > NESTING,
                false => taken.is_deep(),
            }),
        ),
        (
            "only the first element of the root is judged in a result",
            judging!(|taken| {
                let first = taken.after.elements.first();
                first.is_some_and(|first| first.nesting() > NESTING)
            }),
        ),
        (
            "a 41 does not count in a result",
            judging!(|taken| nesting_of(&taken.after.elements, |blocked| !blocked) > NESTING),
        ),
        ("13 comes before 12", |call, input, out| match call {
            Call::Step(place, partner) => {
                let read = read_nested(input, NESTING);
                let next = read.map(|state| advance_at_any_depth(&state, place, partner).ok());
                match next {
                    Ok(Some((_, next))) if next.encode().len() > out.len() => Err(13),
                    _ => second(call, input, out),
                }
            }
            call => second(call, input, out),
        }),
        (
            "a step too deep is refused with 5",
            |call, input, out| match second(call, input, out) {
                Err(12) => Err(5),
                answer => answer,
            },
        ),
        (
            "a run too deep is refused with 12",
            |call, input, out| match second(call, input, &mut out.to_vec()) {
                Ok(outcome) if outcome.ending == 12 => Err(12),
                _ => second(call, input, out),
            },
        ),
        ("a run too deep ends at 5", |call, input, out| {
            let outcome = second(call, input, out)?;
            match outcome.ending {
                12 => Ok(Outcome {
                    ending: 5,
                    ..outcome
                }),
                _ => Ok(outcome),
            }
        }),
        (
            "a step on a state too deep is refused with 12",
            |call, input, out| match (call, second(call, input, out)) {
                (Call::Step(..), Err(5)) => Err(12),
                (_, answer) => answer,
            },
        ),
        (
            "a run of a state too deep ends at 12",
            |call, input, out| match (call, second(call, input, out)) {
                (Call::Run(_), Err(5)) => Ok(Outcome {
                    ending: 12,
                    ..Outcome::default()
                }),
                (_, answer) => answer,
            },
        ),
    ];
    wrong.extend(at_wrong_limits!("a step's result is judged", results, STEP));
    wrong.extend(at_wrong_limits!("a run's results are judged", results, RUN));
    wrong
}

/// Where 5 is judged.
fn wrong_fields() -> Vec<Wrong> {
    vec![
        (
            "nesting is judged after the name",
            reading!(|bytes, limit| answered(bytes, limit, |spot| {
                let names = u16::from_be_bytes([spot.bytes[5], spot.bytes[6]]);
                match spot.body() {
                    [high, low, ..] if u16::from_be_bytes([*high, *low]) < names => 5,
                    [_, _, ..] => 6,
                    _ => 2,
                }
            })),
        ),
        (
            "nesting is judged after the contents",
            reading!(|bytes, limit| answered(bytes, limit, |spot| {
                let own = &spot.bytes[spot.start..spot.own_end().expect("it is whole")];
                let alone = field(0x11, &[&spot.bytes[3..7], own]);
                read_nested_with_pairs(&alone, ANY_NESTING)
                    .err()
                    .unwrap_or(5)
            })),
        ),
        (
            "nesting is judged after all else is read",
            reading!(|bytes, limit| {
                let state = read_nested_with_pairs(bytes, ANY_NESTING)?;
                match state.nesting() > limit {
                    true => Err(5),
                    false => read_nested(bytes, limit),
                }
            }),
        ),
        (
            "nesting is judged after blocked pairs",
            reading!(|bytes, limit| {
                let state = read_nested(bytes, ANY_NESTING)?;
                if state.nesting() > limit {
                    Err(5)
                } else {
                    Ok(state)
                }
            }),
        ),
        (
            "a blocked pair comes before nesting",
            reading!(|bytes, limit| match read_nested(bytes, ANY_NESTING) {
                Err(7) => Err(7),
                _ => read_nested(bytes, limit),
            }),
        ),
        (
            "nesting is judged before the length",
            leveling!(|spot| match spot.is_ambient() && spot.has_header() {
                true => spot.around.len() + 1,
                false => 0,
            }),
        ),
        (
            "nesting is judged before the header",
            leveling!(|spot| match spot.is_ambient() {
                true => spot.around.len() + 1,
                false => 0,
            }),
        ),
        (
            "nesting is judged before the tag",
            leveling!(
                |spot| match spot.has_header() && !matches!(spot.tag(), 0x42 | 0x43) {
                    true => spot.around.len() + 1,
                    false => 0,
                }
            ),
        ),
        (
            "nothing stands in the deepest ambient",
            leveling!(|spot| spot.around.len() + 1),
        ),
        (
            "a 41 does not count",
            leveling!(|spot| match level(spot) {
                0 => 0,
                _ => counted(spot, 0x40),
            }),
        ),
        (
            "a 40 does not count",
            leveling!(|spot| match level(spot) {
                0 => 0,
                _ => counted(spot, 0x41),
            }),
        ),
        (
            "a 41 may stand a level deeper",
            leveling!(|spot| level(spot).saturating_sub(usize::from(spot.tag() == 0x41))),
        ),
        (
            "a 40 may stand a level deeper",
            leveling!(|spot| level(spot).saturating_sub(usize::from(spot.tag() == 0x40))),
        ),
        (
            "an empty ambient may stand a level deeper",
            leveling!(|spot| match level(spot) {
                0 => 0,
                level => level - usize::from(spot.body().len() == 2),
            }),
        ),
        (
            "only the first of a list is judged",
            leveling!(|spot| if spot.index == 0 { level(spot) } else { 0 }),
        ),
        (
            "the first of a list is not judged",
            leveling!(|spot| if spot.index > 0 { level(spot) } else { 0 }),
        ),
        (
            "only what is in the first ambient of the root is judged",
            leveling!(|spot| if spot.around.first() == Some(&7) {
                level(spot)
            } else {
                0
            }),
        ),
        (
            "the ambients of processes count",
            reading!(|bytes, limit| {
                let state = read_nested(bytes, limit)?;
                match nesting_with_processes(&state.elements) > limit {
                    true => Err(5),
                    false => Ok(state),
                }
            }),
        ),
        (
            "ambients beside each other count",
            reading!(|bytes, limit| {
                let state = read_nested(bytes, limit)?;
                let is_ambient = |path: &Path| {
                    let element = element_at(&state.elements, path);
                    element.ambient().is_some()
                };
                let count = paths(&state).iter().filter(|path| is_ambient(path)).count();
                if count > limit {
                    Err(5)
                } else {
                    Ok(state)
                }
            }),
        ),
    ]
}

/// How many ambients with this tag there are: the field and those around it.
fn counted(spot: &Spot, tag: u8) -> usize {
    let starts = spot.around.iter().chain([&spot.start]);
    starts.filter(|start| spot.bytes[**start] == tag).count()
}

/// What is listed of states that are too deep for other calls.
fn wrong_listings() -> Vec<Wrong> {
    vec![
        (
            "a deep state is listed with a blocked pair",
            listing_of!(|bytes| paired(bytes, |state| match is_deep(state) {
                true => Vec::new(),
                false => state.elements.clone(),
            })),
        ),
        (
            "blocked pairs are looked for in the first eight levels only",
            listing_of!(|bytes| paired(bytes, |state| emptied(&state.elements, 8))),
        ),
        (
            "blocked pairs are looked for in the first nine levels only",
            listing_of!(|bytes| paired(bytes, |state| emptied(&state.elements, 9))),
        ),
        (
            "blocked pairs are looked for in the first fifteen levels only",
            listing_of!(|bytes| paired(bytes, |state| emptied(&state.elements, 15))),
        ),
        (
            "blocked pairs in the sixteenth ambient are not looked for",
            listing_of!(|bytes| paired(bytes, |state| emptied(&state.elements, 16))),
        ),
        ("a deep state is refused with 7", |call, input, out| match (
            call,
            second(call, input, &mut out.to_vec()),
        ) {
            (Call::List, Ok(_)) if read_nested(input, NESTING) == Err(5) => Err(7),
            _ => second(call, input, out),
        }),
        (
            "a blocked pair too deep for other calls is 5",
            listing_of!(|bytes| match read_nested(bytes, LISTED_NESTING) {
                Err(7) if read_nested(bytes, NESTING) == Err(5) => Err(5),
                read => read,
            }),
        ),
        (
            "13 comes before 7 of a deep state",
            |call, input, out| match (call, read_nested_with_pairs(input, LISTED_NESTING)) {
                (Call::List, Ok(state))
                    if is_deep(&state) && 2 * acting_places(&state).len() > out.len() =>
                {
                    Err(13)
                }
                _ => second(call, input, out),
            },
        ),
        (
            "a byte is written where a deep state is refused",
            |call, input, out| {
                let answer = second(call, input, out);
                let is_refused = matches!(answer, Err(5 | 7));
                if let (Call::List, true, Some(byte)) = (call, is_refused, out.first_mut()) {
                    *byte ^= 1;
                }
                answer
            },
        ),
        (
            "a byte is written behind the places of a deep state",
            |call, input, out| {
                let outcome = second(call, input, out)?;
                let is_deep = call == Call::List && read_nested(input, NESTING) == Err(5);
                match out.get_mut(outcome.result as usize) {
                    Some(byte) if is_deep => *byte ^= 1,
                    _ => {}
                }
                Ok(outcome)
            },
        ),
        (
            "nothing is listed of a deep state",
            listing!(|state| match is_deep(state) {
                true => Vec::new(),
                false => acting_places(state),
            }),
        ),
        (
            "what can act is looked for in the first eight lists only",
            listing!(|state| listed(state, |element, path| can_act(element) && path.len() <= 8)),
        ),
        (
            "what can act is looked for in the first nine lists only",
            listing!(|state| listed(state, |element, path| can_act(element) && path.len() <= 9)),
        ),
        (
            "what can act in the sixteenth ambient is not listed",
            listing!(|state| listed(state, |element, path| can_act(element) && path.len() <= 16)),
        ),
        (
            "what is too deep for other calls has no place",
            listing!(|state| chosen(
                state,
                |path| path.len() <= NESTING,
                |element, _| can_act(element)
            )),
        ),
        (
            "an ambient too deep for other calls has no place",
            listing!(|state| {
                let is_left_out = |path: &Path| {
                    let element = element_at(&state.elements, path);
                    path.len() > NESTING && element.ambient().is_some()
                };
                let paths = paths(state).into_iter().filter(|path| !is_left_out(path));
                let listed = paths
                    .zip(0..)
                    .filter(|(path, _)| can_act(element_at(&state.elements, path)));
                listed.map(|(_, place)| place).collect()
            }),
        ),
        (
            "an ambient too deep for other calls is not listed",
            listing!(|state| listed(state, |element, path| can_act(element)
                && (path.len() <= NESTING || element.ambient().is_none()))),
        ),
        (
            "every 40 too deep for other calls is listed",
            listing!(|state| listed(state, |element, path| can_act(element)
                || path.len() > NESTING && !element.is_blocked())),
        ),
        (
            "every ambient too deep for other calls is listed",
            listing!(|state| listed(state, |element, path| can_act(element)
                || path.len() > NESTING && element.ambient().is_some())),
        ),
        (
            "what the eighth ambient holds is not looked at",
            listing!(|state| listed(state, |element, path| can_act(element)
                || path.len() == NESTING && element.ambient().is_some() && !element.is_blocked())),
        ),
        (
            "only processes are listed of a deep state",
            listing!(|state| {
                let places = listed(state, |element, _| {
                    can_act(element) && element.ambient().is_none()
                });
                if is_deep(state) {
                    places
                } else {
                    acting_places(state)
                }
            }),
        ),
        (
            "only ambients are listed of a deep state",
            listing!(|state| {
                let places = listed(state, |element, _| {
                    can_act(element) && element.ambient().is_some()
                });
                if is_deep(state) {
                    places
                } else {
                    acting_places(state)
                }
            }),
        ),
        (
            "a step that would be refused is not listed",
            listing!(|state| {
                let goes_on = |place: &u16| {
                    let stepped = advance_at_any_depth(state, *place, 65_535);
                    stepped.is_ok_and(|(_, next)| next.nesting() <= NESTING)
                };
                let places = acting_places(state).into_iter();
                match is_deep(state) {
                    true => places.filter(goes_on).collect(),
                    false => places.collect(),
                }
            }),
        ),
        (
            "the places of a deep state descend",
            listing!(|state| {
                let mut places = acting_places(state);
                if is_deep(state) {
                    places.reverse();
                }
                places
            }),
        ),
        (
            "a 41 is read at the new limit",
            listing_of!(|bytes| {
                let state = read_nested(bytes, LISTED_NESTING)?;
                let is_refused = has_deep(&state.elements, 1, true);
                if is_refused {
                    Err(5)
                } else {
                    Ok(state)
                }
            }),
        ),
        (
            "a 40 is read at the new limit",
            listing_of!(|bytes| {
                let state = read_nested(bytes, LISTED_NESTING)?;
                let is_refused = has_deep(&state.elements, 1, false);
                if is_refused {
                    Err(5)
                } else {
                    Ok(state)
                }
            }),
        ),
        (
            "processes of a deep state are read at 33",
            listing_of!(|bytes| {
                let state = read_nested(bytes, LISTED_NESTING)?;
                let is_refused = is_deep(&state) && state.depth() > 33;
                if is_refused {
                    Err(5)
                } else {
                    Ok(state)
                }
            }),
        ),
    ]
}

/// The second implementation whose listing overlooks what is refused with this number behind the ninth ambient.
fn overlooks<const NUMBER: u8>(call: Call, input: &[u8], out: &mut [u8]) -> Answer {
    let read = |limit| read_nested_with_pairs(input, limit).err();
    let is_behind = read(ANY_NESTING) == Some(NUMBER) && read(NESTING) == Some(5);
    match call {
        Call::List if is_behind => Ok(plain(0)),
        call => second(call, input, out),
    }
}

/// What is wrong in a state that is too deep for other calls.
fn wrong_faults() -> Vec<Wrong> {
    vec![
        ("2 behind the ninth ambient is overlooked", overlooks::<2>),
        ("3 behind the ninth ambient is overlooked", overlooks::<3>),
        ("4 behind the ninth ambient is overlooked", overlooks::<4>),
        ("5 behind the ninth ambient is overlooked", overlooks::<5>),
        ("6 behind the ninth ambient is overlooked", overlooks::<6>),
        ("14 behind the ninth ambient is overlooked", overlooks::<14>),
        (
            "what is wrong behind the ninth ambient is 5",
            listing_of!(|bytes| match read_nested(bytes, LISTED_NESTING) {
                Ok(state) => Ok(state),
                Err(7) => Err(7),
                Err(_) => read_nested(bytes, NESTING),
            }),
        ),
    ]
}

/// The second implementation that refuses a job whose ambients nest deeper than this, in loading it or in writing it.
fn judges_jobs<const IS_LOADED: bool, const LIMIT: usize>(
    call: Call,
    input: &[u8],
    out: &mut [u8],
) -> Answer {
    let process = match call {
        Call::Load if IS_LOADED => read_job(input).map(|job| job.process),
        Call::Write(free) if !IS_LOADED => read_process(free, input),
        _ => Err(0),
    };
    let nesting = process.map(|process| nesting_with_processes(&[Element::Process(process)]));
    match nesting {
        Ok(nesting) if nesting > LIMIT => Err(5),
        _ => second(call, input, out),
    }
}

/// Jobs whose ambients would nest too deep.
fn wrong_jobs() -> Vec<Wrong> {
    vec![
        ("a job is loaded at the limit", judges_jobs::<true, 8>),
        (
            "a job is loaded at the limit, with the cabinet",
            judges_jobs::<true, 7>,
        ),
        ("a job is written at the limit", judges_jobs::<false, 8>),
    ]
}

/// All of them.
pub fn wrong_nestings() -> Vec<Wrong> {
    [
        wrong_limits(),
        wrong_results(),
        wrong_fields(),
        wrong_listings(),
        wrong_faults(),
        wrong_jobs(),
    ]
    .concat()
}

/// The panel whose steps are those of a side.
fn panel_of(
    side: Side,
    access: Access,
    panel: &mut Panel,
    state: &mut [u8],
    spare: &mut [u8],
) -> u8 {
    if !access.is_step() {
        return accesses::second(access, panel, state, spare);
    }
    let step = Call::Step(panel.pair(PLACE), panel.pair(PARTNER));
    let room = state.len().min(spare.len());
    let stepped = match state.get(..panel.length as usize) {
        Some(front) => side(step, front, &mut spare[..room]),
        None => Err(2),
    };
    let registers = &mut panel.registers;
    let flags = usize::from(FLAGS);
    match stepped {
        Ok(outcome) => {
            let length = outcome.result as usize;
            state[..length].copy_from_slice(&spare[..length]);
            let result = read_nested(&spare[..length], ANY_NESTING);
            let weight = weight(&result.expect("a result is a state")) as u16;
            panel.length = outcome.result;
            registers[usize::from(RULE)] = outcome.rule as u8;
            let pair = usize::from(WEIGHT)..usize::from(WEIGHT) + 2;
            registers[pair].copy_from_slice(&weight.to_be_bytes());
            registers[flags] &= !(ALL_BLOCKED | REFUSED);
            registers[flags] |= STEP_DONE | if weight == 0 { ALL_BLOCKED } else { 0 };
        }
        Err(number) => {
            registers[usize::from(REFUSAL)] = number as u8;
            registers[flags] &= !STEP_DONE;
            registers[flags] |= REFUSED;
        }
    }
    0
}

/// The panel whose steps are those of a side, and the name of it.
macro_rules! panel {
    ($name:expr, $side:expr) => {
        ($name, |access, panel, state, spare| {
            panel_of($side, access, panel, state, spare)
        })
    };
}

/// A wrong panel, with what is wrong in it.
pub type WrongPanel = (&'static str, accesses::Side);

/// The panel made of the parts, which is right.
pub const RIGHT_PANEL: accesses::Side =
    |access, panel, state, spare| panel_of(RIGHT, access, panel, state, spare);

/// Panels whose step is wrong in one thing each.
pub fn wrong_panels() -> Vec<WrongPanel> {
    vec![
        panel!("the panel reads at the old limit", reads::<STEP, 16>),
        panel!("the panel reads at 9", reads::<STEP, 9>),
        panel!("the panel reads at 7", reads::<STEP, 7>),
        panel!("the panel has no limit", reads::<STEP, ANY_NESTING>),
        panel!("its result is judged at the old limit", results::<STEP, 16>),
        panel!("its result is judged at 9", results::<STEP, 9>),
        panel!("its result is judged at 7", results::<STEP, 7>),
        panel!("its result is not judged", results::<STEP, ANY_NESTING>),
        panel!(
            "only results of rule 34 are judged",
            judging!(|taken| taken.is_deep() && taken.rule == 34)
        ),
        panel!(
            "only results of rules 39 and 40 are judged",
            judging!(|taken| taken.is_deep() && taken.enters())
        ),
    ]
}
