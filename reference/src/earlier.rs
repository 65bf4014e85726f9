// An earlier build of the proved library, linked beside the present one under other names, so that both are timed in one
// run.

use crate::comparison::{Answer, Call, Outcome};
use crate::proved::{settle, LengthAnswer, RunAnswer, StepAnswer, WeightAnswer};

/// Whether one is linked.
pub const LINKED: bool = cfg!(earlier);

/// What a program says when none is.
pub const NOT_LINKED: &str =
    "set CABINET_EARLIER to the folder of an earlier libcabinet.a and build again";

#[cfg(earlier)]
extern "C" {
    fn earlier_cabinet_load(_: *const u8, _: usize, _: *mut u8, _: usize) -> LengthAnswer;
    fn earlier_cabinet_weight(_: *const u8, _: usize) -> WeightAnswer;
    fn earlier_cabinet_list(_: *const u8, _: usize, _: *mut u8, _: usize) -> LengthAnswer;
    fn earlier_cabinet_step(
        _: *const u8,
        _: usize,
        place: u16,
        partner: u16,
        _: *mut u8,
        _: usize,
    ) -> StepAnswer;
    fn earlier_cabinet_run(_: *const u8, _: usize, budget: u16, _: *mut u8, _: usize) -> RunAnswer;
}

/// The earlier library, of which these five calls alone are made.
pub fn earlier(call: Call, input: &[u8], out: &mut [u8]) -> Answer {
    let (bytes, length) = (input.as_ptr(), input.len());
    let (room, size) = (out.as_mut_ptr(), out.len());
    let plain = |LengthAnswer { refusal, length }| settle(refusal, [length]);
    let answer = match call {
        // Both slices are lent for the call only, with their own lengths.
        Call::Load => plain(unsafe { earlier_cabinet_load(bytes, length, room, size) }),
        Call::List => plain(unsafe { earlier_cabinet_list(bytes, length, room, size) }),
        Call::Weight => {
            let answer = unsafe { earlier_cabinet_weight(bytes, length) };
            settle(answer.refusal, [answer.weight])
        }
        Call::Step(place, partner) => {
            let answer = unsafe { earlier_cabinet_step(bytes, length, place, partner, room, size) };
            let numbers = settle(answer.refusal, [answer.rule, answer.length]);
            return numbers.map(Outcome::stepped);
        }
        Call::Run(budget) => {
            let answer = unsafe { earlier_cabinet_run(bytes, length, budget, room, size) };
            let numbers = settle(answer.refusal, [answer.ending, answer.steps, answer.length]);
            return numbers.map(Outcome::ran);
        }
        Call::Write(_) | Call::Partners(_) | Call::Sweep => {
            panic!("not timed beside an earlier one")
        }
    };
    answer.map(|[result]| Outcome::plain(result))
}

// Stand-ins that let everything be compiled and checked without it.
#[cfg(not(earlier))]
unsafe fn earlier_cabinet_load(_: *const u8, _: usize, _: *mut u8, _: usize) -> LengthAnswer {
    panic!("{NOT_LINKED}")
}

#[cfg(not(earlier))]
unsafe fn earlier_cabinet_weight(_: *const u8, _: usize) -> WeightAnswer {
    panic!("{NOT_LINKED}")
}

#[cfg(not(earlier))]
unsafe fn earlier_cabinet_list(_: *const u8, _: usize, _: *mut u8, _: usize) -> LengthAnswer {
    panic!("{NOT_LINKED}")
}

#[cfg(not(earlier))]
unsafe fn earlier_cabinet_step(
    _: *const u8,
    _: usize,
    _: u16,
    _: u16,
    _: *mut u8,
    _: usize,
) -> StepAnswer {
    panic!("{NOT_LINKED}")
}

#[cfg(not(earlier))]
unsafe fn earlier_cabinet_run(_: *const u8, _: usize, _: u16, _: *mut u8, _: usize) -> RunAnswer {
    panic!("{NOT_LINKED}")
}
