// The proved library behind one safe function for each of its calls, and where the proved program is.

use crate::panel::Panel;
use std::path::PathBuf;
use std::process::{exit, Command, Stdio};

/// What a program says when the library is missing; without it none of its calls may be made.
const MISSING: &str =
    "the proved library is missing: set CABINET_LIB to the folder of libcabinet.a and build again";

/// What a program says when the library is an older one that does not count partners, or does not sweep.
pub const NOT_COUNTING: &str = "the proved library has no cabinet_partners: build it again";
pub const NOT_SWEEPING: &str = "the proved library has no cabinet_sweep: build it again";

/// Whether the library counts partners, and whether it sweeps.
pub const COUNTING: bool = cfg!(counting);
pub const SWEEPING: bool = cfg!(sweeping);

/// What a program says after what it has left out, when the proved program is missing.
pub const NO_PROGRAM: &str = "set CAM to the path of the proved program, ../crates/cam/out/cam";

/// The path of the proved program if CAM names it. Ends this program with 2 if that cannot be started
/// or the library is missing.
pub fn found_program() -> Option<PathBuf> {
    let path = std::env::var_os("CAM").filter(|path| !path.is_empty());
    let path = path.map(PathBuf::from);
    if let Some(path) = &path {
        let mut command = Command::new(path);
        let command = command.stdin(Stdio::null()).stdout(Stdio::null());
        if let Err(error) = command.status() {
            println!("CAM is {}: {error}", path.display());
            exit(2);
        }
    }
    if !cfg!(proved) {
        println!("{MISSING}");
        exit(2);
    }
    path
}

/// Of the calls that only write a result.
#[repr(C)]
pub(crate) struct LengthAnswer {
    pub(crate) refusal: u32,
    pub(crate) length: u32,
}

#[repr(C)]
pub(crate) struct WeightAnswer {
    pub(crate) refusal: u32,
    pub(crate) weight: u32,
}

#[repr(C)]
struct PartnersAnswer {
    refusal: u32,
    lowest: u32,
    count: u32,
}

#[repr(C)]
pub(crate) struct StepAnswer {
    pub(crate) refusal: u32,
    pub(crate) rule: u32,
    pub(crate) length: u32,
}

#[repr(C)]
pub(crate) struct RunAnswer {
    pub(crate) refusal: u32,
    pub(crate) ending: u32,
    pub(crate) steps: u32,
    pub(crate) length: u32,
}

#[cfg(proved)]
extern "C" {
    fn cabinet_write_job(
        free: u16,
        process: *const u8,
        process_length: usize,
        out: *mut u8,
        out_length: usize,
    ) -> LengthAnswer;
    fn cabinet_load(
        job: *const u8,
        job_length: usize,
        out: *mut u8,
        out_length: usize,
    ) -> LengthAnswer;
    fn cabinet_weight(state: *const u8, state_length: usize) -> WeightAnswer;
    fn cabinet_list(
        state: *const u8,
        state_length: usize,
        out: *mut u8,
        out_length: usize,
    ) -> LengthAnswer;
    #[cfg(counting)]
    fn cabinet_partners(state: *const u8, state_length: usize, place: u16) -> PartnersAnswer;
    #[cfg(sweeping)]
    fn cabinet_sweep(
        state: *const u8,
        state_length: usize,
        out: *mut u8,
        out_length: usize,
    ) -> LengthAnswer;
    fn cabinet_step(
        state: *const u8,
        state_length: usize,
        place: u16,
        partner: u16,
        out: *mut u8,
        out_length: usize,
    ) -> StepAnswer;
    fn cabinet_run(
        state: *const u8,
        state_length: usize,
        budget: u16,
        out: *mut u8,
        out_length: usize,
    ) -> RunAnswer;
    fn cabinet_panel_start(panel: *mut Panel, length: u32);
    fn cabinet_panel_read(panel: *const Panel, address: u8) -> u8;
    fn cabinet_panel_write(
        panel: *mut Panel,
        address: u8,
        value: u8,
        state: *mut u8,
        state_length: usize,
        spare: *mut u8,
        spare_length: usize,
    );
    fn cabinet_panel_line(panel: *const Panel) -> u8;
}

/// Writes the job of a process; gives its length or the refusal.
pub fn write_job(free: u16, process: &[u8], out: &mut [u8]) -> Result<u32, u32> {
    let (bytes, room) = (process.as_ptr(), out.as_mut_ptr());
    // Both slices are lent for the call only, with their own lengths.
    let answer = unsafe { cabinet_write_job(free, bytes, process.len(), room, out.len()) };
    settle(answer.refusal, [answer.length]).map(|[length]| length)
}

/// Loads a job; gives the length of the state or the refusal.
pub fn load(job: &[u8], out: &mut [u8]) -> Result<u32, u32> {
    // Both slices are lent for the call only, with their own lengths.
    let answer = unsafe { cabinet_load(job.as_ptr(), job.len(), out.as_mut_ptr(), out.len()) };
    settle(answer.refusal, [answer.length]).map(|[length]| length)
}

/// Reads a state and weighs it; gives the weight or the refusal.
pub fn weigh(state: &[u8]) -> Result<u32, u32> {
    // The slice is lent for the call only, with its own length.
    let answer = unsafe { cabinet_weight(state.as_ptr(), state.len()) };
    settle(answer.refusal, [answer.weight]).map(|[weight]| weight)
}

/// Lists the places that can act; gives the length of the list in bytes or the refusal.
pub fn list(state: &[u8], out: &mut [u8]) -> Result<u32, u32> {
    // Both slices are lent for the call only, with their own lengths.
    let answer = unsafe { cabinet_list(state.as_ptr(), state.len(), out.as_mut_ptr(), out.len()) };
    settle(answer.refusal, [answer.length]).map(|[length]| length)
}

/// The partners of a place; gives the lowest, or 65,535 if there is none, and how many there are, or the
/// refusal.
pub fn partners(state: &[u8], place: u16) -> Result<[u32; 2], u32> {
    // The slice is lent for the call only, with its own length.
    let answer = unsafe { cabinet_partners(state.as_ptr(), state.len(), place) };
    settle(answer.refusal, [answer.lowest, answer.count])
}

/// Sweeps a state; gives the length of what is left or the refusal.
pub fn sweep(state: &[u8], out: &mut [u8]) -> Result<u32, u32> {
    // Both slices are lent for the call only, with their own lengths.
    let answer = unsafe { cabinet_sweep(state.as_ptr(), state.len(), out.as_mut_ptr(), out.len()) };
    settle(answer.refusal, [answer.length]).map(|[length]| length)
}

/// Takes one step by the choice given; gives the rule and the length of the result, or the refusal.
pub fn step(state: &[u8], place: u16, partner: u16, out: &mut [u8]) -> Result<[u32; 2], u32> {
    let (bytes, room) = (state.as_ptr(), out.as_mut_ptr());
    // Both slices are lent for the call only, with their own lengths.
    let answer = unsafe { cabinet_step(bytes, state.len(), place, partner, room, out.len()) };
    settle(answer.refusal, [answer.rule, answer.length])
}

/// Runs a state for at most so many steps; gives the ending, the count of steps and the length of the
/// last state, or the refusal.
pub fn run(state: &[u8], budget: u16, out: &mut [u8]) -> Result<[u32; 3], u32> {
    let (bytes, room) = (state.as_ptr(), out.as_mut_ptr());
    // Both slices are lent for the call only, with their own lengths.
    let answer = unsafe { cabinet_run(bytes, state.len(), budget, room, out.len()) };
    settle(answer.refusal, [answer.ending, answer.steps, answer.length])
}

/// Sets the length of the state, and every register to 0.
pub fn panel_start(panel: &mut Panel, length: u32) {
    // The record is lent for the call only.
    unsafe { cabinet_panel_start(panel, length) }
}

/// What a register reads as.
pub fn panel_read(panel: &Panel, address: u8) -> u8 {
    // The record is lent for the call only.
    unsafe { cabinet_panel_read(panel, address) }
}

/// Writes to a register, with the state's buffer and a second one lent.
pub fn panel_write(panel: &mut Panel, address: u8, value: u8, state: &mut [u8], spare: &mut [u8]) {
    let (bytes, room) = (state.as_mut_ptr(), spare.as_mut_ptr());
    // The record and both slices are lent for the call only, the slices with their own lengths.
    unsafe { cabinet_panel_write(panel, address, value, bytes, state.len(), room, spare.len()) }
}

/// The interrupt line: 1 while it is high, else 0.
pub fn panel_line(panel: &Panel) -> u8 {
    // The record is lent for the call only.
    unsafe { cabinet_panel_line(panel) }
}

/// The numbers of an accepted call. Those of a refused one are to be 0.
pub(crate) fn settle<const COUNT: usize>(
    refusal: u32,
    numbers: [u32; COUNT],
) -> Result<[u32; COUNT], u32> {
    if refusal == 0 {
        return Ok(numbers);
    }
    assert_eq!(numbers, [0; COUNT], "beside the refusal {refusal}");
    Err(refusal)
}

// Stand-ins that let everything be compiled and checked without the library.
#[cfg(not(proved))]
unsafe fn cabinet_write_job(_: u16, _: *const u8, _: usize, _: *mut u8, _: usize) -> LengthAnswer {
    panic!("{MISSING}")
}

#[cfg(not(proved))]
unsafe fn cabinet_load(_: *const u8, _: usize, _: *mut u8, _: usize) -> LengthAnswer {
    panic!("{MISSING}")
}

#[cfg(not(proved))]
unsafe fn cabinet_weight(_: *const u8, _: usize) -> WeightAnswer {
    panic!("{MISSING}")
}

#[cfg(not(proved))]
unsafe fn cabinet_list(_: *const u8, _: usize, _: *mut u8, _: usize) -> LengthAnswer {
    panic!("{MISSING}")
}

#[cfg(not(counting))]
unsafe fn cabinet_partners(_: *const u8, _: usize, _: u16) -> PartnersAnswer {
    panic!("{}", if cfg!(proved) { NOT_COUNTING } else { MISSING })
}

#[cfg(not(sweeping))]
unsafe fn cabinet_sweep(_: *const u8, _: usize, _: *mut u8, _: usize) -> LengthAnswer {
    panic!("{}", if cfg!(proved) { NOT_SWEEPING } else { MISSING })
}

#[cfg(not(proved))]
unsafe fn cabinet_step(_: *const u8, _: usize, _: u16, _: u16, _: *mut u8, _: usize) -> StepAnswer {
    panic!("{MISSING}")
}

#[cfg(not(proved))]
unsafe fn cabinet_run(_: *const u8, _: usize, _: u16, _: *mut u8, _: usize) -> RunAnswer {
    panic!("{MISSING}")
}

#[cfg(not(proved))]
unsafe fn cabinet_panel_start(_: *mut Panel, _: u32) {
    panic!("{MISSING}")
}

#[cfg(not(proved))]
unsafe fn cabinet_panel_read(_: *const Panel, _: u8) -> u8 {
    panic!("{MISSING}")
}

#[cfg(not(proved))]
unsafe fn cabinet_panel_write(
    _: *mut Panel,
    _: u8,
    _: u8,
    _: *mut u8,
    _: usize,
    _: *mut u8,
    _: usize,
) {
    panic!("{MISSING}")
}

#[cfg(not(proved))]
unsafe fn cabinet_panel_line(_: *const Panel) -> u8 {
    panic!("{MISSING}")
}
