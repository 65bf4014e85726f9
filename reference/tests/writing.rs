// The writing of a job: the order of its refusals, and that it writes exactly the jobs that are read.
// What holds of it is shown of the second implementation, and of the proved library where that is linked.

use reference::cabinets::job_of_parts;
use reference::cases::every_case;
use reference::comparison::{proved, second, Call, Side};
use reference::dice::Counts;
use reference::machine::write_job;
use reference::naming::Naming;
use reference::processes::{every_process, parts};
use reference::shapes::{job_of_depth, process_of_size};
use reference::spelling::{read_job, Spelled, LOADING, LONGEST, LONGEST_JOB};
use reference::tree::{Job, Process};

/// The sides that can be called here.
fn sides() -> Vec<Side> {
    if cfg!(proved) {
        vec![second, proved]
    } else {
        vec![second]
    }
}

/// What writing or loading gives: the bytes of the result, or the refusal. Writing adds five bytes, loading ten.
fn given(side: Side, call: Call, input: &[u8]) -> Result<Vec<u8>, u32> {
    let mut out = vec![0xA5; input.len() + LOADING];
    let outcome = side(call, input, &mut out)?;
    out.truncate(outcome.result as usize);
    Ok(out)
}

#[test]
fn the_first_job_is_written() {
    let mut out = [0xEE; 10];
    assert_eq!(write_job(1, &[0x20, 0, 0], &mut out), Ok(8));
    assert_eq!(out, [0x10, 0, 5, 0, 1, 0x20, 0, 0, 0xEE, 0xEE]);
    assert_eq!(write_job(1_024, &[0x20, 0, 0], &mut out[..8]), Ok(8));
    assert_eq!(out, [0x10, 0, 5, 4, 0, 0x20, 0, 0, 0xEE, 0xEE]);
    let mut short = [0xEE; 7];
    assert_eq!(write_job(1, &[0x20, 0, 0], &mut short), Err(13));
    assert_eq!(write_job(0, &[0x20, 0, 0], &mut short), Err(6));
    assert_eq!(short, [0xEE; 7]);
}

#[test]
fn the_refusals_come_in_their_order() {
    let null = Process::Null.encode();
    let sized = |size| process_of_size(size).encode();
    let deep = |depth| job_of_depth(depth).process.encode();
    let followed = |bytes: Vec<u8>, behind: &[u8]| [&bytes, behind].concat();
    for (free, process, number) in [
        // The length of the process comes before all else.
        (1_025, sized(32_769), 1),
        (0, sized(32_769), 1),
        (1, vec![0xFF; 32_769], 1),
        (0, vec![0xFF; 32_769], 1),
        // Then F, before any byte of the process.
        (1, null.clone(), 0),
        (1_024, null.clone(), 0),
        (1_025, null.clone(), 6),
        (65_535, vec![], 6),
        (1_025, vec![0xFF; 32_768], 6),
        (0, null.clone(), 6),
        (0, vec![], 6),
        (0, vec![0xFF, 0, 0], 6),
        (0, vec![0xFF; 32_768], 6),
        (0, deep(33), 6),
        (0, followed(null.clone(), &[0]), 6),
        (0, sized(32_764), 6),
        // Then the process.
        (1, vec![], 2),
        (1, vec![0xFF, 0], 2),
        (1, vec![0xFF, 0, 0], 3),
        (1, vec![0x20, 0, 1], 2),
        (1, vec![0x20, 0, 1, 0], 4),
        (1, vec![0x10, 0, 5, 0, 1, 0x20, 0, 0], 3),
        (1, vec![0x42, 0, 3, 0x20, 0, 0], 3),
        (1, deep(32), 0),
        (1, deep(33), 5),
        (1, vec![0x23, 0, 5, 0, 0, 0x20, 0, 0], 0),
        (1, vec![0x23, 0, 5, 0, 1, 0x20, 0, 0], 6),
        // A variable needs a binder.
        (1_024, vec![0x23, 0, 5, 0x80, 0, 0x20, 0, 0], 6),
        (1, vec![0x22, 0, 8, 0x23, 0, 5, 0x80, 0, 0x20, 0, 0], 0),
        // Then what is left behind it.
        (1, followed(null.clone(), &[0]), 4),
        (1, followed(null.clone(), &null), 4),
        (1, followed(deep(33), &[0]), 5),
        (1, followed(sized(32_767), &[0]), 4),
        // Last the job's length, which is five bytes more. A longer one than can be loaded is written too.
        (1, sized(32_753), 0),
        (1, sized(32_754), 0),
        (1, sized(32_763), 0),
        (1, sized(32_764), 13),
        (1, sized(32_768), 13),
    ] {
        for side in sides() {
            let written = given(side, Call::Write(free), &process);
            let length = process.len();
            assert_eq!(
                written.err().unwrap_or(0),
                number,
                "{free}, {length} bytes: {:x?}",
                &process[..length.min(20)]
            );
        }
    }
}

#[test]
fn a_job_is_written_of_its_parts_where_it_would_be_read() {
    let mut counts = [0; 4];
    every_process(Counts::All, 3, 1, &mut |group, process, frees| {
        for free in frees {
            let job = job_of_parts(*free, process);
            for side in sides() {
                let written = given(side, Call::Write(*free), process);
                if job.len() <= LONGEST {
                    // The refusals are those of the job.
                    let read = read_job(&job).map_err(u32::from);
                    assert_eq!(written.clone().err(), read.err(), "{group}");
                } else {
                    assert!(written.is_err(), "{group}");
                }
                let Ok(written) = written else {
                    counts[0] += 1;
                    continue;
                };
                assert_eq!(written, job, "{group}");
                // Loading judges its names too, and a longer job has a state that is too long.
                let loaded = given(side, Call::Load, &written);
                let job = read_job(&written).unwrap();
                if Naming::of(&job).is_mixed_up() {
                    assert_eq!(loaded, Err(15), "{group}");
                    counts[3] += 1;
                } else if written.len() <= LONGEST_JOB {
                    assert_eq!(loaded.unwrap()[15..], *process, "{group}");
                    counts[1] += 1;
                } else {
                    assert_eq!(loaded, Err(13), "{group}");
                    counts[2] += 1;
                }
            }
        }
    });
    println!("refused, loaded, too long to be loaded, mixed up: {counts:?}");
    assert!(counts[0] >= 50_000 && counts[1] >= 40_000 && counts[2] >= 5);
    assert!(counts[3] >= 10_000);
}

#[test]
fn every_job_that_is_read_is_written_again() {
    let mut count = 0;
    every_case(Counts::All, 3, 1, &mut |group, input| {
        let Ok(Job { free, process }) = read_job(input) else {
            return;
        };
        count += 1;
        assert_eq!(parts(input), Some((free, &process.encode()[..])), "{group}");
        for side in sides() {
            let written = given(side, Call::Write(free), &process.encode());
            assert_eq!(written.as_deref(), Ok(input), "{group}");
        }
    });
    assert!(count >= 20_000);
}

#[test]
fn the_processes_are_fixed_by_their_seed() {
    let gather = |seed| {
        let mut sum = 0u64;
        every_process(Counts::All, seed, 1, &mut |_, process, counts| {
            let bytes = process.iter().take(64).map(|byte| u64::from(*byte));
            for number in bytes.chain(counts.iter().map(|count| u64::from(*count))) {
                sum = sum.wrapping_mul(31).wrapping_add(number);
            }
        });
        sum
    };
    assert_eq!(gather(5), gather(5));
    assert_ne!(gather(5), gather(6));
}
