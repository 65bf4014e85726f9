// The examples the documents print: P1 to P10, the sizes, and the session. P1, P2 and P4 to P6, the sizes and the session
// are those of document 02's request 4.

use reference::cases::bare;
use reference::machine::{load, run, run_watched, session, step, weigh, weight, NO_PARTNER};
use reference::machine::{Ending, Run};
use reference::shapes::{job_of_depth, job_of_size, printed_job, printed_pair, state_at_name};
use reference::spelling::{read_state, Spelled};

const FIRST_JOB: [u8; 8] = [0x10, 0, 5, 0, 1, 0x20, 0, 0];
const FIRST_STATE: [u8; 18] = [
    0x11, 0, 0x0F, 0, 1, 0, 1, 0x40, 0, 8, 0, 0, 0x42, 0, 3, 0x20, 0, 0,
];

/// Loads into a buffer of full length and cuts off what lies behind the result.
fn loaded(job: &[u8]) -> Result<Vec<u8>, u8> {
    let mut out = vec![0; 32_768];
    let length = load(job, &mut out)?;
    out.truncate(length);
    Ok(out)
}

fn stepped(state: &[u8], place: u16, partner: u16) -> Result<(u8, Vec<u8>), u8> {
    let mut out = vec![0; 32_768];
    let (rule, length) = step(state, place, partner, &mut out)?;
    out.truncate(length);
    Ok((rule, out))
}

#[test]
fn p1_and_p2() {
    assert_eq!(loaded(&FIRST_JOB), Ok(FIRST_STATE.to_vec()));
    let last = vec![0x11, 0, 9, 0, 1, 0, 1, 0x40, 0, 2, 0, 0];
    assert_eq!(stepped(&FIRST_STATE, 1, NO_PARTNER), Ok((31, last.clone())));
    assert_eq!(weigh(&last), Ok(1));
    // The cabinet can act once it holds nothing that is not blocked.
    assert_eq!(stepped(&FIRST_STATE, 0, NO_PARTNER), Err(8));
    let blocked = vec![0x11, 0, 9, 0, 1, 0, 1, 0x41, 0, 2, 0, 0];
    assert_eq!(stepped(&last, 0, NO_PARTNER), Ok((29, blocked.clone())));
    assert_eq!(weigh(&blocked), Ok(0));
}

#[test]
fn p3_and_p4() {
    assert_eq!(loaded(&[]), Err(2));
    assert_eq!(loaded(&[&FIRST_JOB[..], &[0]].concat()), Err(4));
}

#[test]
fn p5_and_p6() {
    assert!(loaded(&job_of_depth(32).encode()).is_ok());
    assert_eq!(loaded(&job_of_depth(33).encode()), Err(5));
}

#[test]
fn p7_and_p8() {
    let (rule, after) = stepped(&state_at_name(4_095).encode(), 0, NO_PARTNER).unwrap();
    assert_eq!((rule, read_state(&after).unwrap().next), (33, 4_096));
    let full = state_at_name(4_096).encode();
    assert_eq!(stepped(&full, 0, NO_PARTNER), Err(11));
}

#[test]
fn p9_and_p10() {
    assert_eq!(weigh(&printed_pair(true).encode()), Ok(2));
    assert_eq!(weigh(&printed_pair(false).encode()), Err(7));
}

#[test]
fn p1_and_p2_of_document_01() {
    // The job has no free names, but its state is one as before.
    assert_eq!(loaded(&[0x10, 0, 5, 0, 0, 0x20, 0, 0]), Err(6));
    let state = [0x11, 0, 0x0A, 0, 0, 0, 0, 0x42, 0, 3, 0x20, 0, 0];
    let last = vec![0x11, 0, 4, 0, 0, 0, 0];
    assert_eq!(stepped(&state, 0, NO_PARTNER), Ok((31, last.clone())));
    assert_eq!(weigh(&last), Ok(0));
}

#[test]
fn sizes() {
    let job = job_of_size(32_758).encode();
    assert_eq!(job.len(), 32_758);
    assert_eq!(loaded(&job).unwrap().len(), 32_768);
    assert_eq!(load(&job, &mut vec![0; 32_767]), Err(13));
    for size in [32_759, 32_763, 32_764, 32_768] {
        let job = job_of_size(size).encode();
        assert_eq!(job.len(), size);
        assert_eq!(load(&job, &mut vec![0; 40_000]), Err(13));
    }
    assert_eq!(loaded(&job_of_size(32_769).encode()), Err(1));
}

#[test]
fn the_session() {
    // Document 01's lines with one more step, the cabinet's, and places one higher; and the number of partners that
    // document 02's request 3 puts behind each.
    let printed =
        "1 - 32 0\n1 - 34 0\n2 - 43 0\n1 - 29 0\n3 - 34 0\n4 2 40 1\n2 - 31 0\n3 - 31 0\n\
                   2 - 29 0\n1 - 29 0\n0 - 29 0\nblocked 11 0\n";
    let job = printed_job().encode();
    assert_eq!(session(&job), printed);
    assert_eq!(session(&FIRST_JOB), "1 - 31 0\n0 - 29 0\nblocked 2 0\n");
    assert_eq!(session(&[]), "2\n");

    let state = loaded(&job).unwrap();
    let mut weights = vec![weigh(&state).unwrap()];
    let mut out = vec![0; 32_768];
    run_watched(&state, 65_535, &mut out, &mut |turn| {
        weights.push(weight(turn.after))
    })
    .unwrap();
    assert_eq!(weights, [8, 7, 6, 5, 4, 3, 5, 4, 3, 2, 1, 0]);
    // Document 01's weights around line 6 are without the cabinet.
    let mut weights = Vec::new();
    let bare = bare(printed_job()).encode();
    run_watched(&bare, 65_535, &mut out, &mut |turn| {
        weights.push(weight(turn.before))
    })
    .unwrap();
    assert_eq!(weights[5..7], [2, 4]);
}

#[test]
fn the_session_by_single_steps() {
    let choices = [1, 1, 2, 1, 3, 4, 2, 3, 2, 1, 0];
    let mut state = loaded(&printed_job().encode()).unwrap();
    for (turn, place) in choices.into_iter().enumerate() {
        let partner = if turn == 5 { 2 } else { NO_PARTNER };
        // Leaving out the partner, or naming one where there is none, is turned down.
        let (wrong, number) = if turn == 5 { (NO_PARTNER, 10) } else { (0, 9) };
        assert_eq!(stepped(&state, place, wrong), Err(number));
        state = stepped(&state, place, partner).unwrap().1;
    }
    assert_eq!(weigh(&state), Ok(0));
    let mut out = [0xEE; 100];
    let ended = run(&state, 0, &mut out).unwrap();
    let length = state.len();
    let (ending, steps) = (Ending::Blocked, 0);
    assert_eq!(
        ended,
        Run {
            ending,
            steps,
            length
        }
    );
    assert_eq!(out[..length], state);
    assert!(out[length..].iter().all(|byte| *byte == 0xEE));
}
