// Panels that are wrong in one thing each, made of the second implementation.

use reference::accesses::{second, told, Access, Side};
use reference::panel::{Panel, COMMAND, PARTNER, STEP};

/// Makes the access by the second implementation, then changes what it left; the record as it was before is
/// given too.
type Change = fn(Access, &Panel, &mut Panel, &mut [u8], &mut [u8]);

macro_rules! changed {
    ($change:expr) => {
        |access, panel, state, spare| {
            let before = *panel;
            let read = second(access, panel, state, spare);
            let change: Change = $change;
            change(access, &before, panel, state, spare);
            read
        }
    };
}

/// The like where the access is a step that was accepted.
macro_rules! accepted {
    ($change:expr) => {
        changed!(|access, before, panel, state, spare| {
            if access.is_step() && told(panel).is_ok() {
                let change: fn(&Panel, &mut Panel, &mut [u8], &mut [u8]) = $change;
                change(before, panel, state, spare);
            }
        })
    };
}

/// The like where the access is a step that was refused.
macro_rules! refused {
    ($change:expr) => {
        changed!(|access, before, panel, state, spare| {
            if access.is_step() && told(panel).is_err() {
                let change: fn(&Panel, &mut Panel, &mut [u8], &mut [u8]) = $change;
                change(before, panel, state, spare);
            }
        })
    };
}

/// The like where the access is an acknowledge.
macro_rules! acknowledged {
    ($change:expr) => {
        changed!(|access, before, panel, _, _| {
            if matches!(access, Access::Write(0, 2, _)) {
                let change: fn(&Panel, &mut Panel) = $change;
                change(before, panel);
            }
        })
    };
}

/// Another access made in place of this one.
macro_rules! other {
    ($other:expr) => {
        |access, panel, state, spare| {
            let other: fn(Access) -> Access = $other;
            second(other(access), panel, state, spare)
        }
    };
}

/// The second implementation where a write to one of these registers is stored.
fn storing<const FIRST: u8, const LAST: u8>(
    access: Access,
    panel: &mut Panel,
    state: &mut [u8],
    spare: &mut [u8],
) -> u8 {
    let read = second(access, panel, state, spare);
    if let Access::Write(address, value, _) = access {
        if (FIRST..=LAST).contains(&address) {
            panel.registers[usize::from(address)] = value;
        }
    }
    read
}

/// The second implementation where one of these registers reads as it stands.
fn reading<const FIRST: u8, const LAST: u8>(
    access: Access,
    panel: &mut Panel,
    state: &mut [u8],
    spare: &mut [u8],
) -> u8 {
    match access {
        Access::Read(address) if (FIRST..=LAST).contains(&address) => {
            panel.registers[usize::from(address)]
        }
        _ => second(access, panel, state, spare),
    }
}

/// The second implementation with these two registers exchanged before a step and after it.
fn exchanging<const FIRST: usize>(
    access: Access,
    panel: &mut Panel,
    state: &mut [u8],
    spare: &mut [u8],
) -> u8 {
    if !access.is_step() {
        return second(access, panel, state, spare);
    }
    panel.registers.swap(FIRST, FIRST + 1);
    second(access, panel, state, spare);
    panel.registers.swap(FIRST, FIRST + 1);
    0
}

/// A step where the shorter buffer, or one of them alone, counts as longer than it is.
fn with_longer(
    panel: &mut Panel,
    state: &mut [u8],
    spare: &mut [u8],
    (longer_state, longer_spare): (bool, bool),
) -> u8 {
    let length = state.len().max(spare.len());
    let (mut long_state, mut long_spare) = (state.to_vec(), spare.to_vec());
    if longer_state && panel.length as usize <= state.len() {
        long_state.resize(length, 0);
    }
    if longer_spare {
        long_spare.resize(length, 0);
    }
    let step = Access::Write(COMMAND, STEP, long_spare.len());
    second(step, panel, &mut long_state, &mut long_spare);
    let (state_length, spare_length) = (state.len(), spare.len());
    state.copy_from_slice(&long_state[..state_length]);
    spare.copy_from_slice(&long_spare[..spare_length]);
    0
}

/// A wrong panel, with what is wrong in it.
pub type Wrong = (&'static str, Side);

/// First the wrong panels where it shows from a start and with lengths of at most 32,768; then those where it
/// shows only from a record that no start has made, or with greater lengths.
pub fn wrong_panels() -> [Vec<Wrong>; 2] {
    let from_a_start: &[Wrong] = &[
        // Acknowledge.
        (
            "acknowledge clears bit 0",
            acknowledged!(|_, panel| panel.registers[1] &= !1),
        ),
        (
            "acknowledge leaves bit 1",
            acknowledged!(|before, panel| panel.registers[1] |= before.registers[1] & 2),
        ),
        (
            "acknowledge leaves bit 2",
            acknowledged!(|before, panel| panel.registers[1] |= before.registers[1] & 4),
        ),
        (
            "acknowledge clears the last refusal",
            acknowledged!(|_, panel| panel.registers[3] = 0),
        ),
        (
            "3 acknowledges",
            other!(|access| match access {
                Access::Write(0, 3, room) => Access::Write(0, 2, room),
                access => access,
            }),
        ),
        (
            "every odd value is a step",
            other!(|access| match access {
                Access::Write(0, value, room) if value % 2 == 1 => Access::Write(0, 1, room),
                access => access,
            }),
        ),
        (
            "a read of the flags acknowledges",
            changed!(|access, _, panel, _, _| {
                if access == Access::Read(1) {
                    panel.registers[1] &= !6;
                }
            }),
        ),
        // Reads, writes and the line.
        (
            "the line goes by the flags alone",
            |access, panel, state, spare| match access {
                Access::Line => u8::from(panel.registers[1] & 7 != 0),
                access => second(access, panel, state, spare),
            },
        ),
        (
            "the line goes by the enable bits alone",
            |access, panel, state, spare| match access {
                Access::Line => u8::from(panel.registers[2] != 0),
                access => second(access, panel, state, spare),
            },
        ),
        (
            "the line is the enabled flags",
            |access, panel, state, spare| match access {
                Access::Line => panel.registers[1] & panel.registers[2],
                access => second(access, panel, state, spare),
            },
        ),
        ("the command is stored", storing::<0, 0>),
        ("the flags take writes", storing::<1, 1>),
        ("the last refusal takes writes", storing::<3, 3>),
        ("the last rule takes writes", storing::<8, 8>),
        ("the weight takes writes", storing::<9, 10>),
        ("11 to 15 take writes", storing::<11, 15>),
        (
            "reads past 15 go round",
            other!(|access| match access {
                Access::Read(address) => Access::Read(address % 16),
                access => access,
            }),
        ),
        (
            "writes past 15 go round",
            other!(|access| match access {
                Access::Write(address, value, room) => Access::Write(address % 16, value, room),
                access => access,
            }),
        ),
        (
            "the enable keeps three bits",
            other!(|access| match access {
                Access::Write(2, value, room) => Access::Write(2, value & 7, room),
                access => access,
            }),
        ),
        (
            "a write that is no step changes the second buffer",
            changed!(|access, _, _, _, spare| {
                if let (false, [first, ..]) = (access.is_step(), spare) {
                    *first ^= 1;
                }
            }),
        ),
        (
            "a write that is no step changes the state's buffer",
            changed!(|access, _, _, state, _| {
                if let (Access::Write(4, ..), [first, ..]) = (access, state) {
                    *first ^= 1;
                }
            }),
        ),
        // The start.
        (
            "a start keeps the enable",
            changed!(|access, before, panel, _, _| {
                if matches!(access, Access::Start(_)) {
                    panel.registers[2] = before.registers[2];
                }
            }),
        ),
        (
            "a start names no partner",
            changed!(|access, _, panel, _, _| {
                if matches!(access, Access::Start(_)) {
                    panel.registers[6..8].fill(0xFF);
                }
            }),
        ),
        (
            "partner 0 is none",
            |access, panel, state, spare| match access {
                Access::Write(0, 1, _) if panel.pair(PARTNER) == 0 => {
                    panel.registers[6..8].fill(0xFF);
                    second(access, panel, state, spare);
                    panel.registers[6..8].fill(0);
                    0
                }
                access => second(access, panel, state, spare),
            },
        ),
        // Pairs.
        ("the place with its low byte first", exchanging::<4>),
        ("the partner with its low byte first", exchanging::<6>),
        (
            "the weight with its low byte first",
            accepted!(|_, panel, _, _| panel.registers.swap(9, 10)),
        ),
        (
            "the weight in one byte",
            accepted!(|_, panel, _, _| panel.registers[9] = 0),
        ),
        // Lengths.
        (
            "13 by the longer buffer",
            |access, panel, state, spare| match access {
                Access::Write(0, 1, _) => with_longer(panel, state, spare, (true, true)),
                access => second(access, panel, state, spare),
            },
        ),
        (
            "13 by the second buffer alone",
            |access, panel, state, spare| match access {
                Access::Write(0, 1, _) => with_longer(panel, state, spare, (true, false)),
                access => second(access, panel, state, spare),
            },
        ),
        (
            "13 by the state's buffer alone",
            |access, panel, state, spare| match access {
                Access::Write(0, 1, _) => with_longer(panel, state, spare, (false, true)),
                access => second(access, panel, state, spare),
            },
        ),
        (
            "13 by the state's length",
            |access, panel, state, spare| match access {
                Access::Write(0, 1, _) if (panel.length as usize) < state.len() => {
                    let length = panel.length as usize;
                    second(access, panel, &mut state[..length], spare)
                }
                access => second(access, panel, state, spare),
            },
        ),
        (
            "a full buffer is refused",
            |access, panel, state, spare| match (access, spare) {
                (Access::Write(0, 1, room), [front @ .., _]) => {
                    second(Access::Write(0, 1, room - 1), panel, state, front)
                }
                (access, spare) => second(access, panel, state, spare),
            },
        ),
        (
            "1 comes before 2 past the end",
            |access, panel, state, spare| {
                let length = panel.length;
                let read = second(access, panel, state, spare);
                if access.is_step() && length > 32_768 && length as usize > state.len() {
                    panel.registers[3] = 1;
                }
                read
            },
        ),
        (
            "past the end what is there is stepped",
            |access, panel, state, spare| {
                let length = panel.length;
                if access.is_step() {
                    panel.length = length.min(state.len() as u32);
                }
                let read = second(access, panel, state, spare);
                if access.is_step() && told(panel).is_err() {
                    panel.length = length;
                }
                read
            },
        ),
        (
            "past the end by one is stepped",
            |access, panel, state, spare| {
                let is_one = panel.length as usize == state.len() + 1 && access.is_step();
                panel.length -= u32::from(is_one);
                let read = second(access, panel, state, spare);
                panel.length += u32::from(is_one && told(panel).is_err());
                read
            },
        ),
        (
            "the length to the end is past it",
            |access, panel, state, spare| {
                if access.is_step() && panel.length as usize == state.len() {
                    panel.registers[3] = 2;
                    panel.registers[1] = panel.registers[1] & !2 | 4;
                    return 0;
                }
                second(access, panel, state, spare)
            },
        ),
        // What an accepted step leaves.
        (
            "the result is not copied over the state",
            |access, panel, state, spare| {
                let before = state.to_vec();
                let read = second(access, panel, state, spare);
                state.copy_from_slice(&before);
                read
            },
        ),
        (
            "the result is not in the second buffer",
            |access, panel, state, spare| {
                let before = spare.to_vec();
                let read = second(access, panel, state, spare);
                spare.copy_from_slice(&before);
                read
            },
        ),
        (
            "the length is not renewed",
            accepted!(|before, panel, _, _| panel.length = before.length),
        ),
        (
            "a byte behind the result in the second buffer",
            accepted!(|_, panel, _, spare| {
                if let Some(byte) = spare.get_mut(panel.length as usize) {
                    *byte ^= 1;
                }
            }),
        ),
        (
            "a byte behind the result in the state's buffer",
            accepted!(|_, panel, state, _| {
                if let Some(byte) = state.get_mut(panel.length as usize) {
                    *byte ^= 1;
                }
            }),
        ),
        (
            "the whole second buffer is copied",
            accepted!(|_, _, state, spare| {
                let length = state.len().min(spare.len());
                state[..length].copy_from_slice(&spare[..length]);
            }),
        ),
        (
            "the rule is not renewed",
            accepted!(|before, panel, _, _| panel.registers[8] = before.registers[8]),
        ),
        (
            "the weight is not renewed",
            accepted!(|before, panel, _, _| {
                panel.registers[9..11].copy_from_slice(&before.registers[9..11])
            }),
        ),
        (
            "an accepted step clears the last refusal",
            accepted!(|_, panel, _, _| panel.registers[3] = 0),
        ),
        (
            "an accepted step leaves bit 0",
            accepted!(|before, panel, _, _| {
                panel.registers[1] = panel.registers[1] & !1 | before.registers[1] & 1
            }),
        ),
        (
            "bit 0 goes by the low byte of the weight",
            accepted!(|_, panel, _, _| {
                panel.registers[1] |= u8::from(panel.registers[10] == 0)
            }),
        ),
        (
            "bit 1 is not set",
            accepted!(|_, panel, _, _| panel.registers[1] &= !2),
        ),
        (
            "an accepted step leaves bit 2",
            accepted!(|before, panel, _, _| panel.registers[1] |= before.registers[1] & 4),
        ),
        (
            "an accepted step clears the place",
            accepted!(|_, panel, _, _| panel.registers[4..6].fill(0)),
        ),
        // What a refused step leaves.
        (
            "the refusal is not renewed",
            refused!(|before, panel, _, _| panel.registers[3] = before.registers[3]),
        ),
        (
            "a refused step clears bit 0",
            refused!(|_, panel, _, _| panel.registers[1] &= !1),
        ),
        (
            "a refused step leaves bit 1",
            refused!(|before, panel, _, _| panel.registers[1] |= before.registers[1] & 2),
        ),
        (
            "a refused step clears the rule",
            refused!(|_, panel, _, _| panel.registers[8] = 0),
        ),
        (
            "a refused step clears the weight",
            refused!(|_, panel, _, _| panel.registers[9..11].fill(0)),
        ),
        (
            "a refused step sets the length to 0",
            refused!(|_, panel, _, _| panel.length = 0),
        ),
        (
            "a byte of the second buffer on a refusal",
            refused!(|_, _, _, spare| {
                if let Some(byte) = spare.last_mut() {
                    *byte ^= 1;
                }
            }),
        ),
        (
            "a byte of the state's buffer on a refusal",
            refused!(|_, _, state, _| {
                if let Some(byte) = state.last_mut() {
                    *byte ^= 1;
                }
            }),
        ),
    ];
    let elsewhere: &[Wrong] = &[
        (
            "acknowledge clears bits 3 to 7",
            acknowledged!(|_, panel| panel.registers[1] &= 7),
        ),
        (
            "the line goes by the three flags alone",
            |access, panel, state, spare| match access {
                Access::Line => u8::from(panel.registers[1] & panel.registers[2] & 7 != 0),
                access => second(access, panel, state, spare),
            },
        ),
        ("the command reads as it stands", reading::<0, 0>),
        ("11 reads as it stands", reading::<11, 11>),
        ("15 reads as it stands", reading::<15, 15>),
        (
            "a start keeps the last register",
            changed!(|access, before, panel, _, _| {
                if matches!(access, Access::Start(_)) {
                    panel.registers[15] = before.registers[15];
                }
            }),
        ),
        (
            "a start sets two bytes of the length",
            other!(|access| match access {
                Access::Start(length) => Access::Start(length & 0xFFFF),
                access => access,
            }),
        ),
        (
            "a length above 32,768 is past the end",
            refused!(|before, panel, _, _| {
                if before.length > 32_768 {
                    panel.registers[3] = 2;
                }
            }),
        ),
        ("the length in two bytes", |access, panel, state, spare| {
            let length = panel.length;
            if access.is_step() {
                panel.length &= 0xFFFF;
            }
            let read = second(access, panel, state, spare);
            if access.is_step() && told(panel).is_err() {
                panel.length = length;
            }
            read
        }),
        (
            "bit 0 is not cleared",
            accepted!(|before, panel, _, _| panel.registers[1] |= before.registers[1] & 1),
        ),
        (
            "an accepted step clears bits 3 to 7",
            accepted!(|_, panel, _, _| panel.registers[1] &= 7),
        ),
        (
            "a refused step clears bits 3 to 7",
            refused!(|_, panel, _, _| panel.registers[1] &= 7),
        ),
    ];
    [from_a_start.to_vec(), elsewhere.to_vec()]
}
