// Results that just fit in the shorter of the two buffers of a panel, or just do not.

use reference::machine::step;
use reference::panel::{Panel, PARTNER, PLACE};
use reference::spelling::LONGEST;

#[derive(Clone, Copy, Debug, PartialEq, Eq, PartialOrd, Ord)]
pub enum Edge {
    /// The state's buffer is the shorter one, and is as long as the result.
    FitsInState,
    /// The state's buffer is the shorter one, and has a byte too few.
    TooLongForState,
    /// The second buffer is the shorter one, and is as long as the result.
    FitsInSpare,
    /// The second buffer is the shorter one, and has a byte too few.
    TooLongForSpare,
}

impl Edge {
    pub const ALL: [Edge; 4] = [
        Edge::FitsInState,
        Edge::TooLongForState,
        Edge::FitsInSpare,
        Edge::TooLongForSpare,
    ];

    pub fn fits(self) -> bool {
        matches!(self, Edge::FitsInState | Edge::FitsInSpare)
    }
}

/// The edge at which the step stands that the panel asks for, the other buffer being long enough.
pub fn edge(panel: &Panel, state: &[u8], room: usize) -> Option<Edge> {
    let front = state.get(..panel.length as usize)?;
    let (place, partner) = (panel.pair(PLACE), panel.pair(PARTNER));
    let (_, result) = step(front, place, partner, &mut vec![0; LONGEST]).ok()?;
    let buffer = state.len();
    if buffer < room && buffer == result {
        Some(Edge::FitsInState)
    } else if buffer < room && buffer + 1 == result {
        Some(Edge::TooLongForState)
    } else if room < buffer && room == result {
        Some(Edge::FitsInSpare)
    } else if room < buffer && room + 1 == result {
        Some(Edge::TooLongForSpare)
    } else {
        None
    }
}
