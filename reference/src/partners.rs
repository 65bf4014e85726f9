// The partners of a place: the blocked actions that its action could meet by rules 35 to 42. Every place is
// tried, as each rule says how the two stand.

use crate::machine::{can_act, NO_PARTNER};
use crate::refusal::CANNOT_ACT;
use crate::spelling::read_state;
use crate::tree::{Action, Element, Kind, Process, Reference, State};

/// The lowest partner of a place, or 65,535 if it has none, and how many it has.
#[derive(Clone, Copy, Debug, PartialEq, Eq)]
pub struct Partners {
    pub lowest: u16,
    pub count: u16,
}

/// Reads a state and counts the partners of a place that can act.
pub fn partners(state: &[u8], place: u16) -> Result<Partners, u8> {
    let state = read_state(state)?;
    let stands = stands(&state);
    let acting = stands.get(usize::from(place));
    if !acting.is_some_and(|stand| can_act(stand.element)) {
        return Err(CANNOT_ACT);
    }
    Ok(counted(&stands, usize::from(place)))
}

/// The partners of a place; what steps by rules 29 to 34 has none.
pub fn count_partners(state: &State, place: u16) -> Partners {
    counted(&stands(state), usize::from(place))
}

fn counted(stands: &[Stand], acting: usize) -> Partners {
    let meeting = (0..stands.len()).filter(|waiting| could_meet(stands, acting, *waiting));
    let mut meeting = meeting.peekable();
    Partners {
        lowest: meeting.peek().map_or(NO_PARTNER, |lowest| *lowest as u16),
        count: meeting.count() as u16,
    }
}

/// What stands at a place, and the place of the ambient that holds it. None holds what stands at the root.
#[derive(Clone, Copy)]
pub struct Stand<'state> {
    pub element: &'state Element,
    pub holder: Option<usize>,
}

/// What stands at each place.
pub fn stands(state: &State) -> Vec<Stand<'_>> {
    fn gather<'state>(
        list: &'state [Element],
        holder: Option<usize>,
        stands: &mut Vec<Stand<'state>>,
    ) {
        for element in list {
            let place = stands.len();
            stands.push(Stand { element, holder });
            if let Some((_, contents)) = element.ambient() {
                gather(contents, Some(place), stands);
            }
        }
    }
    let mut stands = Vec::new();
    gather(&state.elements, None, &mut stands);
    stands
}

/// An action and its place.
type Placed<'state> = (&'state Action, usize);

/// Whether the unblocked action at the one place could meet the blocked one at the other.
fn could_meet(stands: &[Stand], acting: usize, waiting: usize) -> bool {
    let Element::Process(Process::Action(action, _)) = stands[acting].element else {
        return false;
    };
    let Some(partner) = stands[waiting].element.blocked_action() else {
        return false;
    };
    let (acting, waiting) = ((action, acting), (partner, waiting));
    match action.kind {
        // Rules 35, 37, 39 and 41: the sender or mover acts.
        Kind::SiblingOutput | Kind::ParentOutput | Kind::Enter | Kind::Leave => {
            go_together(stands, acting, waiting)
        }
        // Rules 36, 38, 40 and 42: the other side acts.
        _ => go_together(stands, waiting, acting),
    }
}

/// Whether a sender or mover and another action are of kinds that go together, on one channel and with one
/// count, and stand as their rules say.
fn go_together(stands: &[Stand], (sender, from): Placed, (other, to): Placed) -> bool {
    if sender.channel != other.channel || sender.count() != other.count() {
        return false;
    }
    let Some(own) = stands[from].holder else {
        return false;
    };
    match (sender.kind, other.kind) {
        // Rules 35, 36, 39 and 40: in two ambients of one list, the other's being the target.
        (Kind::SiblingOutput, Kind::ExternalInput) | (Kind::Enter, Kind::Accept) => {
            stands[to].holder.is_some_and(|host| {
                let name = stands[host].element.ambient().map(|(name, _)| name);
                own != host
                    && stands[own].holder == stands[host].holder
                    && sender.target == name.map(Reference::Name)
            })
        }
        // Rules 37 and 38: in an ambient of the list where the other stands.
        (Kind::ParentOutput, Kind::InternalInput) => stands[own].holder == stands[to].holder,
        // Rules 41 and 42: the like, and that list is in an ambient.
        (Kind::Leave, Kind::Release) => {
            stands[to].holder.is_some() && stands[own].holder == stands[to].holder
        }
        _ => false,
    }
}
