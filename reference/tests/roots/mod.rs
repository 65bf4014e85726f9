// What the root of a state can hold.

use reference::tree::State;

/// How many things can be told of the root of a state, and of its count of free names.
pub const ROOTS: usize = 8;

/// What holds of the root of a state, and of its count of free names.
pub fn roots(state: &State) -> Vec<&'static str> {
    let list = &state.elements;
    let ambients: Vec<u16> = list
        .iter()
        .filter_map(|element| element.ambient().map(|(name, _)| name))
        .collect();
    let has_blocked = list
        .iter()
        .any(|element| element.ambient().is_some() && element.is_blocked());
    let holds = [
        ("one ambient named 0", list.len() == 1 && ambients == [0]),
        ("nothing", list.is_empty()),
        ("no ambient", !list.is_empty() && ambients.is_empty()),
        (
            "a process or action beside an ambient",
            !ambients.is_empty() && ambients.len() < list.len(),
        ),
        ("several ambients", ambients.len() > 1),
        (
            "an ambient named otherwise",
            ambients.iter().any(|name| *name != 0),
        ),
        ("a blocked ambient", has_blocked),
        ("no free names", state.free == 0),
    ];
    let holding = holds.into_iter().filter(|(_, holds)| *holds);
    holding.map(|(name, _)| name).collect()
}
