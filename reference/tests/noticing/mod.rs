// That the comparison notices sides that are wrong.

use reference::comparison::{second, Call, Comparison, Side};

/// The name of a group, an input, and the calls that are made on it.
pub type Part = (&'static str, Vec<u8>, Vec<Call>);

/// Whether some call differs on these; the rest is left out then.
fn differs(parts: &[Part], side: Side) -> bool {
    let mut comparison = Comparison::new(side);
    parts.iter().any(|(group, input, calls)| {
        comparison.compare(group, input, calls);
        comparison.differences > 0
    })
}

/// Each of these sides differs on the parts, and the second implementation does not.
pub fn all_noticed(parts: &[Part], wrong: &[(&str, Side)]) {
    assert!(!differs(parts, second));
    println!("{} wrong sides", wrong.len());
    for (name, side) in wrong {
        assert!(differs(parts, *side), "not noticed: {name}");
    }
}
