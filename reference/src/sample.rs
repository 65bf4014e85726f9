// Samples: of many things with one key the first few, and then ever fewer.

use std::collections::BTreeMap;

/// Counts the things that came, by their keys.
pub struct Sample<Key> {
    seen: BTreeMap<Key, usize>,
}

impl<Key: Ord> Sample<Key> {
    pub fn empty() -> Sample<Key> {
        let seen = BTreeMap::new();
        Sample { seen }
    }

    /// Whether the next thing with this key is taken: whether its number, in binary, has only zeros
    /// behind so many digits.
    pub fn takes(&mut self, key: Key, digits: u32) -> bool {
        let number = self.seen.entry(key).or_default();
        *number += 1;
        number.trailing_zeros() + digits >= usize::BITS - number.leading_zeros()
    }
}
