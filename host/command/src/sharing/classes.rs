//! Keys that give a film the same streams.

use std::collections::HashSet;

/// Keys that give a film the same streams: their bits that the film shows, and `None` for the streams as they are stored.
pub type Class = Option<u64>;

/// The class of a key. A film that shows no bit is not masked, and all its keys are one class with none.
pub fn class(key: Option<u64>, bits: u64) -> Class {
    key.filter(|_| bits != 0).map(|key| key & bits)
}

/// The classes of keys that come one by one, each once.
pub struct Classes {
    bits: u64,
    seen: HashSet<Class>,
    in_order: Vec<Class>,
}

impl Classes {
    /// For a film that shows these bits of a key.
    pub fn new(bits: u64) -> Classes {
        Classes { bits, seen: HashSet::new(), in_order: Vec::new() }
    }

    pub fn add(&mut self, key: Option<u64>) {
        let class = class(key, self.bits);
        if self.seen.insert(class) {
            self.in_order.push(class);
        }
    }

    /// In the order of the keys.
    pub fn in_order(self) -> Vec<Class> {
        self.in_order
    }
}

#[cfg(test)]
mod tests {
    use super::{Class, Classes, class};

    fn classes(keys: [Option<u64>; 4], bits: u64) -> Vec<Class> {
        let mut classes = Classes::new(bits);
        keys.into_iter().for_each(|key| classes.add(key));
        classes.in_order()
    }

    #[test]
    fn keys_are_classes_by_the_bits_that_show() {
        assert_eq!(class(Some(0xFF12), 0xFF), Some(0x12));
        assert_eq!(class(None, 0xFF), None);
        assert_eq!(class(Some(0xFF12), 0), None);
        let keys = [Some(0x12), None, Some(0xFF12), Some(0x13)];
        assert_eq!(classes(keys, 0xFF), [Some(0x12), None, Some(0x13)]);
        assert_eq!(classes(keys, 0), [None]);
    }
}
