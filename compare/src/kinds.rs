//! How often each of some kinds of pictures came up.

use std::collections::BTreeMap;

pub struct Kinds {
    what: &'static str,
    counts: BTreeMap<&'static str, u64>,
}

impl Kinds {
    /// Every count at 0.
    pub fn none(what: &'static str, kinds: &[&'static str]) -> Kinds {
        Kinds { what, counts: kinds.iter().map(|kind| (*kind, 0)).collect() }
    }

    pub fn add(&mut self, kind: &'static str) {
        *self.counts.entry(kind).or_default() += 1;
    }

    pub fn text(&self) -> String {
        let words: Vec<String> = self.counts.iter().map(|(kind, count)| format!("{kind} {count}")).collect();
        format!("pictures by their {}: {}\n", self.what, words.join(", "))
    }

    /// The kinds that came up a hundred times or less.
    pub fn rare(&self) -> Vec<String> {
        self.counts.iter().filter(|(_, count)| **count <= 100).map(|(kind, _)| kind.to_string()).collect()
    }
}
