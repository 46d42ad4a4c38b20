//! How often each kind of addition was made at each kind of boundary.

use crate::later::{Later, Made};
use second::additions::Side;
use second::Kind;
use std::collections::BTreeMap;

/// What may be added in what.
const PAIRS: [(Kind, Kind); 10] = [
    (Kind::Local, Kind::Form),
    (Kind::Local, Kind::Prop),
    (Kind::Filler, Kind::Form),
    (Kind::Filler, Kind::List),
    (Kind::Filler, Kind::Cat),
    (Kind::Filler, Kind::Prop),
    (Kind::Form, Kind::Form),
    (Kind::Form, Kind::List),
    (Kind::Form, Kind::Cat),
    (Kind::Prop, Kind::List),
];

const SIDES: [Side; 4] = [Side::Alone, Side::First, Side::Between, Side::Last];
const INSIDE: &str = "inside an earlier addition";
const AFTER_END: &str = "bytes after the end";

/// Counts, each by what is counted and how it came up.
pub struct Census {
    counts: BTreeMap<String, BTreeMap<&'static str, u64>>,
}

impl Default for Census {
    /// Every count of an addition at 0.
    fn default() -> Census {
        let mut census = Census { counts: BTreeMap::new() };
        for pair in PAIRS {
            SIDES.iter().for_each(|side| census.add(0, &row(pair), column(*side)));
            census.add(0, &row(pair), INSIDE);
        }
        SIDES.iter().for_each(|side| census.add(0, AFTER_END, column(*side)));
        census
    }
}

impl Census {
    pub fn add(&mut self, count: u64, row: &str, column: &'static str) {
        *self.counts.entry(row.to_string()).or_default().entry(column).or_default() += count;
    }

    pub fn additions(&mut self, later: &Later) {
        self.add(later.made.len() as u64, "additions", "in all");
        later.made.iter().for_each(|made| self.addition(made));
    }

    fn addition(&mut self, made: &Made) {
        let side = column(made.addition.side);
        let Some(spot) = &made.addition.spot else {
            return self.add(1, AFTER_END, side);
        };
        let row = row((spot.kind, spot.group));
        self.add(1, &row, side);
        self.add(u64::from(made.is_inside), &row, INSIDE);
        self.add(u64::from(spot.level == 16), "additions", "at the deepest level");
    }

    /// A line for each row.
    pub fn text(&self) -> String {
        let word = |(column, count): (&&str, &u64)| format!("{count} {column}");
        let line = |(row, columns): (&String, &BTreeMap<&str, u64>)| {
            let words: Vec<String> = columns.iter().map(word).collect();
            format!("{row}: {}\n", words.join(", "))
        };
        self.counts.iter().map(line).collect()
    }

    /// What never came up.
    pub fn missing(&self) -> Vec<String> {
        let never = |(row, columns): (&String, &BTreeMap<&str, u64>)| {
            let zero = columns.iter().filter(|(_, count)| **count == 0);
            zero.map(|(column, _)| format!("{row} {column}")).collect::<Vec<_>>()
        };
        self.counts.iter().flat_map(never).collect()
    }
}

fn row((kind, group): (Kind, Kind)) -> String {
    format!("{} in {}", word(kind), word(group))
}

fn word(kind: Kind) -> &'static str {
    match kind {
        Kind::Form => "FORM",
        Kind::List => "LIST",
        Kind::Cat => "CAT",
        Kind::Prop => "PROP",
        Kind::Local => "local chunk",
        Kind::Filler => "filler",
    }
}

fn column(side: Side) -> &'static str {
    match side {
        Side::Alone => "alone",
        Side::First => "before the first",
        Side::Between => "between",
        Side::Last => "after the last",
    }
}
