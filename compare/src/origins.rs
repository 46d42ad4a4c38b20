//! How often each property was met in each of the places that it may come from.

use crate::Subject;
use second::{Origin, Properties, Surroundings};
use std::collections::BTreeMap;

const NAMES: [&str; 6] = ["BMHD", "CMAP", "GRAB", "DEST", "SPRT", "CAMG"];

const OWN: &str = "own";
const NEAREST: &str = "of the nearest PROP";
const FURTHER: &str = "of one further out";
const SEVERAL: &str = "of several PROPs";
const WRONG: &str = "23 by one further out";

/// Counts, each by what is counted and where it came from.
pub struct Origins {
    counts: BTreeMap<(String, &'static str), u64>,
}

impl Default for Origins {
    /// Every count at 0.
    fn default() -> Origins {
        let mut origins = Origins { counts: BTreeMap::new() };
        for name in NAMES {
            [OWN, NEAREST, FURTHER, WRONG].iter().for_each(|column| origins.add(0, name, column));
        }
        origins.add(0, "picture", SEVERAL);
        origins
    }
}

impl Origins {
    fn add(&mut self, count: u64, row: &str, column: &'static str) {
        *self.counts.entry((row.to_string(), column)).or_default() += count;
    }

    /// Counts the properties of every picture that was asked for.
    pub fn count(&mut self, subject: &Subject) {
        for (picture, told) in &subject.pictures {
            let Ok(around) = second::surroundings(subject.file(), *picture) else { continue };
            match told {
                Ok(told) => self.told(told, &around),
                Err(refused) if refused.number == 23 => self.wrong(&around),
                Err(_) => {}
            }
        }
    }

    fn told(&mut self, told: &Properties, around: &Surroundings) {
        let origins = [
            told.header_origin,
            told.colour_map.origin,
            told.grab.origin,
            told.destination.origin,
            told.precedence.origin,
            told.view_modes.origin,
        ];
        for (name, origin) in NAMES.iter().zip(origins) {
            match origin {
                Origin::Own => self.add(1, name, OWN),
                Origin::Shared(place) if place == around.props[0] => self.add(1, name, NEAREST),
                Origin::Shared(_) => self.add(1, name, FURTHER),
                Origin::Absent => {}
            }
        }
        let mut props: Vec<Origin> =
            origins.into_iter().filter(|origin| matches!(origin, Origin::Shared(_))).collect();
        props.dedup();
        self.add(u64::from(props.len() > 1), "picture", SEVERAL);
    }

    /// A picture refused for one property alone, of a PROP that isn't the nearest.
    fn wrong(&mut self, around: &Surroundings) {
        if let [(name, Origin::Shared(place))] = around.wrong[..] {
            let row = String::from_utf8_lossy(&name.0).into_owned();
            self.add(u64::from(place != around.props[0]), &row, WRONG);
        }
    }

    /// A line for each property.
    pub fn text(&self) -> String {
        let line = |row: &str| {
            let counts = self.counts.iter().filter(|((name, _), _)| name == row);
            let words: Vec<String> = counts.map(|((_, column), count)| format!("{count} {column}")).collect();
            format!("{row}: {}\n", words.join(", "))
        };
        NAMES.iter().chain(&["picture"]).map(|row| line(row)).collect()
    }

    /// What came up a hundred times or less.
    pub fn rare(&self) -> Vec<String> {
        let rare = self.counts.iter().filter(|(_, count)| **count <= 100);
        rare.map(|((row, column), _)| format!("{row} {column}")).collect()
    }
}
