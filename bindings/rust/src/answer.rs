//! Refusals.

use std::error::Error;
use std::fmt;

/// A refusal: its number, and the place in the file that it speaks of.
/// The place is 0 where the number has none.
#[derive(Clone, Copy, Debug, PartialEq, Eq, Hash)]
pub struct Refused {
    /// The number of the refusal.
    pub number: usize,
    /// The place, counted in bytes.
    pub place: usize,
}

/// Each number with what it means.
const MEANINGS: &[(usize, &str)] = &[
    (1, "file longer than 16,777,216 bytes"),
    (2, "no FORM, LIST or CAT"),
    (3, "a version name, reserved for later standards"),
    (4, "fewer than 8 bytes left for a chunk"),
    (5, "name not well formed"),
    (6, "chunk not allowed here"),
    (7, "size greater than what the group or file has left"),
    (8, "odd size and no pad byte"),
    (9, "a group at level 17"),
    (10, "a group of size under 4"),
    (11, "type not allowed"),
    (12, "second PROP of the same type in this LIST"),
    (13, "fewer places in the table than chunks or pictures"),
    (14, "no such record"),
    (15, "a group, where a local chunk or filler is asked for"),
    (20, "no such picture"),
    (21, "no BMHD counts"),
    (22, "more than one BODY directly in the FORM"),
    (23, "a property has a wrong size"),
    (24, "w, h or nPlanes 0: a picture with a BODY has at least 1 of each"),
    (25, "rows asked and no BODY"),
    (26, "the BODY ends before the row is full"),
    (27, "a copy or repeat oversteps its row"),
    (28, "row, frame or shape of a wrong length"),
    (29, "start place beyond the BODY's end"),
    (31, "a row to pack has 1 to 8,192 bytes"),
    (32, "result longer than the buffer"),
    (33, "header field, palette or frame that can't be written"),
    (34, "a colour number with more bits than planes"),
    (35, "result over 16,777,216 bytes"),
    (40, "more than 65,536 bytes of input"),
    (41, "nPlanes 9 or more: at most 8 planes are known"),
    (42, "masking 4 or more: only 0 to 3 are known"),
    (43, "compression 2 or more: only 0 and 1 are known"),
    (44, "masking 3, a lasso: its shape is not worked out"),
    (45, "a shape with a byte over 1 or of a wrong length"),
    (46, "CAMG bit 11, hold-and-modify, with other than 6 or 8 planes"),
];

impl Refused {
    /// What the number means.
    pub fn meaning(&self) -> &'static str {
        let told = MEANINGS.iter().find(|(number, _)| *number == self.number);
        told.map_or("unknown number", |(_, words)| words)
    }
}

impl fmt::Display for Refused {
    fn fmt(&self, out: &mut fmt::Formatter<'_>) -> fmt::Result {
        write!(out, "refusal {} at {}: {}", self.number, self.place, self.meaning())
    }
}

impl Error for Refused {}

/// The answer of a call that gave this number and place.
pub(crate) fn answer<T>(number: usize, place: usize, value: T) -> Result<T, Refused> {
    if number == 0 {
        Ok(value)
    } else {
        Err(Refused { number, place })
    }
}
