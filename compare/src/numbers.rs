//! The numbers that the calls can answer: each set stands here alone.

/// 0, and the refusals of the structure.
pub const STRUCTURE: &[usize] = &[0, 1, 2, 3, 4, 5, 6, 7, 8, 9, 10, 11, 12];

/// What a picture is refused for, and then its header, in the order of the checks.
pub const PICTURE: &[usize] = &[20, 21, 22, 23];
pub const HEADER: &[usize] = &[41, 42, 43, 24];

/// What its rows are refused for; 29 is a start place's.
pub const NO_BODY: &[usize] = &[25];
pub const ROWS: &[usize] = &[28, 27, 26];
pub const START: &[usize] = &[29];

/// What its shape alone is refused for, and what its colours are.
pub const SHAPE: &[usize] = &[44];
pub const COLOURS: &[usize] = &[46];

/// A table with too few places, and a buffer with too few bytes.
pub const PLACES: &[usize] = &[13];
pub const ROOM: &[usize] = &[32];

/// Every number of a call on a property.
pub const OF_PROPERTY: &[&[usize]] = &[STRUCTURE, PICTURE, HEADER];
