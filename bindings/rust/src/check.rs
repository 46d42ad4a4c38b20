//! The structure of a file.

use crate::answer::{answer, Refused};
use crate::calls;

/// What acceptance tells of a file.
#[derive(Clone, Copy, Debug, PartialEq, Eq, Hash)]
pub struct Accepted {
    /// How many chunks there are, the outermost included.
    pub chunks: usize,
    /// Where the outermost chunk ends, with its pad byte.
    pub end: usize,
    /// How many bytes follow it.
    pub trailing: usize,
}

/// Accepts a file, or refuses it with the first of 1 to 12.
///
/// ```
/// let twice = b"LIST\0\0\0\x1cJJJJPROP\0\0\0\x04ILBMPROP\0\0\0\x04ILBM";
/// let refused = florinhado::check(twice).unwrap_err();
/// assert_eq!((refused.number, refused.place), (12, 24));
/// ```
pub fn check(file: &[u8]) -> Result<Accepted, Refused> {
    let (mut place, mut chunks, mut end, mut trailing) = (0, 0, 0, 0);
    let number = calls::iff_check(file, &mut place, &mut chunks, &mut end, &mut trailing);
    answer(number, place, Accepted { chunks, end, trailing })
}
