//! The pictures of a file.

use crate::answer::{answer, Refused};
use crate::calls;

/// How many pictures the file has: FORMs of type ILBM at any depth. Refuses
/// with 1 to 12.
///
/// ```
/// assert_eq!(florinhado::count_pictures(b"FORM\0\0\0\x04ILBM"), Ok(1));
/// ```
pub fn count_pictures(file: &[u8]) -> Result<usize, Refused> {
    let (mut place, mut pictures) = (0, 0);
    let told = calls::iff_count_pictures(file, &mut place, &mut pictures);
    answer(told, place, pictures)
}
