//! The data of a chunk.

use crate::answer::{answer, Refused};
use crate::calls;

/// The data of the local chunk or filler with this number, as a part of the
/// file; 1 to 12, or 14 if there is no such record, or 15 if it is a group.
///
/// ```
/// let file = b"FORM\0\0\0\x10ILBMTINY\0\0\0\x03abc\0";
/// assert_eq!(florinhado::data(file, 1)?, b"abc");
/// assert_eq!(florinhado::data(file, 0).unwrap_err().number, 15);
/// # Ok::<(), florinhado::Refused>(())
/// ```
pub fn data(file: &[u8], number: usize) -> Result<&[u8], Refused> {
    let (mut place, mut from, mut to) = (0, 0, 0);
    let told = calls::iff_data(file, number, &mut place, &mut from, &mut to);
    answer(told, place, &file[from..to])
}
