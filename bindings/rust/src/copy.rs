//! The clean copy.

use crate::answer::{answer, Refused};
use crate::calls;

/// Writes the file up to its end to `out`, every pad byte 0, and gives the
/// length; the bytes behind it stay. Refuses with 1 to 12, or with 32 if `out`
/// is too short, and then changes nothing.
///
/// ```
/// let file = b"FORM\0\0\0\x0eILBMTINY\0\0\0\x01a?trailing";
/// let mut out = [b'-'; 24];
/// assert_eq!(florinhado::clean_copy(file, &mut out)?, 22);
/// assert_eq!(&out, b"FORM\0\0\0\x0eILBMTINY\0\0\0\x01a\0--");
/// # Ok::<(), florinhado::Refused>(())
/// ```
pub fn clean_copy(file: &[u8], out: &mut [u8]) -> Result<usize, Refused> {
    let (mut place, mut length) = (0, 0);
    let told = calls::iff_clean_copy(file, out, &mut place, &mut length);
    answer(told, place, length)
}
