//! The packer of rows.

use crate::answer::{answer, Refused};
use crate::calls;

/// Packs a row by ByteRun1 to the start of `out` and gives the length; the
/// bytes behind it stay. Refuses with 31 if the row hasn't 1 to 8,192 bytes, or
/// with 32 if `out` is too short, and then changes nothing.
///
/// ```
/// let mut out = [b'-'; 5];
/// assert_eq!(florinhado::pack(&[7, 7, 7, 7], &mut out)?, 2);
/// assert_eq!(&out, b"\xfd\x07---");
/// # Ok::<(), florinhado::Refused>(())
/// ```
pub fn pack(row: &[u8], out: &mut [u8]) -> Result<usize, Refused> {
    let mut length = 0;
    let told = calls::byterun_pack(row, out, &mut length);
    answer(told, 0, length)
}
