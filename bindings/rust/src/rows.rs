//! The scan lines of a picture.

use crate::answer::{answer, Refused};
use crate::calls;
use crate::properties::Header;

/// Writes the colour numbers of one scan line to `row`, which has a byte for
/// each pixel, and gives the place in the BODY at which the next line starts.
/// The first line starts at 0. A refusal is one [of a picture](crate#refusals-of-a-picture)
/// or of its rows, and changes nothing.
///
/// ```
/// let refused = florinhado::scan_line(b"FORM\0\0\0\x04ILBM", 0, 0, &mut [0; 8]).unwrap_err();
/// assert_eq!(refused.number, 21);
/// ```
pub fn scan_line(file: &[u8], picture: usize, start: usize, row: &mut [u8]) -> Result<usize, Refused> {
    let (mut place, mut next) = (0, 0);
    let told = calls::ilbm_line(file, picture, start, row, &mut place, &mut next);
    answer(told, place, next)
}

/// Writes the colour numbers of all scan lines to `frame`, which has a byte for
/// each pixel, line by line, and gives how many bytes of the BODY are left over.
/// A refusal is one [of a picture](crate#refusals-of-a-picture) or of its rows,
/// and changes nothing.
///
/// ```
/// let refused = florinhado::frame(b"FORM\0\0\0\x04ILBM", 1, &mut [0; 64]).unwrap_err();
/// assert_eq!(refused.number, 20);
/// ```
pub fn frame(file: &[u8], picture: usize, frame: &mut [u8]) -> Result<usize, Refused> {
    let (mut place, mut leftover) = (0, 0);
    let told = calls::ilbm_frame(file, picture, frame, &mut place, &mut leftover);
    answer(told, place, leftover)
}

/// Writes the colour numbers of one scan line of any bytes as a BODY to `row`,
/// by the fields of a header, and gives the place at which the next line starts.
/// Refuses with 41, 42, 43 or 24 for the fields, 29 for a start beyond the
/// BODY's end, 28 for a row of a wrong length, 27 and 26 with the place in the
/// BODY, tried in this order, and then changes nothing.
///
/// ```
/// use florinhado::{body_line, Header};
/// let fields = Header { width: 3, height: 1, planes: 2, ..Header::default() };
/// let mut row = [9; 3];
/// assert_eq!(body_line(b"\xa0\0\x60\0", &fields, 0, &mut row)?, 4);
/// assert_eq!(row, [1, 2, 3]);
/// assert_eq!(body_line(b"\xa0\0\x60\0", &fields, 5, &mut row).unwrap_err().number, 29);
/// # Ok::<(), florinhado::Refused>(())
/// ```
pub fn body_line(body: &[u8], fields: &Header, start: usize, row: &mut [u8]) -> Result<usize, Refused> {
    let Header { width, planes, masking, compression, .. } = *fields;
    let (mut place, mut next) = (0, 0);
    let told =
        calls::ilbm_body_line(body, width, planes, masking, compression, start, row, &mut place, &mut next);
    answer(told, place, next)
}

/// Writes the colour numbers of all scan lines of any bytes as a BODY to
/// `frame`, by the fields of a header, and gives how many bytes are left over.
/// Refuses as [`body_line`] does, but with no 29, and with 24 for a height of 0
/// too.
///
/// ```
/// use florinhado::{body_frame, Header};
/// let fields = Header { width: 3, height: 2, planes: 1, compression: 1, ..Header::default() };
/// let mut frame = [9; 6];
/// assert_eq!(body_frame(b"\xff\xa0\xff\x40end", &fields, &mut frame)?, 3);
/// assert_eq!(frame, [1, 0, 1, 0, 1, 0]);
/// let refused = body_frame(b"\xff\xa0\xfe\x40", &fields, &mut frame).unwrap_err();
/// assert_eq!((refused.number, refused.place), (27, 2));
/// # Ok::<(), florinhado::Refused>(())
/// ```
pub fn body_frame(body: &[u8], fields: &Header, frame: &mut [u8]) -> Result<usize, Refused> {
    let Header { width, height, planes, masking, compression, .. } = *fields;
    let (mut place, mut leftover) = (0, 0);
    let told = calls::ilbm_body_frame(
        body,
        width,
        height,
        planes,
        masking,
        compression,
        frame,
        &mut place,
        &mut leftover,
    );
    answer(told, place, leftover)
}
