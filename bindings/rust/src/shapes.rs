//! The scan lines of a picture with their shape.

use crate::answer::{answer, Refused};
use crate::calls;
use crate::properties::Header;

/// Colour numbers with their shape, which says of each pixel whether it shows.
///
/// ```
/// let shaped = florinhado::Shaped { colours: vec![3, 0, 3], shape: vec![1, 0, 1] };
/// let shown: Vec<_> = shaped.shown().collect();
/// assert_eq!(shown, [Some(3), None, Some(3)]);
/// ```
#[derive(Clone, Debug, PartialEq, Eq, Hash)]
pub struct Shaped {
    /// The colour numbers, a byte for each pixel.
    pub colours: Vec<u8>,
    /// 1 for each pixel that shows, 0 for each that doesn't.
    pub shape: Vec<u8>,
}

impl Shaped {
    /// Room for so many pixels.
    pub(crate) fn room(pixels: usize) -> Shaped {
        Shaped { colours: vec![0; pixels], shape: vec![0; pixels] }
    }

    /// The colour number of each pixel, or nothing where it doesn't show.
    ///
    /// ```
    /// let shaped = florinhado::Shaped { colours: vec![2], shape: vec![0] };
    /// assert_eq!(shaped.shown().next(), Some(None));
    /// ```
    pub fn shown(&self) -> impl Iterator<Item = Option<u8>> + '_ {
        self.colours.iter().zip(&self.shape).map(|(colour, shows)| (*shows == 1).then_some(*colour))
    }
}

/// Writes the colour numbers of one scan line to `row` and its shape to `shape`,
/// each with a byte for each pixel, and gives the place in the BODY at which the
/// next line starts. A pixel shows, 1, or doesn't, 0: with masking 1 by the mask
/// row, with 2 unless it has the transparent colour, with 0 always. Refuses as
/// [`scan_line`](crate::scan_line) does, with 28 for either length, and right
/// after it with 44 for masking 3; then both stay as they were.
///
/// ```
/// let refused = florinhado::shape_line(b"FORM\0\0\0\x04ILBM", 0, 0, &mut [0; 8], &mut [0; 8]);
/// assert_eq!(refused.unwrap_err().number, 21);
/// ```
pub fn shape_line(
    file: &[u8],
    picture: usize,
    start: usize,
    row: &mut [u8],
    shape: &mut [u8],
) -> Result<usize, Refused> {
    let (mut place, mut next) = (0, 0);
    let told = calls::ilbm_shape_line(file, picture, start, row, shape, &mut place, &mut next);
    answer(told, place, next)
}

/// Writes the colour numbers of all scan lines to `frame` and their shape to
/// `shape`, each with a byte for each pixel, line by line, and gives how many
/// bytes of the BODY are left over. Refuses as [`shape_line`] does, but with no
/// 29.
///
/// ```
/// let refused = florinhado::shape_frame(b"FORM\0\0\0\x04ILBM", 1, &mut [0; 64], &mut [0; 64]);
/// assert_eq!(refused.unwrap_err().number, 20);
/// ```
pub fn shape_frame(
    file: &[u8],
    picture: usize,
    frame: &mut [u8],
    shape: &mut [u8],
) -> Result<usize, Refused> {
    let (mut place, mut leftover) = (0, 0);
    let told = calls::ilbm_shape_frame(file, picture, frame, shape, &mut place, &mut leftover);
    answer(told, place, leftover)
}

/// Writes one scan line of any bytes as a BODY with its shape, as [`shape_line`]
/// does, by the fields of a header. Refuses with 41, 42, 43 or 24 for the fields,
/// 29 for a start beyond the BODY's end, 28 for a row or shape of a wrong length,
/// 44 for masking 3, 27 and 26 with the place in the BODY, tried in this order,
/// and then changes nothing.
///
/// ```
/// use florinhado::{body_shape_line, Header};
/// let fields = Header { width: 3, height: 1, planes: 2, masking: 2, transparent: 2, ..Header::default() };
/// let (mut row, mut shape) = ([9; 3], [9; 3]);
/// assert_eq!(body_shape_line(b"\xa0\0\x60\0", &fields, 0, &mut row, &mut shape)?, 4);
/// assert_eq!((row, shape), ([1, 2, 3], [1, 0, 1]));
/// let lasso = Header { masking: 3, ..fields };
/// let refused = body_shape_line(b"", &lasso, 0, &mut row, &mut shape).unwrap_err();
/// assert_eq!(refused.number, 44);
/// # Ok::<(), florinhado::Refused>(())
/// ```
pub fn body_shape_line(
    body: &[u8],
    fields: &Header,
    start: usize,
    row: &mut [u8],
    shape: &mut [u8],
) -> Result<usize, Refused> {
    let (mut place, mut next) = (0, 0);
    let told = calls::ilbm_body_shape_line(
        body,
        fields.width,
        fields.planes,
        fields.masking,
        fields.compression,
        fields.transparent,
        start,
        row,
        shape,
        &mut place,
        &mut next,
    );
    answer(told, place, next)
}

/// Writes all scan lines of any bytes as a BODY with their shape, as
/// [`shape_frame`] does, by the fields of a header. Refuses as
/// [`body_shape_line`] does, but with no 29, and with 24 for a height of 0 too.
///
/// ```
/// use florinhado::{body_shape_frame, Header};
/// let fields = Header { width: 3, height: 1, planes: 1, masking: 1, ..Header::default() };
/// let (mut frame, mut shape) = ([9; 3], [9; 3]);
/// assert_eq!(body_shape_frame(b"\xe0\0\xc0\0end", &fields, &mut frame, &mut shape)?, 3);
/// assert_eq!((frame, shape), ([1, 1, 1], [1, 1, 0]));
/// # Ok::<(), florinhado::Refused>(())
/// ```
pub fn body_shape_frame(
    body: &[u8],
    fields: &Header,
    frame: &mut [u8],
    shape: &mut [u8],
) -> Result<usize, Refused> {
    let (mut place, mut leftover) = (0, 0);
    let told = calls::ilbm_body_shape_frame(
        body,
        fields.width,
        fields.height,
        fields.planes,
        fields.masking,
        fields.compression,
        fields.transparent,
        frame,
        shape,
        &mut place,
        &mut leftover,
    );
    answer(told, place, leftover)
}
