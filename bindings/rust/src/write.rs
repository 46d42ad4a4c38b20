//! The picture writer.

use crate::answer::{answer, Refused};
use crate::calls;
use crate::properties::Header;

/// Writes one picture as a file to the start of `out` and gives the length; the
/// bytes behind it stay. `frame` has the colour numbers, a byte a pixel, line by
/// line; `pad1` of the header is not looked at. Refuses with 33 for fields, a
/// palette or a frame that can't be written, 34 for a colour number with more
/// bits than planes, 45 for masking 1, which [`write_with_shape`] takes, 35 for a
/// file over 16,777,216 bytes, or 32 if `out` is too short, tried in this order,
/// and then changes nothing.
///
/// ```
/// use florinhado::{frame, header, palette, write, Header};
/// let fields = Header { width: 3, height: 1, planes: 2, compression: 1, ..Header::default() };
/// let mut file = [0; 100];
/// let length = write(&fields, &[0, 0, 0, 255, 255, 255], &[1, 2, 3], &mut file)?;
/// let file = &file[..length];
///
/// let mut colours = [0; 3];
/// assert_eq!(frame(file, 0, &mut colours)?, 0);
/// assert_eq!(colours, [1, 2, 3]);
/// assert_eq!(header(file, 0)?.value, fields);
/// assert_eq!(palette(file, 0, b"")?.value, [0, 0, 0, 255, 255, 255]);
///
/// assert_eq!(write(&fields, b"", &[1, 2, 4], &mut [0; 100]).unwrap_err().number, 34);
/// # Ok::<(), florinhado::Refused>(())
/// ```
pub fn write(header: &Header, palette: &[u8], frame: &[u8], out: &mut [u8]) -> Result<usize, Refused> {
    write_with_shape(header, palette, frame, &[], out)
}

/// Writes one picture as [`write`] does, for masking 1 with a mask plane: `shape`
/// has a byte for each pixel, 1 where it shows and 0 where not. For any other
/// masking it has none. Refuses as [`write`] does, with 45 for a shape that has a
/// byte over 1 or another length.
///
/// ```
/// use florinhado::{shape_frame, write_with_shape, Header};
/// let fields = Header { width: 3, height: 1, planes: 2, masking: 1, ..Header::default() };
/// let mut file = [0; 100];
/// let length = write_with_shape(&fields, b"", &[1, 2, 3], &[1, 0, 1], &mut file)?;
///
/// let (mut colours, mut shape) = ([0; 3], [0; 3]);
/// assert_eq!(shape_frame(&file[..length], 0, &mut colours, &mut shape)?, 0);
/// assert_eq!((colours, shape), ([1, 2, 3], [1, 0, 1]));
///
/// let refused = write_with_shape(&fields, b"", &[1, 2, 3], &[1, 2, 1], &mut file).unwrap_err();
/// assert_eq!(refused.to_string(), "refusal 45 at 0: a shape with a byte over 1 or of a wrong length");
/// # Ok::<(), florinhado::Refused>(())
/// ```
pub fn write_with_shape(
    header: &Header,
    palette: &[u8],
    frame: &[u8],
    shape: &[u8],
    out: &mut [u8],
) -> Result<usize, Refused> {
    let mut length = 0;
    let told = calls::ilbm_write(
        header.width,
        header.height,
        header.x,
        header.y,
        header.planes,
        header.masking,
        header.compression,
        header.transparent,
        header.x_aspect,
        header.y_aspect,
        header.page_width,
        header.page_height,
        palette,
        frame,
        shape,
        out,
        &mut length,
    );
    answer(told, 0, length)
}
