//! The scan lines of a picture in colours, and its palette as 64 triples.

use crate::answer::{answer, Refused};
use crate::calls;
use crate::properties::Header;

/// Writes one scan line in colours to `row`, which has three bytes for each
/// pixel, red, green, blue, and gives the place in the BODY at which the next line
/// starts. `default` is the palette where no CMAP counts. How colours are made of
/// the colour numbers is told [at the top](crate#colours). Refuses as
/// [`scan_line`](crate::scan_line) does, with 28 unless the row has three bytes a
/// pixel, and right after 25 with 46 for hold-and-modify with other than 6 or 8
/// planes; then the row stays as it was.
///
/// ```
/// let file = include_bytes!("../../../samples/colours.iff");
/// let mut row = [9; 12];
/// assert_eq!(florinhado::colour_line(file, 0, 0, b"", &mut row)?, 12);
/// assert_eq!(row, [170, 0, 0, 255, 128, 0, 255, 128, 255, 255, 17, 255]);
/// let refused = florinhado::colour_line(file, 4, 0, b"", &mut row).unwrap_err();
/// assert_eq!(refused.number, 46);
/// # Ok::<(), florinhado::Refused>(())
/// ```
pub fn colour_line(
    file: &[u8],
    picture: usize,
    start: usize,
    default: &[u8],
    row: &mut [u8],
) -> Result<usize, Refused> {
    let (mut place, mut next) = (0, 0);
    let told = calls::ilbm_colour_line(file, picture, start, default, row, &mut place, &mut next);
    answer(told, place, next)
}

/// Writes all scan lines in colours to `frame`, three bytes for each pixel, line by
/// line, and gives how many bytes of the BODY are left over. Refuses as
/// [`colour_line`] does, but with no 29.
///
/// ```
/// let file = include_bytes!("../../../samples/colours.iff");
/// let mut frame = [9; 24];
/// assert_eq!(florinhado::colour_frame(file, 2, b"", &mut frame)?, 0);
/// assert_eq!(frame[..6], [255, 128, 0, 127, 64, 0]);
/// # Ok::<(), florinhado::Refused>(())
/// ```
pub fn colour_frame(file: &[u8], picture: usize, default: &[u8], frame: &mut [u8]) -> Result<usize, Refused> {
    let (mut place, mut leftover) = (0, 0);
    let told = calls::ilbm_colour_frame(file, picture, default, frame, &mut place, &mut leftover);
    answer(told, place, leftover)
}

/// Writes one scan line of any bytes as a BODY in colours, as [`colour_line`]
/// does, by the fields of a header, the view modes (0 where there is no CAMG) and a
/// palette. Refuses with 41, 42, 43 or 24 for the fields, 46 for the view modes with
/// these planes, 29 for a start beyond the BODY's end, 28 for a row of a wrong
/// length, 27 and 26 with the place in the BODY, tried in this order, and then
/// changes nothing.
///
/// ```
/// use florinhado::{body_colour_line, Header};
/// let fields = Header { width: 3, height: 1, planes: 2, ..Header::default() };
/// let palette = [0, 0, 0, 10, 20, 30, 40, 50, 60];
/// let mut row = [9; 9];
/// assert_eq!(body_colour_line(b"\xa0\0\x60\0", &fields, 0, &palette, 0, &mut row)?, 4);
/// assert_eq!(row, [10, 20, 30, 40, 50, 60, 0, 0, 0]);
/// let refused = body_colour_line(b"", &fields, 0x800, &palette, 9, &mut row).unwrap_err();
/// assert_eq!(refused.number, 46);
/// # Ok::<(), florinhado::Refused>(())
/// ```
pub fn body_colour_line(
    body: &[u8],
    fields: &Header,
    view_mode: u32,
    palette: &[u8],
    start: usize,
    row: &mut [u8],
) -> Result<usize, Refused> {
    let (mut place, mut next) = (0, 0);
    let told = calls::ilbm_body_colour_line(
        body,
        fields.width,
        fields.planes,
        fields.masking,
        fields.compression,
        view_mode,
        palette,
        start,
        row,
        &mut place,
        &mut next,
    );
    answer(told, place, next)
}

/// Writes all scan lines of any bytes as a BODY in colours, as [`colour_frame`]
/// does, by the fields of a header, the view modes and a palette. Refuses as
/// [`body_colour_line`] does, but with no 29, and with 24 for a height of 0 too.
///
/// ```
/// use florinhado::{body_colour_frame, Header};
/// let fields = Header { width: 3, height: 1, planes: 1, ..Header::default() };
/// let mut frame = [9; 9];
/// assert_eq!(body_colour_frame(b"\xa0\0end", &fields, 0, &[1, 2, 3, 4, 5, 6], &mut frame)?, 3);
/// assert_eq!(frame, [4, 5, 6, 1, 2, 3, 4, 5, 6]);
/// # Ok::<(), florinhado::Refused>(())
/// ```
pub fn body_colour_frame(
    body: &[u8],
    fields: &Header,
    view_mode: u32,
    palette: &[u8],
    frame: &mut [u8],
) -> Result<usize, Refused> {
    let (mut place, mut leftover) = (0, 0);
    let told = calls::ilbm_body_colour_frame(
        body,
        fields.width,
        fields.height,
        fields.planes,
        fields.masking,
        fields.compression,
        view_mode,
        palette,
        frame,
        &mut place,
        &mut leftover,
    );
    answer(told, place, leftover)
}

/// The palette of the picture with this number, or the default where no CMAP
/// counts, as 64 triples of red, green, blue: of a half-bright picture entries 0 to
/// 31 and their halves, of any other the first 64. An entry that isn't there whole
/// is (0, 0, 0). Or a refusal [of a picture](crate#refusals-of-a-picture).
///
/// ```
/// let file = include_bytes!("../../../samples/colours.iff");
/// let bright = florinhado::triples(file, 2, b"")?;
/// assert_eq!((bright[1], bright[3], bright[33]), ([255, 128, 0], [0; 3], [127, 64, 0]));
/// assert_eq!(florinhado::triples(file, 3, b"")?[33], [0; 3]);
/// # Ok::<(), florinhado::Refused>(())
/// ```
pub fn triples(file: &[u8], picture: usize, default: &[u8]) -> Result<[[u8; 3]; 64], Refused> {
    let mut place = 0;
    let mut triples = [[0; 3]; 64];
    let told = calls::ilbm_triples(file, picture, default, triples.as_flattened_mut(), &mut place);
    answer(told, place, triples)
}

/// Any palette as 64 triples, as [`triples`] has them, by the planes of a picture
/// and its view modes (0 where there is no CAMG).
///
/// ```
/// let palette = [9, 8, 7, 6, 5, 4, 3, 2];
/// let bright = florinhado::palette_triples(&palette, 6, 0x80);
/// assert_eq!((bright[1], bright[2], bright[33]), ([6, 5, 4], [0; 3], [3, 2, 2]));
/// ```
pub fn palette_triples(palette: &[u8], planes: u8, view_mode: u32) -> [[u8; 3]; 64] {
    let mut triples = [[0; 3]; 64];
    // There is room for all of them, so that nothing is refused.
    calls::ilbm_palette_triples(palette, planes, view_mode, triples.as_flattened_mut());
    triples
}
