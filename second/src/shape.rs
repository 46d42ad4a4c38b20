//! Scan lines and frames with their shape, which pixels show: refusal 44, and 28 of either length.

use crate::answer::Refused;
use crate::fields::Layout;
use crate::rows::{bit, decode_line, picture_body, showable, startable};
use crate::rows::{Decoded, Frame, ScanLine};

/// A scan line or frame with a byte more for each pixel: 1 where it shows, 0 where not.
#[derive(Clone, Debug, PartialEq, Eq)]
pub struct Shaped<T> {
    pub pixels: T,
    pub shape: Vec<u8>,
}

/// The bytes lent for colour numbers and those lent for their shape.
#[derive(Clone, Copy, Debug, PartialEq, Eq)]
pub struct Lent {
    pub colours: usize,
    pub shape: usize,
}

/// Reads the scan line at `start` in the BODY with its shape.
pub fn shape_line(
    file: &[u8],
    picture: usize,
    start: usize,
    lent: Lent,
) -> Result<Shaped<ScanLine>, Refused> {
    let (header, body) = picture_body(file, picture)?;
    body_shape_line(body, &header.layout(), header.transparent_color, start, lent)
}

/// Reads all scan lines from place 0 with their shape.
pub fn shape_frame(file: &[u8], picture: usize, lent: Lent) -> Result<Shaped<Frame>, Refused> {
    let (header, body) = picture_body(file, picture)?;
    body_shape_frame(body, &header.layout(), header.transparent_color, header.height, lent)
}

/// The scan line at `start` of any bytes as a BODY, with its shape: 41, 42, 43, 24, then 29, 28, 44, 27, 26.
pub fn body_shape_line(
    body: &[u8],
    layout: &Layout,
    transparent: u16,
    start: usize,
    lent: Lent,
) -> Result<Shaped<ScanLine>, Refused> {
    startable(body, layout, start)?;
    lent.filled_by(usize::from(layout.width))?;
    no_lasso(layout)?;
    let line = decode_line(layout, body, start)?;
    let shape = shape_of(layout, transparent, &line);
    Ok(Shaped { pixels: ScanLine { colours: line.colours, next: line.next }, shape })
}

/// So many scan lines of any bytes as a BODY, with their shape: 41, 42, 43, 24, then 28, 44, 27, 26.
pub fn body_shape_frame(
    body: &[u8],
    layout: &Layout,
    transparent: u16,
    height: u16,
    lent: Lent,
) -> Result<Shaped<Frame>, Refused> {
    showable(layout, height)?;
    lent.filled_by(usize::from(layout.width) * usize::from(height))?;
    no_lasso(layout)?;
    let (mut colours, mut shape) = (Vec::new(), Vec::new());
    let mut place = 0;
    for _ in 0..height {
        let line = decode_line(layout, body, place)?;
        shape.extend(shape_of(layout, transparent, &line));
        colours.extend(line.colours);
        place = line.next;
    }
    Ok(Shaped { pixels: Frame { colours, leftover: body.len() - place }, shape })
}

impl Lent {
    /// "28 also if the shape row isn't w bytes".
    fn filled_by(self, pixels: usize) -> Result<(), Refused> {
        if [self.colours, self.shape] == [pixels; 2] {
            return Ok(());
        }
        Err(Refused::plain(28))
    }
}

/// "44, only where the shape is asked, for masking 3".
fn no_lasso(layout: &Layout) -> Result<(), Refused> {
    if layout.masking == 3 {
        return Err(Refused::plain(44));
    }
    Ok(())
}

/// 003: "zero bits designate transparent pixels", or so do those that match transparentColor; else the
/// picture is an "opaque rectangular image".
fn shape_of(layout: &Layout, transparent: u16, line: &Decoded) -> Vec<u8> {
    match (&line.mask, layout.masking) {
        (Some(mask), _) => (0..line.colours.len()).map(|x| bit(mask, x)).collect(),
        (None, 2) => line.colours.iter().map(|colour| u8::from(u16::from(*colour) != transparent)).collect(),
        (None, _) => vec![1; line.colours.len()],
    }
}
