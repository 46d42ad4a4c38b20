//! The scan lines of a picture in turn.

use crate::answer::Refused;
use crate::colours::body_colour_line;
use crate::properties::Header;
use crate::rows::body_line;
use crate::shapes::{body_shape_line, Shaped};

/// The header and the BODY of a picture, or what it is refused with.
pub(crate) type Read<'a> = Result<(Header, &'a [u8]), Refused>;

/// How far the lines of a picture have been read.
#[derive(Clone, Debug)]
struct Place<'a> {
    read: Read<'a>,
    /// Where the next line starts in the BODY.
    start: usize,
    /// How many lines, or refusals, are still to come.
    left: u16,
}

impl<'a> Place<'a> {
    fn of(read: Read<'a>) -> Place<'a> {
        Place { read, start: 0, left: read.map_or(1, |(header, _)| header.height) }
    }

    /// The next line, by what reads one from a place and gives the place after it.
    fn next<T>(
        &mut self,
        line: impl FnOnce(&[u8], &Header, usize) -> Result<(T, usize), Refused>,
    ) -> Option<Result<T, Refused>> {
        self.left = self.left.checked_sub(1)?;
        let told = self.read.and_then(|(header, body)| line(body, &header, self.start));
        match &told {
            Ok((_, next)) => self.start = *next,
            Err(_) => self.left = 0,
        }
        Some(told.map(|(line, _)| line))
    }
}

/// The scan lines of a [`Picture`](crate::Picture) from the first on, each as its
/// colour numbers, a byte for each pixel. After a refusal, of the picture or of a
/// line, there are no more.
///
/// ```
/// let file = florinhado::File::new(b"FORM\0\0\0\x04ILBM")?;
/// let mut lines: florinhado::Lines = file.picture(0).unwrap().lines();
/// assert_eq!(lines.next().unwrap().unwrap_err().number, 21);
/// assert!(lines.next().is_none());
/// # Ok::<(), florinhado::Refused>(())
/// ```
#[derive(Clone, Debug)]
pub struct Lines<'a>(Place<'a>);

impl<'a> Lines<'a> {
    pub(crate) fn of(read: Read<'a>) -> Lines<'a> {
        Lines(Place::of(read))
    }
}

impl Iterator for Lines<'_> {
    type Item = Result<Vec<u8>, Refused>;

    fn next(&mut self) -> Option<Self::Item> {
        self.0.next(|body, header, start| {
            let mut row = vec![0; header.width.into()];
            let next = body_line(body, header, start, &mut row)?;
            Ok((row, next))
        })
    }
}

/// The scan lines of a [`Picture`](crate::Picture) from the first on, each with
/// its shape. After a refusal, of the picture or of a line, there are no more.
///
/// ```
/// let file = florinhado::File::new(include_bytes!("../../../samples/headers.iff"))?;
/// let lines: florinhado::ShapedLines = file.picture(5).unwrap().lines_with_shape();
/// let lines: Result<Vec<_>, _> = lines.collect();
/// assert_eq!(lines?[1].colours, [2, 1, 0]);
/// # Ok::<(), florinhado::Refused>(())
/// ```
#[derive(Clone, Debug)]
pub struct ShapedLines<'a>(Place<'a>);

impl<'a> ShapedLines<'a> {
    pub(crate) fn of(read: Read<'a>) -> ShapedLines<'a> {
        ShapedLines(Place::of(read))
    }
}

impl Iterator for ShapedLines<'_> {
    type Item = Result<Shaped, Refused>;

    fn next(&mut self) -> Option<Self::Item> {
        self.0.next(|body, header, start| {
            let mut line = Shaped::room(header.width.into());
            let next = body_shape_line(body, header, start, &mut line.colours, &mut line.shape)?;
            Ok((line, next))
        })
    }
}

/// The scan lines of a [`Picture`](crate::Picture) from the first on, each in
/// colours, three bytes for each pixel. After a refusal, of the picture or of a
/// line, there are no more.
///
/// ```
/// let file = florinhado::File::new(include_bytes!("../../../samples/colours.iff"))?;
/// let lines: florinhado::ColourLines = file.picture(2).unwrap().colour_lines(b"");
/// let lines: Result<Vec<_>, _> = lines.collect();
/// assert_eq!(lines?[1][..6], [17, 34, 51, 8, 17, 25]);
/// # Ok::<(), florinhado::Refused>(())
/// ```
#[derive(Clone, Debug)]
pub struct ColourLines<'a> {
    place: Place<'a>,
    view_mode: u32,
    palette: &'a [u8],
}

impl<'a> ColourLines<'a> {
    pub(crate) fn of(read: Read<'a>, view_mode: u32, palette: &'a [u8]) -> ColourLines<'a> {
        ColourLines { place: Place::of(read), view_mode, palette }
    }
}

impl Iterator for ColourLines<'_> {
    type Item = Result<Vec<u8>, Refused>;

    fn next(&mut self) -> Option<Self::Item> {
        self.place.next(|body, header, start| {
            let mut row = vec![0; 3 * usize::from(header.width)];
            let next = body_colour_line(body, header, self.view_mode, self.palette, start, &mut row)?;
            Ok((row, next))
        })
    }
}
