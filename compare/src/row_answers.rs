//! What the calls on the rows of one picture tell, and what they leave in what was lent.

use crate::asked::Asked;
use crate::borrowed::refused;
use florinhado::{Picture, Refused, Shaped};
use second::Lent;

/// The next place or how many bytes are left over.
type Told = Result<usize, Refused>;

/// Reads rows of a picture into what is lent.
pub trait Rows {
    fn line(&self, start: usize, row: &mut [u8]) -> Told;
    fn frame(&self, frame: &mut [u8]) -> Told;
    fn shape_line(&self, start: usize, lent: &mut Shaped) -> Told;
    fn shape_frame(&self, lent: &mut Shaped) -> Told;
    fn colour_line(&self, start: usize, default: &[u8], row: &mut [u8]) -> Told;
    fn colour_frame(&self, default: &[u8], frame: &mut [u8]) -> Told;
}

/// The calls on a picture's number.
pub struct ByNumber<'a>(pub &'a [u8], pub usize);

impl Rows for ByNumber<'_> {
    fn line(&self, start: usize, row: &mut [u8]) -> Told {
        florinhado::scan_line(self.0, self.1, start, row)
    }

    fn frame(&self, frame: &mut [u8]) -> Told {
        florinhado::frame(self.0, self.1, frame)
    }

    fn shape_line(&self, start: usize, lent: &mut Shaped) -> Told {
        florinhado::shape_line(self.0, self.1, start, &mut lent.colours, &mut lent.shape)
    }

    fn shape_frame(&self, lent: &mut Shaped) -> Told {
        florinhado::shape_frame(self.0, self.1, &mut lent.colours, &mut lent.shape)
    }

    fn colour_line(&self, start: usize, default: &[u8], row: &mut [u8]) -> Told {
        florinhado::colour_line(self.0, self.1, start, default, row)
    }

    fn colour_frame(&self, default: &[u8], frame: &mut [u8]) -> Told {
        florinhado::colour_frame(self.0, self.1, default, frame)
    }
}

/// A picture of an opened file.
impl Rows for Picture<'_> {
    fn line(&self, start: usize, row: &mut [u8]) -> Told {
        self.line_into(start, row)
    }

    fn frame(&self, frame: &mut [u8]) -> Told {
        self.frame_into(frame)
    }

    fn shape_line(&self, start: usize, lent: &mut Shaped) -> Told {
        self.line_with_shape_into(start, &mut lent.colours, &mut lent.shape)
    }

    fn shape_frame(&self, lent: &mut Shaped) -> Told {
        self.frame_with_shape_into(&mut lent.colours, &mut lent.shape)
    }

    fn colour_line(&self, start: usize, default: &[u8], row: &mut [u8]) -> Told {
        self.colour_line_into(start, default, row)
    }

    fn colour_frame(&self, default: &[u8], frame: &mut [u8]) -> Told {
        self.colour_frame_into(default, frame)
    }
}

/// The second reader, of which only a success is put into what was lent.
pub struct BySecond<'a>(pub &'a [u8], pub usize);

impl Rows for BySecond<'_> {
    fn line(&self, start: usize, row: &mut [u8]) -> Told {
        let line = second::scan_line(self.0, self.1, start, row.len()).map_err(refused)?;
        row.copy_from_slice(&line.colours);
        Ok(line.next)
    }

    fn frame(&self, frame: &mut [u8]) -> Told {
        let told = second::frame(self.0, self.1, frame.len()).map_err(refused)?;
        frame.copy_from_slice(&told.colours);
        Ok(told.leftover)
    }

    fn shape_line(&self, start: usize, lent: &mut Shaped) -> Told {
        let line = second::shape_line(self.0, self.1, start, lengths(lent)).map_err(refused)?;
        *lent = Shaped { colours: line.pixels.colours, shape: line.shape };
        Ok(line.pixels.next)
    }

    fn shape_frame(&self, lent: &mut Shaped) -> Told {
        let told = second::shape_frame(self.0, self.1, lengths(lent)).map_err(refused)?;
        *lent = Shaped { colours: told.pixels.colours, shape: told.shape };
        Ok(told.pixels.leftover)
    }

    fn colour_line(&self, start: usize, default: &[u8], row: &mut [u8]) -> Told {
        let line = second::colour_line(self.0, self.1, start, default, row.len()).map_err(refused)?;
        row.copy_from_slice(&line.colours);
        Ok(line.next)
    }

    fn colour_frame(&self, default: &[u8], frame: &mut [u8]) -> Told {
        let told = second::colour_frame(self.0, self.1, default, frame.len()).map_err(refused)?;
        frame.copy_from_slice(&told.colours);
        Ok(told.leftover)
    }
}

/// Every call refuses, and what was lent is as it was.
impl Rows for Refused {
    fn line(&self, _: usize, _: &mut [u8]) -> Told {
        Err(*self)
    }

    fn frame(&self, _: &mut [u8]) -> Told {
        Err(*self)
    }

    fn shape_line(&self, _: usize, _: &mut Shaped) -> Told {
        Err(*self)
    }

    fn shape_frame(&self, _: &mut Shaped) -> Told {
        Err(*self)
    }

    fn colour_line(&self, _: usize, _: &[u8], _: &mut [u8]) -> Told {
        Err(*self)
    }

    fn colour_frame(&self, _: &[u8], _: &mut [u8]) -> Told {
        Err(*self)
    }
}

fn lengths(lent: &Shaped) -> Lent {
    Lent { colours: lent.colours.len(), shape: lent.shape.len() }
}

/// All that was told, each with the bytes in what was lent.
#[derive(Clone, Debug, PartialEq)]
pub struct RowAnswers {
    lines: Vec<(Told, Vec<u8>)>,
    frames: Vec<(Told, Vec<u8>)>,
    shape_lines: Vec<(Told, Shaped)>,
    shape_frames: Vec<(Told, Shaped)>,
    colour_lines: Vec<(Told, Vec<u8>)>,
    colour_frames: Vec<(Told, Vec<u8>)>,
}

impl RowAnswers {
    pub fn of(rows: &impl Rows, asked: &Asked) -> RowAnswers {
        let line = |(start, row): &(usize, Vec<u8>)| told(row, |row| rows.line(*start, row));
        let shape_line = |(start, lent): &(usize, Shaped)| told(lent, |lent| rows.shape_line(*start, lent));
        let frame = |frame: &Vec<u8>| told(frame, |frame| rows.frame(frame));
        let shape_frame = |lent: &Shaped| told(lent, |lent| rows.shape_frame(lent));
        let colour_line =
            |(start, row): &(usize, Vec<u8>)| told(row, |row| rows.colour_line(*start, &asked.default, row));
        let colour_frame = |frame: &Vec<u8>| told(frame, |frame| rows.colour_frame(&asked.default, frame));
        RowAnswers {
            lines: asked.lines.iter().map(line).collect(),
            frames: asked.frames.iter().map(frame).collect(),
            shape_lines: asked.shape_lines.iter().map(shape_line).collect(),
            shape_frames: asked.shape_frames.iter().map(shape_frame).collect(),
            colour_lines: asked.colour_lines.iter().map(colour_line).collect(),
            colour_frames: asked.colour_frames.iter().map(colour_frame).collect(),
        }
    }

    /// The first frame that was asked for, or what it is refused with.
    pub fn frame(&self) -> Result<&[u8], Refused> {
        let (told, bytes) = &self.frames[0];
        told.map(|_| &bytes[..])
    }

    /// The same with its shape.
    pub fn shape_frame(&self) -> Result<&Shaped, Refused> {
        let (told, lent) = &self.shape_frames[0];
        told.map(|_| lent)
    }

    /// The same in colours.
    pub fn colour_frame(&self) -> Result<&[u8], Refused> {
        let (told, bytes) = &self.colour_frames[0];
        told.map(|_| &bytes[..])
    }

    /// Whether a frame is shown.
    pub fn is_shown(&self) -> bool {
        self.frames.iter().any(|(told, _)| told.is_ok())
    }
}

/// A call with a copy of what is lent to it.
fn told<T: Clone>(lent: &T, call: impl FnOnce(&mut T) -> Told) -> (Told, T) {
    let mut lent = lent.clone();
    (call(&mut lent), lent)
}
