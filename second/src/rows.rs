//! Scan lines and frames of a picture: refusals 25 to 29.

use crate::answer::Refused;
use crate::fields::{Header, Layout};
use crate::picture::{faults, properties};

/// The rows of one scan line, read: its colour numbers, its mask row if it has one, and the place after them.
pub(crate) struct Decoded {
    pub colours: Vec<u8>,
    pub mask: Option<Vec<u8>>,
    pub next: usize,
}

/// The colours of one scan line, as numbers or as red, green, blue, and the place in the BODY after it.
#[derive(Clone, Debug, PartialEq, Eq)]
pub struct ScanLine {
    pub colours: Vec<u8>,
    pub next: usize,
}

/// The colours of a frame, as numbers or as red, green, blue, and the count of BODY bytes left over.
#[derive(Clone, Debug, PartialEq, Eq)]
pub struct Frame {
    pub colours: Vec<u8>,
    pub leftover: usize,
}

/// Reads the scan line at `start` in the BODY, into a row of `row_length` bytes.
pub fn scan_line(file: &[u8], picture: usize, start: usize, row_length: usize) -> Result<ScanLine, Refused> {
    let (header, body) = picture_body(file, picture)?;
    body_line(body, &header.layout(), start, row_length)
}

/// Reads all scan lines from place 0, into a frame of `frame_length` bytes.
pub fn frame(file: &[u8], picture: usize, frame_length: usize) -> Result<Frame, Refused> {
    let (header, body) = picture_body(file, picture)?;
    body_frame(body, &header.layout(), header.height, frame_length)
}

/// The scan line at `start` of any bytes as a BODY: 41, 42, 43, 24, then 29, 28, 27, 26.
pub fn body_line(body: &[u8], layout: &Layout, start: usize, row_length: usize) -> Result<ScanLine, Refused> {
    startable(body, layout, start)?;
    if row_length != usize::from(layout.width) {
        return Err(Refused::plain(28));
    }
    let Decoded { colours, next, .. } = decode_line(layout, body, start)?;
    Ok(ScanLine { colours, next })
}

/// So many scan lines of any bytes as a BODY: 41, 42, 43, 24, then 28, 27, 26.
pub fn body_frame(body: &[u8], layout: &Layout, height: u16, frame_length: usize) -> Result<Frame, Refused> {
    showable(layout, height)?;
    if frame_length != usize::from(layout.width) * usize::from(height) {
        return Err(Refused::plain(28));
    }
    let mut colours = Vec::new();
    let mut place = 0;
    for _ in 0..height {
        let line = decode_line(layout, body, place)?;
        colours.extend(line.colours);
        place = line.next;
    }
    Ok(Frame { colours, leftover: body.len() - place })
}

/// A line can be asked for: 41, 42, 43, 24, 29.
pub(crate) fn startable(body: &[u8], layout: &Layout, start: usize) -> Result<(), Refused> {
    line_sound(layout)?;
    inside(body, start)
}

/// The fields are those of a line: 41, 42, 43, 24.
pub(crate) fn line_sound(layout: &Layout) -> Result<(), Refused> {
    sound(layout, layout.width == 0 || layout.planes == 0)
}

/// The place is none beyond the BODY: 29.
pub(crate) fn inside(body: &[u8], start: usize) -> Result<(), Refused> {
    if start > body.len() {
        return Err(Refused::plain(29));
    }
    Ok(())
}

/// So many lines can be asked for: 41, 42, 43, 24.
pub(crate) fn showable(layout: &Layout, height: u16) -> Result<(), Refused> {
    sound(layout, layout.width == 0 || layout.planes == 0 || height == 0)
}

/// Refuses by the first fault of the fields.
fn sound(layout: &Layout, empty: bool) -> Result<(), Refused> {
    faults(layout, empty).first().map_or(Ok(()), |number| Err(Refused::plain(*number)))
}

/// The header and BODY of a picture, or the first of 1 to 12 and 20 to 25.
pub(crate) fn picture_body(file: &[u8], picture: usize) -> Result<(Header, &[u8]), Refused> {
    let found = properties(file, picture)?;
    let range = found.body.ok_or(Refused::plain(25))?;
    Ok((found.header, &file[range]))
}

/// Bytes of one plane row: whole 16-bit words.
pub(crate) fn row_bytes(width: u16) -> usize {
    usize::from(width).div_ceil(16) * 2
}

pub(crate) fn decode_line(layout: &Layout, body: &[u8], start: usize) -> Result<Decoded, Refused> {
    let mut colours = vec![0; usize::from(layout.width)];
    let mut next = start;
    for plane in 0..layout.planes {
        let row = plane_row(layout, body, &mut next)?;
        for (x, colour) in colours.iter_mut().enumerate() {
            *colour |= bit(&row, x) << plane;
        }
    }
    let mask = if layout.masking == 1 { Some(plane_row(layout, body, &mut next)?) } else { None };
    Ok(Decoded { colours, mask, next })
}

/// What a plane row has for pixel `x`.
pub(crate) fn bit(row: &[u8], x: usize) -> u8 {
    row[x / 8] >> (7 - x % 8) & 1
}

/// Reads one plane row at `place` and moves `place` behind it.
fn plane_row(layout: &Layout, body: &[u8], place: &mut usize) -> Result<Vec<u8>, Refused> {
    let length = row_bytes(layout.width);
    if layout.compression == 1 {
        return unpack_row(body, place, length);
    }
    let row = body.get(*place..*place + length).ok_or(Refused::at(26, *place))?;
    *place += length;
    Ok(row.to_vec())
}

/// Reads one ByteRun1 row of `length` bytes at `place`.
fn unpack_row(body: &[u8], place: &mut usize, length: usize) -> Result<Vec<u8>, Refused> {
    let mut row = Vec::with_capacity(length);
    while row.len() < length {
        let at = *place;
        let ended = Refused::at(26, at);
        let code = usize::from(*body.get(at).ok_or(ended)?);
        let (count, read) = match code {
            0..=127 => (code + 1, code + 1),
            128 => (0, 0),
            _ => (257 - code, 1),
        };
        if row.len() + count > length {
            return Err(Refused::at(27, at));
        }
        let bytes = body.get(at + 1..at + 1 + read).ok_or(ended)?;
        match code {
            0..=127 => row.extend_from_slice(bytes),
            128 => {}
            _ => row.resize(row.len() + count, bytes[0]),
        }
        *place = at + 1 + read;
    }
    Ok(row)
}
