//! Fields of the fixed-size properties.

use crate::answer::Refused;

/// The fields of BMHD.
#[derive(Clone, Copy, Debug, PartialEq, Eq)]
pub struct Header {
    pub width: u16,
    pub height: u16,
    pub x: i16,
    pub y: i16,
    pub planes: u8,
    pub masking: u8,
    pub compression: u8,
    pub pad1: u8,
    pub transparent_color: u16,
    pub x_aspect: u8,
    pub y_aspect: u8,
    pub page_width: i16,
    pub page_height: i16,
}

/// The fields of BMHD that say how a scan line lies in its BODY.
#[derive(Clone, Copy, Debug, PartialEq, Eq)]
pub struct Layout {
    pub width: u16,
    pub planes: u8,
    pub masking: u8,
    pub compression: u8,
}

impl Header {
    pub fn layout(&self) -> Layout {
        let Header { width, planes, masking, compression, .. } = *self;
        Layout { width, planes, masking, compression }
    }

    /// No pixel or no plane.
    pub(crate) fn is_empty(&self) -> bool {
        self.width == 0 || self.height == 0 || self.planes == 0
    }
}

/// The hotspot of GRAB.
#[derive(Clone, Copy, Debug, PartialEq, Eq)]
pub struct Grab {
    pub x: i16,
    pub y: i16,
}

/// The fields of DEST.
#[derive(Clone, Copy, Debug, PartialEq, Eq)]
pub struct Destination {
    pub depth: u8,
    pub pad1: u8,
    pub plane_pick: u16,
    pub plane_on_off: u16,
    pub plane_mask: u16,
}

/// Big-endian fields of a chunk's data, read from the left.
pub(crate) struct Reader<'a>(pub &'a [u8]);

impl Reader<'_> {
    pub fn u8(&mut self) -> u8 {
        let (first, rest) = self.0.split_first().unwrap();
        self.0 = rest;
        *first
    }

    pub fn u16(&mut self) -> u16 {
        u16::from_be_bytes([self.u8(), self.u8()])
    }

    pub fn i16(&mut self) -> i16 {
        self.u16() as i16
    }

    pub fn u32(&mut self) -> u32 {
        u32::from(self.u16()) << 16 | u32::from(self.u16())
    }
}

/// The fields of a BMHD by its bytes alone; 23 if it hasn't 20.
pub fn header_fields(data: &[u8]) -> Result<Header, Refused> {
    if data.len() != 20 {
        return Err(Refused::plain(23));
    }
    Ok(read_header(&mut Reader(data)))
}

pub(crate) fn read_header(fields: &mut Reader) -> Header {
    Header {
        width: fields.u16(),
        height: fields.u16(),
        x: fields.i16(),
        y: fields.i16(),
        planes: fields.u8(),
        masking: fields.u8(),
        compression: fields.u8(),
        pad1: fields.u8(),
        transparent_color: fields.u16(),
        x_aspect: fields.u8(),
        y_aspect: fields.u8(),
        page_width: fields.i16(),
        page_height: fields.i16(),
    }
}

pub(crate) fn read_grab(fields: &mut Reader) -> Grab {
    Grab { x: fields.i16(), y: fields.i16() }
}

pub(crate) fn read_destination(fields: &mut Reader) -> Destination {
    Destination {
        depth: fields.u8(),
        pad1: fields.u8(),
        plane_pick: fields.u16(),
        plane_on_off: fields.u16(),
        plane_mask: fields.u16(),
    }
}
