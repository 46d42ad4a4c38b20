//! The writer for one ILBM picture: refusals 33, 34, 45, 35, 32.

use crate::answer::Refused;
use crate::name::Name;
use crate::pack::packed;
use crate::rows::row_bytes;
use crate::tree::LONGEST_FILE;

/// The header fields that the caller gives.
#[derive(Clone, Copy, Debug, PartialEq, Eq)]
pub struct Fields {
    pub width: u16,
    pub height: u16,
    pub x: i16,
    pub y: i16,
    pub planes: u8,
    pub masking: u8,
    pub compression: u8,
    pub transparent_color: u16,
    pub x_aspect: u8,
    pub y_aspect: u8,
    pub page_width: i16,
    pub page_height: i16,
}

/// The file with one picture, for a buffer of `room` bytes. With masking 1 the shape has a byte for each
/// pixel, else none.
pub fn write_picture(
    fields: &Fields,
    palette: &[u8],
    frame: &[u8],
    shape: &[u8],
    room: usize,
) -> Result<Vec<u8>, Refused> {
    if !fields_allowed(fields, palette, frame) {
        return Err(Refused::plain(33));
    }
    if frame.iter().any(|colour| u32::from(*colour) >> fields.planes != 0) {
        return Err(Refused::plain(34));
    }
    if !shape_allowed(fields, frame, shape) {
        return Err(Refused::plain(45));
    }
    let mut members = b"ILBM".to_vec();
    put_chunk(&mut members, Name::BMHD, &header_data(fields));
    if !palette.is_empty() {
        put_chunk(&mut members, Name::CMAP, palette);
    }
    put_chunk(&mut members, Name::BODY, &body_data(fields, frame, shape));
    let mut file = Vec::new();
    put_chunk(&mut file, Name::FORM, &members);
    if file.len() > LONGEST_FILE {
        return Err(Refused::plain(35));
    }
    if file.len() > room {
        return Err(Refused::plain(32));
    }
    Ok(file)
}

fn fields_allowed(fields: &Fields, palette: &[u8], frame: &[u8]) -> bool {
    fields.width > 0
        && fields.height > 0
        && (1..=8).contains(&fields.planes)
        && fields.masking <= 3
        && fields.compression <= 1
        && palette.len().is_multiple_of(3)
        && palette.len() <= 768
        && frame.len() == usize::from(fields.width) * usize::from(fields.height)
}

/// "45 after 34 for a shape with a byte over 1 or of a length other than w times h for masking 1 and 0
/// for the rest"; the frame has w times h.
fn shape_allowed(fields: &Fields, frame: &[u8], shape: &[u8]) -> bool {
    let length = if fields.masking == 1 { frame.len() } else { 0 };
    shape.len() == length && shape.iter().all(|byte| *byte <= 1)
}

fn put_chunk(out: &mut Vec<u8>, name: Name, data: &[u8]) {
    out.extend_from_slice(&name.0);
    out.extend_from_slice(&(data.len() as u32).to_be_bytes());
    out.extend_from_slice(data);
    if data.len() % 2 == 1 {
        out.push(0);
    }
}

/// The 20 bytes of BMHD.
fn header_data(fields: &Fields) -> Vec<u8> {
    let mut data = Vec::new();
    data.extend(fields.width.to_be_bytes());
    data.extend(fields.height.to_be_bytes());
    data.extend(fields.x.to_be_bytes());
    data.extend(fields.y.to_be_bytes());
    data.extend([fields.planes, fields.masking, fields.compression, 0]);
    data.extend(fields.transparent_color.to_be_bytes());
    data.extend([fields.x_aspect, fields.y_aspect]);
    data.extend(fields.page_width.to_be_bytes());
    data.extend(fields.page_height.to_be_bytes());
    data
}

/// All plane rows of the frame, each line's mask row after them, packed one by one if so asked.
fn body_data(fields: &Fields, frame: &[u8], shape: &[u8]) -> Vec<u8> {
    let width = usize::from(fields.width);
    let mut masks = shape.chunks(width);
    let mut data = Vec::new();
    for line in frame.chunks(width) {
        let planes = (0..fields.planes).map(|plane| plane_row(line, plane, row_bytes(fields.width)));
        let mask = masks.next().map(|mask| plane_row(mask, 0, row_bytes(fields.width)));
        for row in planes.chain(mask) {
            if fields.compression == 1 {
                data.extend(packed(&row));
            } else {
                data.extend(row);
            }
        }
    }
    data
}

/// One plane of a line of colour numbers or of its shape, with zero bits after the last pixel.
fn plane_row(line: &[u8], plane: u8, length: usize) -> Vec<u8> {
    let mut row = vec![0; length];
    for (x, colour) in line.iter().enumerate() {
        row[x / 8] |= (colour >> plane & 1) << (7 - x % 8);
    }
    row
}
