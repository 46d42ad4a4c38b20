//! A picture writer of one pass.

use super::rows::pack;
use second::Fields;

/// Writes a picture with packed rows into `out`, each row gathered bit by bit
/// and packed to its place, and gives the length. The fields must be ones that
/// can be written; nothing if `out` is too short.
pub fn write(fields: &Fields, palette: &[u8], frame: &[u8], out: &mut [u8]) -> Option<usize> {
    let mut at = 12;
    put_chunk(out, &mut at, b"BMHD", &header(fields))?;
    if !palette.is_empty() {
        put_chunk(out, &mut at, b"CMAP", palette)?;
    }
    let body = at + 8;
    at = put_rows(fields, frame, out, body)?;
    let size = at - body;
    put_head(out, body - 8, b"BODY", size)?;
    if size % 2 == 1 {
        *out.get_mut(at)? = 0;
        at += 1;
    }
    put_head(out, 0, b"FORM", at - 8)?;
    out[8..12].copy_from_slice(b"ILBM");
    Some(at)
}

fn put_head(out: &mut [u8], at: usize, name: &[u8; 4], size: usize) -> Option<()> {
    let target = out.get_mut(at..at + 8)?;
    target[..4].copy_from_slice(name);
    target[4..].copy_from_slice(&(size as u32).to_be_bytes());
    Some(())
}

fn put_chunk(out: &mut [u8], at: &mut usize, name: &[u8; 4], data: &[u8]) -> Option<()> {
    put_head(out, *at, name, data.len())?;
    let end = *at + 8 + data.len();
    out.get_mut(*at + 8..end)?.copy_from_slice(data);
    if data.len() % 2 == 1 {
        *out.get_mut(end)? = 0;
    }
    *at = end + data.len() % 2;
    Some(())
}

fn header(fields: &Fields) -> [u8; 20] {
    let mut data = [0; 20];
    let words = [
        (0, fields.width),
        (2, fields.height),
        (4, fields.x as u16),
        (6, fields.y as u16),
        (12, fields.transparent_color),
        (16, fields.page_width as u16),
        (18, fields.page_height as u16),
    ];
    for (place, word) in words {
        data[place..place + 2].copy_from_slice(&word.to_be_bytes());
    }
    data[8..11].copy_from_slice(&[fields.planes, fields.masking, fields.compression]);
    data[14..16].copy_from_slice(&[fields.x_aspect, fields.y_aspect]);
    data
}

/// The rows of every line, and where they end.
fn put_rows(fields: &Fields, frame: &[u8], out: &mut [u8], mut at: usize) -> Option<usize> {
    let width = usize::from(fields.width);
    let mut row = vec![0; width.div_ceil(16) * 2];
    for line in frame.chunks_exact(width) {
        for plane in 0..fields.planes {
            row.fill(0);
            for (x, colour) in line.iter().enumerate() {
                row[x / 8] |= (colour >> plane & 1) << (7 - x % 8);
            }
            at += pack(&row, out.get_mut(at..)?)?;
        }
    }
    Some(at)
}
