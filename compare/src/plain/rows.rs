//! A frame decoder, and a packer.

use second::{Header, Refused};

/// Decodes a BODY into `frame`, which must have w times h bytes, all 0, pixel by
/// pixel and bit by bit. Returns the count of BODY bytes left over; after 26 or 27
/// the frame is partly written.
pub fn frame(header: &Header, body: &[u8], frame: &mut [u8]) -> Result<usize, Refused> {
    let width = usize::from(header.width);
    let planes = usize::from(header.planes);
    let length = width.div_ceil(16) * 2;
    let mut rows = vec![0; length * (planes + usize::from(header.masking == 1))];
    let mut place = 0;
    for line in frame.chunks_exact_mut(width) {
        for row in rows.chunks_exact_mut(length) {
            place = read_row(header, body, place, row)?;
        }
        gather(&rows[..planes * length], length, line);
    }
    Ok(body.len() - place)
}

/// Gathers the bits of the plane rows into a cleared line.
fn gather(rows: &[u8], length: usize, line: &mut [u8]) {
    for (x, pixel) in line.iter_mut().enumerate() {
        for (plane, row) in rows.chunks_exact(length).enumerate() {
            *pixel |= (row[x / 8] >> (7 - x % 8) & 1) << plane;
        }
    }
}

/// Reads one plane row and returns the next place.
fn read_row(header: &Header, body: &[u8], place: usize, row: &mut [u8]) -> Result<usize, Refused> {
    if header.compression == 1 {
        return unpack(body, place, row);
    }
    let end = place + row.len();
    if end > body.len() {
        return Err(Refused { number: 26, place });
    }
    row.copy_from_slice(&body[place..end]);
    Ok(end)
}

fn unpack(body: &[u8], mut place: usize, row: &mut [u8]) -> Result<usize, Refused> {
    let mut filled = 0;
    while filled < row.len() {
        let refuse = |number| Err(Refused { number, place });
        if place == body.len() {
            return refuse(26);
        }
        let code = usize::from(body[place]);
        if code == 128 {
            place += 1;
            continue;
        }
        let count = if code < 128 { code + 1 } else { 257 - code };
        if count > row.len() - filled {
            return refuse(27);
        }
        let read = if code < 128 { count } else { 1 };
        if read > body.len() - place - 1 {
            return refuse(26);
        }
        let target = &mut row[filled..filled + count];
        if code < 128 {
            target.copy_from_slice(&body[place + 1..place + 1 + count]);
        } else {
            target.fill(body[place + 1]);
        }
        filled += count;
        place += 1 + read;
    }
    Ok(place)
}

/// Packs a row into `out` and returns the length, or nothing if it is too short.
pub fn pack(row: &[u8], out: &mut [u8]) -> Option<usize> {
    let mut at = 0;
    let mut length = 0;
    while at < row.len() {
        let run = run_length(row, at);
        if run >= 3 {
            let target = out.get_mut(length..length + 2)?;
            target.copy_from_slice(&[(257 - run) as u8, row[at]]);
            length += 2;
            at += run;
        } else {
            let count = literal_length(row, at);
            let target = out.get_mut(length..length + 1 + count)?;
            target[0] = (count - 1) as u8;
            target[1..].copy_from_slice(&row[at..at + count]);
            length += 1 + count;
            at += count;
        }
    }
    Some(length)
}

fn run_length(row: &[u8], at: usize) -> usize {
    let limit = row.len().min(at + 128);
    let mut end = at + 1;
    while end < limit && row[end] == row[at] {
        end += 1;
    }
    end - at
}

fn literal_length(row: &[u8], at: usize) -> usize {
    let limit = row.len().min(at + 128);
    let mut end = at + 1;
    while end < limit {
        if end + 2 < row.len() && row[end] == row[end + 1] && row[end] == row[end + 2] {
            break;
        }
        end += 1;
    }
    end - at
}
