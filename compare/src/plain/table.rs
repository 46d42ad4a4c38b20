//! A frame decoder made to be fast: one pass, a table of spread bytes, copies
//! and fills of sixteen bytes that run past the end of a run where there is room.

use second::{Header, Refused};

/// Byte j of entry b, from the lowest, is bit 7 - j of b.
pub(super) static SPREAD: [u64; 256] = spread();

const fn spread() -> [u64; 256] {
    let mut table = [0; 256];
    let mut n = 0;
    while n < 256 * 8 {
        let (byte, j) = (n / 8, n % 8);
        table[byte] |= ((byte >> (7 - j)) as u64 & 1) << (8 * j);
        n += 1;
    }
    table
}

/// As many bytes are copied or filled at once.
const STEP: usize = 16;

/// Room after a run of 128 bytes for what is written too far.
const ROOM: usize = 128 + STEP;

/// Decodes a BODY into `frame`, which must have w times h bytes. Returns the
/// count of BODY bytes left over; after 26 or 27 the frame is partly written.
pub fn frame_by_table(header: &Header, body: &[u8], frame: &mut [u8]) -> Result<usize, Refused> {
    match header.planes {
        0 => lines::<0>(header, body, frame),
        1 => lines::<1>(header, body, frame),
        2 => lines::<2>(header, body, frame),
        3 => lines::<3>(header, body, frame),
        4 => lines::<4>(header, body, frame),
        5 => lines::<5>(header, body, frame),
        6 => lines::<6>(header, body, frame),
        7 => lines::<7>(header, body, frame),
        _ => lines::<8>(header, body, frame),
    }
}

fn lines<const PLANES: usize>(header: &Header, body: &[u8], frame: &mut [u8]) -> Result<usize, Refused> {
    let width = usize::from(header.width);
    let length = width.div_ceil(16) * 2;
    each_line(header, body, frame.chunks_exact_mut(width), |rows, line| gather::<PLANES>(rows, length, line))
}

/// Shows the plane rows of each line in what is lent for it. Returns the count of BODY bytes left over.
pub(super) fn each_line<'a>(
    header: &Header,
    body: &[u8],
    lines: impl Iterator<Item = &'a mut [u8]>,
    mut show: impl FnMut(&[u8], &'a mut [u8]),
) -> Result<usize, Refused> {
    let length = usize::from(header.width).div_ceil(16) * 2;
    let count = usize::from(header.planes) + usize::from(header.masking == 1);
    let mut rows = vec![0; length * count + ROOM];
    let mut place = 0;
    for line in lines {
        if header.compression == 1 {
            for row in 0..count {
                place = unpack(body, place, &mut rows[row * length..], length)?;
            }
            show(&rows, line);
        } else {
            for row in 0..count {
                if length > body.len() - place - row * length {
                    return Err(Refused { number: 26, place: place + row * length });
                }
            }
            show(&body[place..], line);
            place += count * length;
        }
    }
    Ok(body.len() - place)
}

/// The pixels of a line, eight at a time; the last of them may be fewer.
pub(super) fn gather<const PLANES: usize>(rows: &[u8], length: usize, line: &mut [u8]) {
    let whole = line.len() / 8;
    let (eights, rest) = line.split_at_mut(8 * whole);
    let planes: [&[u8]; PLANES] = std::array::from_fn(|plane| &rows[plane * length..][..whole]);
    for (byte, pixels) in eights.chunks_exact_mut(8).enumerate() {
        let word = planes.iter().rev().fold(0, |word, row| (word << 1) | SPREAD[usize::from(row[byte])]);
        pixels.copy_from_slice(&word.to_le_bytes());
    }
    if !rest.is_empty() {
        let last = |plane: usize| SPREAD[usize::from(rows[plane * length + whole])];
        let word = (0..PLANES).rev().fold(0, |word, plane| (word << 1) | last(plane));
        rest.copy_from_slice(&word.to_le_bytes()[..rest.len()]);
    }
}

/// Unpacks a row of `length` bytes, which has room after it, and returns the next place.
fn unpack(body: &[u8], mut place: usize, row: &mut [u8], length: usize) -> Result<usize, Refused> {
    let mut filled = 0;
    while filled < length {
        let refuse = |number| Err(Refused { number, place });
        let Some(code) = body.get(place) else { return refuse(26) };
        let code = usize::from(*code);
        if code == 128 {
            place += 1;
            continue;
        }
        let count = if code < 128 { code + 1 } else { 257 - code };
        if count > length - filled {
            return refuse(27);
        }
        let source = &body[place + 1..];
        if code < 128 {
            if count > source.len() {
                return refuse(26);
            }
            copy(source, &mut row[filled..], count);
            place += 1 + count;
        } else {
            let Some(byte) = source.first() else { return refuse(26) };
            fill(*byte, &mut row[filled..], count);
            place += 2;
        }
        filled += count;
    }
    Ok(place)
}

/// Copies `count` bytes, and what lies up to 15 places behind them.
fn copy(source: &[u8], target: &mut [u8], count: usize) {
    if source.len() < ROOM || target.len() < ROOM {
        target[..count].copy_from_slice(&source[..count]);
        return;
    }
    let (source, target) = (&source[..ROOM], &mut target[..ROOM]);
    for (from, to) in source.chunks_exact(STEP).zip(target.chunks_exact_mut(STEP)).take(count.div_ceil(STEP))
    {
        to.copy_from_slice(from);
    }
}

/// Fills `count` bytes, and up to 15 places behind them.
fn fill(byte: u8, target: &mut [u8], count: usize) {
    if target.len() < ROOM {
        target[..count].fill(byte);
        return;
    }
    let target = &mut target[..ROOM];
    for to in target.chunks_exact_mut(STEP).take(count.div_ceil(STEP)) {
        to.fill(byte);
    }
}
