//! A frame in colours made to be fast: one pass over the BODY, a table of colours
//! as numbers, and stores of four bytes, of which the next pixel takes the last.
//! By hold-and-modify two lines at a time, since a pixel waits for the one to its left.

use super::colours::{is_held, level, palette};
use super::table::{each_line, gather, SPREAD};
use second::{Colouring, Header, Refused, Rgb};

/// Bytes of eight pixels, and of the store of the last of them.
const EIGHT: usize = 24;
const STORED: usize = EIGHT + 1;

/// Decodes a BODY into `frame`, which must have three bytes for each pixel; the
/// view modes must be such as the planes allow. Returns the count of BODY bytes
/// left over; after 26 or 27 the frame is partly written.
pub fn colours_by_table(
    header: &Header,
    by: &Colouring,
    body: &[u8],
    frame: &mut [u8],
) -> Result<usize, Refused> {
    match header.planes {
        0 => lines::<0>(header, by, body, frame),
        1 => lines::<1>(header, by, body, frame),
        2 => lines::<2>(header, by, body, frame),
        3 => lines::<3>(header, by, body, frame),
        4 => lines::<4>(header, by, body, frame),
        5 => lines::<5>(header, by, body, frame),
        6 => lines::<6>(header, by, body, frame),
        7 => lines::<7>(header, by, body, frame),
        _ => lines::<8>(header, by, body, frame),
    }
}

fn lines<const PLANES: usize>(
    header: &Header,
    by: &Colouring,
    body: &[u8],
    frame: &mut [u8],
) -> Result<usize, Refused> {
    let width = usize::from(header.width);
    let palette = palette(header, by);
    if is_held(by) {
        return held_lines::<PLANES>(header, &parts(header.planes, &palette), body, frame);
    }
    let words = palette.map(word);
    let lines = frame.chunks_exact_mut(3 * width);
    each_line(header, body, lines, |rows, line| look_up::<PLANES>(rows, width, line, &words))
}

/// A colour as a number, red lowest.
fn word([red, green, blue]: Rgb) -> u32 {
    u32::from_le_bytes([red, green, blue, 0])
}

/// The pixels of a line, eight at a time.
fn look_up<const PLANES: usize>(rows: &[u8], width: usize, line: &mut [u8], words: &[u32; 256]) {
    let length = width.div_ceil(16) * 2;
    let planes: [&[u8]; PLANES] = std::array::from_fn(|plane| &rows[plane * length..][..length]);
    let numbers = |byte: usize| {
        let word = planes.iter().rev().fold(0, |word, row| (word << 1) | SPREAD[usize::from(row[byte])]);
        word.to_le_bytes().map(usize::from)
    };
    let (mut byte, mut rest) = (0, line);
    while let Some(pixels) = rest.first_chunk_mut::<STORED>() {
        for (n, number) in numbers(byte).into_iter().enumerate() {
            pixels[3 * n..3 * n + 4].copy_from_slice(&words[number].to_le_bytes());
        }
        byte += 1;
        rest = &mut rest[EIGHT..];
    }
    if !rest.is_empty() {
        for (number, pixel) in numbers(byte).into_iter().zip(rest.chunks_exact_mut(3)) {
            pixel.copy_from_slice(&words[number].to_le_bytes()[..3]);
        }
    }
}

/// What each number keeps of the colour to the left, and what it sets.
type Parts = [[u32; 2]; 256];

fn parts(planes: u8, palette: &[Rgb; 256]) -> Parts {
    let bits = planes - 2;
    std::array::from_fn(|number| {
        let data = number & ((1 << bits) - 1);
        let level = u32::from(level(bits, data as u8));
        match number >> bits & 3 {
            0 => [0, word(palette[data])],
            1 => [0x00_ff_ff, level << 16],
            2 => [0xff_ff_00, level],
            _ => [0xff_00_ff, level << 8],
        }
    })
}

/// The colour that is carried along a line.
struct Carried<'a> {
    parts: &'a Parts,
    held: u32,
}

impl Carried<'_> {
    fn next(&mut self, number: u8) -> [u8; 4] {
        let [keep, set] = self.parts[usize::from(number)];
        self.held = self.held & keep | set;
        self.held.to_le_bytes()
    }

    /// Pixel by pixel up to the end of a line.
    fn rest(&mut self, numbers: &[u8], pixels: &mut [u8]) {
        for (number, pixel) in numbers.iter().zip(pixels.chunks_exact_mut(3)) {
            pixel.copy_from_slice(&self.next(*number)[..3]);
        }
    }
}

fn held_lines<const PLANES: usize>(
    header: &Header,
    parts: &Parts,
    body: &[u8],
    frame: &mut [u8],
) -> Result<usize, Refused> {
    let width = usize::from(header.width);
    let length = width.div_ceil(16) * 2;
    let mut numbers = [vec![0; width], vec![0; width]];
    let mut waiting = None;
    let lines = frame.chunks_exact_mut(3 * width);
    let left = each_line(header, body, lines, |rows, line| match waiting.take() {
        None => {
            gather::<PLANES>(rows, length, &mut numbers[0]);
            waiting = Some(line);
        }
        Some(first) => {
            gather::<PLANES>(rows, length, &mut numbers[1]);
            two_lines(parts, &numbers, [first, line]);
        }
    })?;
    if let Some(last) = waiting {
        Carried { parts, held: 0 }.rest(&numbers[0], last);
    }
    Ok(left)
}

/// Two lines beside each other, eight pixels of each at a time.
fn two_lines(parts: &Parts, numbers: &[Vec<u8>; 2], lines: [&mut [u8]; 2]) {
    let [mut first, mut second] = [0; 2].map(|held| Carried { parts, held });
    let ([one, other], [mut above, mut below]) = (numbers, lines);
    let mut done = 0;
    for (some, others) in one.as_chunks::<8>().0.iter().zip(other.as_chunks::<8>().0) {
        let rooms = (above.first_chunk_mut::<STORED>(), below.first_chunk_mut::<STORED>());
        let (Some(upper), Some(lower)) = rooms else { break };
        for n in 0..8 {
            upper[3 * n..3 * n + 4].copy_from_slice(&first.next(some[n]));
            lower[3 * n..3 * n + 4].copy_from_slice(&second.next(others[n]));
        }
        (above, below) = (&mut above[EIGHT..], &mut below[EIGHT..]);
        done += 8;
    }
    first.rest(&one[done..], above);
    second.rest(&other[done..], below);
}
