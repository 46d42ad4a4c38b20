//! Scan lines and frames in red, green, blue, and the palette as 64 triples: refusals 46, 28 and 32.

use crate::answer::Refused;
use crate::fields::{Header, Layout};
use crate::picture::properties;
use crate::rows::{decode_line, inside, line_sound, showable};
use crate::rows::{Frame, ScanLine};

/// Red, green, blue.
pub type Rgb = [u8; 3];

/// "#define CAMG_HAM 0x800 /* hold and modify */"
const HAM: u32 = 0x800;

/// "#define CAMG_EHB 0x80 /* extra halfbrite */"
const EHB: u32 = 0x80;

/// "64-color pictures with 32-color palettes"
const BRIGHT: usize = 32;
const TRIPLES: usize = 64;

/// What the colours of a picture are made by beside its colour numbers.
#[derive(Clone, Copy, Debug, PartialEq, Eq)]
pub struct Colouring<'a> {
    /// The number of CAMG, 0 where there is none.
    pub view_modes: u32,
    pub palette: &'a [u8],
}

/// How a picture shows its colour numbers.
struct Shown {
    /// The data bits of hold and modify, where it is in force.
    held: Option<u8>,
    /// The colours of entries; all beyond it are black.
    table: Vec<Rgb>,
}

impl Colouring<'_> {
    /// "CAMG bit 11 with 6 or 8 planes is hold-and-modify"; "46 for bit 11 with other plane counts".
    fn shown(&self, planes: u8) -> Result<Shown, Refused> {
        let held = match planes {
            _ if self.view_modes & HAM == 0 => None,
            6 | 8 => Some(planes - 2),
            _ => return Err(Refused::plain(46)),
        };
        Ok(Shown { held, table: self.table(planes) })
    }

    /// The palette's whole entries; for half-bright 32 of them and "half-bright versions of colors 0 to 31,
    /// computed by bit shifting the RGB levels right by one".
    fn table(&self, planes: u8) -> Vec<Rgb> {
        let mut table = self.palette.as_chunks().0.to_vec();
        if planes == 6 && self.view_modes & (HAM | EHB) == EHB {
            table.resize(BRIGHT, [0; 3]);
            let halves = table.iter().map(|colour| colour.map(|level| level >> 1)).collect::<Vec<_>>();
            table.extend(halves);
        }
        table
    }
}

impl Shown {
    /// The pixels of one scan line, three bytes each.
    fn pixels(&self, numbers: &[u8]) -> Vec<u8> {
        match self.held {
            Some(bits) => self.modified(bits, numbers),
            None => numbers.iter().flat_map(|number| entry(&self.table, (*number).into())).collect(),
        }
    }

    /// 003: "a mode in the high two bits and data in the other bits"; of the levels that a code doesn't
    /// give, "the same as those for the pixel to its left". "If the pixel is the first one (the leftmost)
    /// in a scanline, the hold color is assumed to be (0, 0, 0)."
    fn modified(&self, bits: u8, codes: &[u8]) -> Vec<u8> {
        let mut pixels = Vec::with_capacity(3 * codes.len());
        let [mut red, mut green, mut blue] = [0; 3];
        for code in codes {
            let data = code & ((1 << bits) - 1);
            match code >> bits {
                0b00 => [red, green, blue] = entry(&self.table, data.into()),
                0b01 => blue = extended(data, bits),
                0b10 => red = extended(data, bits),
                _ => green = extended(data, bits),
            }
            pixels.extend([red, green, blue]);
        }
        pixels
    }
}

/// A level of so many bits as one of eight: the bits from the left, and again until the byte is full.
fn extended(data: u8, bits: u8) -> u8 {
    data << (8 - bits) | data >> (2 * bits - 8)
}

/// "An entry not there whole is (0, 0, 0)."
fn entry(table: &[Rgb], number: usize) -> Rgb {
    table.get(number).copied().unwrap_or([0; 3])
}

/// Reads the scan line at `start` in the BODY in colours, into a row of `row_length` bytes.
pub fn colour_line(
    file: &[u8],
    picture: usize,
    start: usize,
    default: &[u8],
    row_length: usize,
) -> Result<ScanLine, Refused> {
    let (header, by, body) = coloured(file, picture, default)?;
    body_colour_line(body.ok_or(Refused::plain(25))?, &header.layout(), &by, start, row_length)
}

/// Reads all scan lines from place 0 in colours, into a frame of `frame_length` bytes.
pub fn colour_frame(
    file: &[u8],
    picture: usize,
    default: &[u8],
    frame_length: usize,
) -> Result<Frame, Refused> {
    let (header, by, body) = coloured(file, picture, default)?;
    body_colour_frame(body.ok_or(Refused::plain(25))?, &header.layout(), &by, header.height, frame_length)
}

/// The palette of a picture as 64 triples, into `room` bytes.
pub fn triples(file: &[u8], picture: usize, default: &[u8], room: usize) -> Result<[Rgb; TRIPLES], Refused> {
    let (header, by, _) = coloured(file, picture, default)?;
    palette_triples(&by, header.planes, room)
}

/// A picture's header, what its colours are made by, and its BODY; or the first of 1 to 12, 20 to 24 and 41 to 43.
fn coloured<'a>(
    file: &'a [u8],
    picture: usize,
    default: &'a [u8],
) -> Result<(Header, Colouring<'a>, Option<&'a [u8]>), Refused> {
    let found = properties(file, picture)?;
    let palette = found.colour_map.value.map_or(default, |range| &file[range]);
    let by = Colouring { view_modes: found.view_modes.value.unwrap_or(0), palette };
    Ok((found.header, by, found.body.map(|range| &file[range])))
}

/// The scan line at `start` of any bytes as a BODY in colours: 41, 42, 43, 24, then 46, 29, 28, 27, 26.
pub fn body_colour_line(
    body: &[u8],
    layout: &Layout,
    by: &Colouring,
    start: usize,
    row_length: usize,
) -> Result<ScanLine, Refused> {
    line_sound(layout)?;
    let shown = by.shown(layout.planes)?;
    inside(body, start)?;
    three_for_each(usize::from(layout.width), row_length)?;
    let line = decode_line(layout, body, start)?;
    Ok(ScanLine { colours: shown.pixels(&line.colours), next: line.next })
}

/// So many scan lines of any bytes as a BODY in colours: 41, 42, 43, 24, then 46, 28, 27, 26.
pub fn body_colour_frame(
    body: &[u8],
    layout: &Layout,
    by: &Colouring,
    height: u16,
    frame_length: usize,
) -> Result<Frame, Refused> {
    showable(layout, height)?;
    let shown = by.shown(layout.planes)?;
    three_for_each(usize::from(layout.width) * usize::from(height), frame_length)?;
    let (mut colours, mut place) = (Vec::new(), 0);
    for _ in 0..height {
        let line = decode_line(layout, body, place)?;
        colours.extend(shown.pixels(&line.colours));
        place = line.next;
    }
    Ok(Frame { colours, leftover: body.len() - place })
}

/// "28 if the lent row isn't 3w bytes".
fn three_for_each(pixels: usize, lent: usize) -> Result<(), Refused> {
    if lent == 3 * pixels {
        return Ok(());
    }
    Err(Refused::plain(28))
}

/// Any palette as 64 triples, of a picture with so many planes; 32 for fewer bytes than they have.
pub fn palette_triples(by: &Colouring, planes: u8, room: usize) -> Result<[Rgb; TRIPLES], Refused> {
    if room < 3 * TRIPLES {
        return Err(Refused::plain(32));
    }
    let table = by.table(planes);
    Ok(std::array::from_fn(|number| entry(&table, number)))
}
