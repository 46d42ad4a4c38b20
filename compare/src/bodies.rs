//! Pictures with damaged BODYs, for the numbers and places of 26 and 27.

use crate::borrowed::same;
use crate::chunks::{chunk, group, Fields};
use crate::{body_colour_frame, body_colour_line, colour_frame, colour_line};
use crate::{body_frame, body_line, body_shape_frame, body_shape_line, frame, line, shape_frame, shape_line};
use florinhado::{Header, Refused};
use second::random::Random;
use second::{Colouring, Lent};
use std::collections::BTreeSet;

/// A FORM ILBM of BMHD, CAMG and BODY, and a palette of the caller's.
pub struct Picture {
    pub file: Vec<u8>,
    fields: Fields,
    transparent: u16,
    view_modes: u32,
    palette: Vec<u8>,
    body: Vec<u8>,
}

/// How often a number was told, and with which places.
#[derive(Default)]
pub struct Fault {
    pub frames: u64,
    pub lines: u64,
    pub places: BTreeSet<usize>,
}

/// What was told of 26 and of 27.
#[derive(Default)]
pub struct Faults {
    pub ends: Fault,
    pub oversteps: Fault,
}

impl Faults {
    /// Keeps the place of an answer, if it is one of the two.
    fn of(&mut self, told: Refused) -> Option<&mut Fault> {
        let fault = match told.number {
            26 => &mut self.ends,
            27 => &mut self.oversteps,
            _ => return None,
        };
        fault.places.insert(told.place);
        Some(fault)
    }
}

/// Rows by ByteRun1, with the places of their code bytes.
#[derive(Default)]
struct Packed {
    bytes: Vec<u8>,
    codes: Vec<usize>,
}

impl Packed {
    fn code(&mut self, code: usize) {
        self.codes.push(self.bytes.len());
        self.bytes.push(code as u8);
    }

    /// A row of so many bytes in runs of any kind, with 128s between.
    fn row(&mut self, random: &mut Random, length: usize) {
        let mut left = length;
        while left > 0 {
            let count = random.between(1, left.min(128));
            match random.below(7) {
                0 => self.code(128),
                1..=3 if count > 1 => {
                    self.code(257 - count);
                    self.bytes.push(random.byte());
                    left -= count;
                }
                _ => {
                    self.code(count - 1);
                    self.bytes.extend(random.bytes(count));
                    left -= count;
                }
            }
        }
    }

    /// Damages the rows in one way.
    fn damage(&mut self, random: &mut Random) {
        let code = random.pick(&self.codes);
        let place = random.below(self.bytes.len());
        match random.below(10) {
            0 => self.bytes.truncate(place),
            1 => self.bytes.truncate(code + random.below(2)),
            2 => self.bytes.truncate(self.bytes.len() - random.between(1, 3).min(self.bytes.len())),
            3..=5 => self.bytes[code] = longer(random, self.bytes[code]),
            6 => self.bytes[code] = random.byte(),
            7 => self.bytes[place..].fill(128),
            8 => {
                self.bytes.remove(place);
            }
            _ => self.bytes.insert(place, random.pick(&[0, 127, 128, 129, 255])),
        }
    }
}

/// A code for more bytes than this one, if there is one.
fn longer(random: &mut Random, code: u8) -> u8 {
    if code < 128 {
        return random.between(code.into(), 127) as u8;
    }
    random.between(129, code.max(129).into()) as u8
}

/// The BODY of so many rows, damaged.
fn body(random: &mut Random, compression: u8, rows: usize, length: usize) -> Vec<u8> {
    if compression == 0 {
        let whole = rows * length;
        let cut = random.below(whole);
        let kept = random.pick(&[cut, cut, whole - 1, whole - length, 0]);
        return random.bytes(kept);
    }
    let mut packed = Packed::default();
    (0..rows).for_each(|_| packed.row(random, length));
    packed.damage(random);
    packed.bytes
}

/// A width near a multiple of 8 or 16.
fn width(random: &mut Random) -> usize {
    let middle = random.pick(&[8, 16, 16, 24, 32, 40, 48, 64, 64, 128, 256, 320, 1024, 2048]);
    random.between(middle - 1, middle + 1)
}

/// A picture of few lines whose BODY is damaged.
pub fn picture(random: &mut Random) -> Picture {
    let (width, height) = (width(random), random.between(1, 3));
    let fields = Fields {
        width: width as u16,
        height: height as u16,
        planes: random.pick(&[1, 2, 3, 4, 5, 6, 6, 7, 8, 8]),
        masking: random.pick(&[0, 1, 1, 2, 2, 3]),
        compression: random.pick(&[0, 1, 1, 1, 1]),
    };
    let mut others: [u8; 20] = std::array::from_fn(|_| random.byte());
    let transparent = u16::from(random.byte() & random.byte());
    others[12..14].copy_from_slice(&transparent.to_be_bytes());
    let header = fields.bmhd_with(others);
    let rows = height * usize::from(fields.planes + u8::from(fields.masking == 1));
    let body = body(random, fields.compression, rows, width.div_ceil(16) * 2);
    let view_modes: u32 = random.pick(&[0, 0x80, 0x800, 0x800, 0x880]);
    let modes = chunk(b"CAMG", &view_modes.to_be_bytes());
    let file = group(b"FORM", b"ILBM", &[header, modes, chunk(b"BODY", &body)].concat());
    let bytes = random.pick(&[0, 47, 48, 96, 192, 768]);
    Picture { file, fields, transparent, view_modes, palette: random.bytes(bytes), body }
}

impl Picture {
    /// Compares the frame, and lines from the start, from any place, from the
    /// frame's fault, from the end and beyond it; each of the file and of the
    /// BODY alone, with its shape, and in colours.
    pub fn compare(&self, random: &mut Random, faults: &mut Faults) -> Result<(), String> {
        let told = self.frame(random)?;
        if let Some(fault) = faults.of(told) {
            fault.frames += 1;
        }
        let end = self.body.len();
        for start in [0, random.below(end + 1), told.place, end, end + 1] {
            let told = self.line(start, random).map_err(|text| format!("line from {start}: {text}"))?;
            if let Some(fault) = faults.of(told) {
                fault.lines += 1;
            }
        }
        Ok(())
    }

    fn frame(&self, random: &mut Random) -> Result<Refused, String> {
        let (height, layout) = (self.fields.height, self.fields.layout());
        let size = usize::from(self.fields.width) * usize::from(height);
        let told = frame::ask(&self.file, 0, size, random)?;
        same("frame of the BODY", body_frame::ask(&self.body, &layout, height, size, random)?, told)?;
        let both = Lent { colours: size, shape: size };
        let shaped = shape_frame::ask(&self.file, 0, both, random)?;
        same("frame with its shape", shaped, self.shaped(told))?;
        let alone = body_shape_frame::ask(&self.body, &self.header(), both, random)?;
        same("frame of the BODY with its shape", alone, shaped)?;
        let coloured = colour_frame::ask(&self.file, 0, &self.palette, 3 * size, random)?;
        same("frame in colours", coloured, self.coloured(told))?;
        let alone = body_colour_frame::ask(&self.body, &self.header(), &self.by(), 3 * size, random)?;
        same("frame of the BODY in colours", alone, coloured)?;
        Ok(told)
    }

    fn line(&self, start: usize, random: &mut Random) -> Result<Refused, String> {
        let (width, layout) = (usize::from(self.fields.width), self.fields.layout());
        let told = line::ask(&self.file, 0, start, width, random)?;
        same("line of the BODY", body_line::ask(&self.body, &layout, start, width, random)?, told)?;
        let both = Lent { colours: width, shape: width };
        let shaped = shape_line::ask(&self.file, 0, start, both, random)?;
        same("line with its shape", shaped, self.shaped(told))?;
        let alone = body_shape_line::ask(&self.body, &self.header(), start, both, random)?;
        same("line of the BODY with its shape", alone, shaped)?;
        let coloured = colour_line::ask(&self.file, 0, start, &self.palette, 3 * width, random)?;
        same("line in colours", coloured, self.coloured(told))?;
        let alone = body_colour_line::ask(&self.body, &self.header(), &self.by(), start, 3 * width, random)?;
        same("line of the BODY in colours", alone, coloured)?;
        Ok(told)
    }

    /// What is told with a shape where this is told without: 44 comes after 29, and before 27 and 26.
    fn shaped(&self, told: Refused) -> Refused {
        match (self.fields.masking, told.number) {
            (3, number) if number != 29 => Refused { number: 44, place: 0 },
            _ => told,
        }
    }

    /// What is told in colours where this is told without: 46 comes before all that a BODY is refused for.
    fn coloured(&self, told: Refused) -> Refused {
        match self.fields.planes {
            6 | 8 => told,
            _ if self.view_modes & 0x800 == 0 => told,
            _ => Refused { number: 46, place: 0 },
        }
    }

    fn by(&self) -> Colouring<'_> {
        Colouring { view_modes: self.view_modes, palette: &self.palette }
    }

    fn header(&self) -> Header {
        let Fields { width, height, planes, masking, compression } = self.fields;
        let transparent = self.transparent;
        Header { width, height, planes, masking, compression, transparent, ..Header::default() }
    }
}
