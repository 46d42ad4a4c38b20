//! Generated inputs of the calls that take more than a file.

use crate::answer::Refused;
use crate::fields::Layout;
use crate::generate_picture::{body, palette, plane_row, transparent, view_modes, Plan};
use crate::pack::{packed, LONGEST_ROW};
use crate::picture::all_pictures;
use crate::random::Random;
use crate::rows::{body_line, ScanLine};
use crate::shape::Lent;
use crate::tree::Tree;
use crate::write::{write_picture, Fields};

/// What is asked of a picture, with the lengths of a row and of a frame; a shape is asked for or not, or
/// colours.
#[derive(Clone, Copy, Debug)]
pub struct Query {
    pub picture: usize,
    pub start: usize,
    pub row: Lent,
    pub frame: Lent,
    pub colour_row: usize,
    pub colour_frame: usize,
}

/// Bytes as a BODY, the fields that they are read by, and what is asked of them.
#[derive(Clone, Debug)]
pub struct BodyInput {
    pub body: Vec<u8>,
    pub layout: Layout,
    pub transparent: u16,
    pub height: u16,
    pub view_modes: u32,
    pub palette: Vec<u8>,
    pub start: usize,
    pub row: Lent,
    pub frame: Lent,
    pub colour_row: usize,
    pub colour_frame: usize,
}

/// A row for the packer with the length of the buffer.
#[derive(Clone, Debug)]
pub struct RowInput {
    pub row: Vec<u8>,
    pub room: usize,
}

/// All that the picture writer is given.
#[derive(Clone, Debug)]
pub struct WriterInput {
    pub fields: Fields,
    pub palette: Vec<u8>,
    pub frame: Vec<u8>,
    pub shape: Vec<u8>,
    pub room: usize,
}

/// A query that fits the file mostly, but not always.
pub fn query(random: &mut Random, file: &[u8]) -> Query {
    let tree = Tree::read(file).ok();
    let pictures = tree.as_ref().map_or(Vec::new(), |tree| all_pictures(&tree.outermost));
    let beyond = usize::from(random.one_in(20));
    let picture = random.below(pictures.len().max(1)) + beyond * pictures.len();
    let told = pictures.get(picture).and_then(|found| found.properties(file).ok());
    let Some(told) = told else {
        let one = Lent { colours: 1, shape: 1 };
        return Query { picture, start: 0, row: one, frame: one, colour_row: 3, colour_frame: 3 };
    };
    let width = usize::from(told.header.width);
    let frame = width * usize::from(told.header.height);
    let (layout, body) = (told.header.layout(), told.body.map_or(&[][..], |range| &file[range]));
    Query {
        picture,
        start: start_place(random, body.len(), |start| body_line(body, &layout, start, width)),
        row: lent(random, width),
        frame: lent(random, frame),
        colour_row: in_colours(random, width),
        colour_frame: in_colours(random, frame),
    }
}

/// The start of a line, or any place up to a little beyond the end of so many bytes.
fn start_place(random: &mut Random, body: usize, line: impl Fn(usize) -> Result<ScanLine, Refused>) -> usize {
    if random.one_in(3) {
        return random.below(body + 4);
    }
    let mut start = 0;
    for _ in 0..random.below(4) {
        let Ok(line) = line(start) else {
            break;
        };
        start = line.next;
    }
    start
}

/// A BODY without a file; the fields and what is asked fit it mostly, but not always.
pub fn body_input(random: &mut Random) -> BodyInput {
    let plan = Plan::of(random);
    let mut layout = plan.layout();
    let body = body(random, &plan);
    if random.one_in(30) {
        layout = Plan::of(random).layout();
    }
    let width = usize::from(layout.width);
    let pixels = width * usize::from(plan.height);
    BodyInput {
        start: start_place(random, body.len(), |start| body_line(&body, &layout, start, width)),
        row: lent(random, width),
        frame: lent(random, pixels),
        colour_row: in_colours(random, width),
        colour_frame: in_colours(random, pixels),
        view_modes: view_modes(random),
        palette: default_palette(random),
        height: plan.height,
        transparent: plan.transparent,
        layout,
        body,
    }
}

/// The data of a BMHD, at times of a wrong size.
pub fn header_input(random: &mut Random) -> Vec<u8> {
    let mut data = Plan::of(random).header(random);
    if random.one_in(3) {
        let any = random.below(60);
        let size = random.pick(&[0, 1, 19, 21, 28, any]);
        data.resize(size, random.byte());
    }
    data
}

/// So many bytes each, mostly; one length may be wrong without the other.
fn lent(random: &mut Random, pixels: usize) -> Lent {
    Lent { colours: nearly(random, pixels), shape: nearly(random, pixels) }
}

/// Three bytes for each of so many pixels, mostly; at times one.
fn in_colours(random: &mut Random, pixels: usize) -> usize {
    if random.one_in(30) {
        return pixels;
    }
    nearly(random, 3 * pixels)
}

/// A palette of the caller's own: its last entry may be cut.
pub fn default_palette(random: &mut Random) -> Vec<u8> {
    let mut palette = palette(random);
    let over = random.below(3);
    palette.extend(random.bytes(over));
    palette
}

/// Planes and view modes to make triples by; the planes may be any number, often 6.
pub fn triples_mode(random: &mut Random) -> (u8, u32) {
    let (few, any) = (random.below(10) as u8, random.byte());
    (random.pick(&[6, 6, few, any]), view_modes(random))
}

/// Bytes lent for 64 triples: as many as they have, mostly, or more or less.
pub fn triples_room(random: &mut Random) -> usize {
    let (less, more) = (random.below(192), random.between(193, 800));
    random.pick(&[192, 192, 191, 193, less, more])
}

fn nearly(random: &mut Random, number: usize) -> usize {
    match random.below(20) {
        0 => number + 1,
        1 => number.saturating_sub(1),
        _ => number,
    }
}

/// A row for the packer, seldom of a length that is refused.
pub fn row_input(random: &mut Random) -> RowInput {
    let length = match random.below(60) {
        0 => 0,
        1 => LONGEST_ROW + random.between(1, 3),
        2 => LONGEST_ROW - random.below(2),
        3..=20 => random.between(120, 400),
        _ => random.between(1, 40),
    };
    let row = plane_row(random, length);
    let exact = packed(&row).len();
    RowInput { row, room: room(random, exact) }
}

/// A buffer that is exactly long enough, longer, or too short.
fn room(random: &mut Random, exact: usize) -> usize {
    match random.below(10) {
        0 => exact.saturating_sub(1),
        1 => random.below(exact + 1),
        2..=4 => exact + random.below(40),
        _ => exact,
    }
}

/// A picture to write; a third or so are refused.
pub fn writer_input(random: &mut Random) -> WriterInput {
    let mut fields = writer_fields(random);
    let colours = random.between(0, 40) * 3;
    let mut palette = random.bytes(colours);
    let pixels = usize::from(fields.width) * usize::from(fields.height);
    let mask = ((1u16 << fields.planes) - 1) as u8;
    let mut frame: Vec<u8> = plane_row(random, pixels).iter().map(|byte| byte & mask).collect();
    let shown = if fields.masking == 1 { pixels } else { 0 };
    let mut shape: Vec<u8> = plane_row(random, shown).iter().map(|byte| byte & 1).collect();
    spoil(random, &mut fields, &mut palette, &mut frame);
    if random.one_in(8) {
        spoil_shape(random, pixels, &mut shape);
    }
    let exact = write_picture(&fields, &palette, &frame, &shape, usize::MAX).map_or(100, |file| file.len());
    WriterInput { fields, palette, frame, shape, room: room(random, exact) }
}

fn writer_fields(random: &mut Random) -> Fields {
    let planes = random.between(1, 8) as u8;
    Fields {
        width: random.between(1, 70) as u16,
        height: random.between(1, 6) as u16,
        x: random.word() as i16,
        y: random.word() as i16,
        planes,
        masking: random.pick(&[0, 1, 1, 1, 2, 3]),
        compression: random.below(2) as u8,
        transparent_color: transparent(random, planes),
        x_aspect: random.byte(),
        y_aspect: random.byte(),
        page_width: random.word() as i16,
        page_height: random.word() as i16,
    }
}

/// Spoils one of the inputs, or none.
fn spoil(random: &mut Random, fields: &mut Fields, palette: &mut Vec<u8>, frame: &mut Vec<u8>) {
    match random.below(40) {
        0 => fields.width = random.pick(&[0, fields.width + 1]),
        1 => fields.height = random.pick(&[0, fields.height - 1]),
        2 => fields.planes = random.pick(&[0, 9, 255]),
        3 => fields.masking = random.pick(&[4, 5, 255]),
        4 => fields.compression = random.pick(&[2, 255]),
        5 => palette.push(0),
        6 => palette.resize(random.pick(&[768, 769, 770, 771]), 7),
        7 => frame.push(0),
        8 | 9 => fields.planes = random.between(1, usize::from(fields.planes)) as u8,
        10 => frame[0] = 255,
        11 => fields.masking = random.below(4) as u8,
        _ => {}
    }
}

/// A byte over 1, or another length: one more or less, none, one byte a pixel.
fn spoil_shape(random: &mut Random, pixels: usize, shape: &mut Vec<u8>) {
    match random.below(8) {
        0 => shape.push(random.pick(&[0, 1, 2])),
        1 => drop(shape.pop()),
        2 => shape.clear(),
        3 => shape.resize(pixels, 1),
        _ if shape.is_empty() => shape.resize(random.between(1, pixels + 1), 0),
        _ => {
            let place = random.below(shape.len());
            shape[place] = random.pick(&[2, 3, 128, 129, 254, 255]);
        }
    }
}

/// A picture whose file is longer than a file may be.
pub fn oversize_writer_input(random: &mut Random) -> WriterInput {
    let mut fields = writer_fields(random);
    (fields.width, fields.height) = (4096, 4096);
    (fields.planes, fields.compression) = (8, 0);
    let frame = vec![random.byte(); 4096 * 4096];
    let shape = vec![random.byte() & 1; if fields.masking == 1 { frame.len() } else { 0 }];
    WriterInput { fields, palette: Vec::new(), frame, shape, room: random.pick(&[0, 17_000_000]) }
}
