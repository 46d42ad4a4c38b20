//! Pictures of five kinds and any shape, each the same in every run.

use compare::chunks::with_modes;
use second::random::Random;
use second::{write_picture, Fields, Header};

/// Pixels of a line, lines and planes.
#[derive(Clone, Copy)]
pub struct Shape {
    pub width: usize,
    pub height: usize,
    pub planes: usize,
}

/// The shape that most lines of the benchmark have.
pub const SMALL: Shape = Shape { width: 320, height: 200, planes: 5 };

impl Shape {
    /// Bytes of a plane row.
    pub fn row(self) -> usize {
        self.width.div_ceil(16) * 2
    }

    pub fn fields(self, compression: u8) -> Fields {
        self.masked(compression, 0)
    }

    fn masked(self, compression: u8, masking: u8) -> Fields {
        Fields {
            width: self.width as u16,
            height: self.height as u16,
            x: 0,
            y: 0,
            planes: self.planes as u8,
            masking,
            compression,
            transparent_color: 0,
            x_aspect: 10,
            y_aspect: 11,
            page_width: 320,
            page_height: 200,
        }
    }

    /// 1 in a disc around the middle.
    fn disc(self) -> Vec<u8> {
        let far = |at: usize, size: usize| (2 * at + 1).abs_diff(size).pow(2);
        let inside =
            |n| far(n % self.width, self.width) + far(n / self.width, self.height) < self.height.pow(2);
        (0..self.width * self.height).map(|n| u8::from(inside(n))).collect()
    }

    /// A frame by a colour for each pixel, of which the low bits count.
    fn frame(self, mut colour: impl FnMut(usize, usize) -> usize) -> Vec<u8> {
        let count = 1 << self.planes;
        (0..self.width * self.height)
            .map(|n| (colour(n % self.width, n / self.width) % count) as u8)
            .collect()
    }
}

/// A picture and its file.
pub struct Drawn {
    pub frame: Vec<u8>,
    pub file: Vec<u8>,
}

impl Drawn {
    /// The header and the BODY.
    pub fn body(&self) -> (Header, &[u8]) {
        let told = second::properties(&self.file, 0).expect("a picture");
        (told.header, &self.file[told.body.expect("a BODY")])
    }
}

/// How the pictures of a kind are drawn, each by a number of its own.
pub struct Kind {
    pub name: &'static str,
    draw: fn(Shape, u64) -> Vec<u8>,
}

pub const KINDS: [Kind; 5] = [
    Kind { name: "noise", draw: noise },
    Kind { name: "flat", draw: flat },
    Kind { name: "mixed", draw: mixed },
    Kind { name: "drawn", draw: drawn },
    Kind { name: "dithered", draw: dithered },
];

/// What an encoder of hold-and-modify makes of slopes of three colours.
pub const SCANNED: Kind = Kind { name: "scanned", draw: scanned };

/// The kinds that packing and writing are timed with.
pub fn few() -> [&'static Kind; 3] {
    [&KINDS[0], &KINDS[1], &KINDS[3]]
}

impl Kind {
    pub fn picture(&self, shape: Shape, compression: u8, number: u64) -> Drawn {
        let frame = (self.draw)(shape, number);
        drawn_by(shape.fields(compression), frame, &[])
    }

    /// The same with this palette and these view modes.
    pub fn coloured(&self, shape: Shape, compression: u8, number: u64, palette: &[u8], modes: u32) -> Drawn {
        let frame = (self.draw)(shape, number);
        let file = write_picture(&shape.fields(compression), palette, &frame, b"", usize::MAX);
        let file = with_modes(&file.expect("a picture that can be written"), modes);
        Drawn { frame, file }
    }

    /// The same with a masking: a disc shows, or all that has another colour than the first pixel.
    pub fn brush(&self, shape: Shape, compression: u8, masking: u8, number: u64) -> Brush {
        let frame = (self.draw)(shape, number);
        let mut fields = shape.masked(compression, masking);
        fields.transparent_color = frame[0].into();
        let shown: Vec<u8> = match masking {
            1 => shape.disc(),
            2 => frame.iter().map(|colour| u8::from(*colour != frame[0])).collect(),
            _ => vec![1; frame.len()],
        };
        let mask = if masking == 1 { &shown[..] } else { &[] };
        Brush { drawn: drawn_by(fields, frame, mask), shape: shown }
    }
}

/// Colour k of every palette that pictures are shown in; the first is black.
fn colour(k: usize) -> [u8; 3] {
    [k * 37, k * 91, k * 203].map(|part| part as u8)
}

/// A palette of so many colours.
pub fn palette(entries: usize) -> Vec<u8> {
    (0..entries).flat_map(colour).collect()
}

/// A picture with its shape.
pub struct Brush {
    pub drawn: Drawn,
    pub shape: Vec<u8>,
}

fn drawn_by(fields: Fields, frame: Vec<u8>, mask: &[u8]) -> Drawn {
    let file = write_picture(&fields, &[0; 96], &frame, mask, usize::MAX);
    Drawn { frame, file: file.expect("a picture that can be written") }
}

/// Every pixel any colour.
fn noise(shape: Shape, number: u64) -> Vec<u8> {
    let mut random = Random::new(320 + number);
    shape.frame(|_, _| random.byte().into())
}

/// Bands of one colour.
fn flat(shape: Shape, number: u64) -> Vec<u8> {
    shape.frame(|_, y| y / 25 + number as usize)
}

/// Noise in one colour: where it starts and ends is another place in each line.
fn mixed(shape: Shape, number: u64) -> Vec<u8> {
    let mut random = Random::new(64 + number);
    let (mut start, mut end) = (0, 0);
    shape.frame(|x, _| {
        if x == 0 {
            start = random.below(shape.width);
            end = random.between(start, shape.width);
        }
        if (start..end).contains(&x) {
            random.byte().into()
        } else {
            number as usize
        }
    })
}

/// A sky with dithered edges, a disc of rings, a text of small strokes, and
/// grain at the right: runs and literals of many lengths.
fn drawn(shape: Shape, number: u64) -> Vec<u8> {
    let mut random = Random::new(1985 + number);
    let (left, top) = (random.between(70, 190), random.between(65, 115));
    shape.frame(|x, y| {
        let (x, y) = (x % SMALL.width, y % SMALL.height);
        let far = (x.abs_diff(left).pow(2) + y.abs_diff(top).pow(2)).isqrt();
        match (far, x, y) {
            (0..60, ..) => 8 + far / 5,
            (_, 250.., _) => 20 + random.below(4),
            (_, _, 150..190) if y % 10 < 7 && (x * 7 + y / 10 * 13) % 11 < 4 => 31,
            _ => y / 25 + usize::from(y % 25 > 20 && (x + y) % 2 == 0),
        }
    })
}

/// A slope of shades, each pixel of one of the two nearest colours, and some
/// of the grain that a scanned picture has.
fn dithered(shape: Shape, number: u64) -> Vec<u8> {
    const ORDER: [[usize; 4]; 4] = [[0, 8, 2, 10], [12, 4, 14, 6], [3, 11, 1, 9], [15, 7, 13, 5]];
    let mut random = Random::new(4 + number);
    let (across, down) = (random.between(4, 18), random.between(4, 18));
    shape.frame(|x, y| {
        let shade = (x * across + y * down + random.below(4)) / 8;
        shade / 16 + usize::from(ORDER[y % 4][x % 4] < shade % 16)
    })
}

/// For each pixel the code that comes nearest to a slope with some grain: an entry
/// of the palette, or one part of the pixel to the left changed.
fn scanned(shape: Shape, number: u64) -> Vec<u8> {
    let mut random = Random::new(12 + number);
    let slopes: [[usize; 2]; 3] = std::array::from_fn(|_| [random.between(1, 9), random.between(1, 9)]);
    let bits = shape.planes - 2;
    let low = 8 - bits;
    let mut held = [0; 3];
    shape.frame(|x, y| {
        if x == 0 {
            held = [0; 3];
        }
        let wanted = slopes.map(|[across, down]| ((x * across + y * down + random.below(9)) / 4 % 256) as u8);
        let entries = (0..1 << bits).map(|k| (k, colour(k)));
        let changed = [(2, 1), (0, 2), (1, 3)].map(|(part, mode)| {
            let data = usize::from(wanted[part]) >> low;
            let mut pixel = held;
            pixel[part] = (data << low | data >> (bits - low)) as u8;
            (mode << bits | data, pixel)
        });
        let (code, pixel) = entries.chain(changed).min_by_key(|(_, pixel)| far(*pixel, wanted)).unwrap();
        held = pixel;
        code
    })
}

/// How far two colours are from each other.
fn far(one: [u8; 3], other: [u8; 3]) -> u32 {
    (0..3).map(|part| u32::from(one[part].abs_diff(other[part])).pow(2)).sum()
}
