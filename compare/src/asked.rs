//! What is asked of a picture beside its number.

use florinhado::Shaped;
use second::generate::default_palette;
use second::random::Random;
use second::{Properties, Refused};

/// A frame of more pixels is only asked for with a wrong length.
const GREATEST_FRAME: usize = 1 << 24;

/// The inputs of every call on one picture.
pub struct Asked {
    pub picture: usize,
    /// The default palette.
    pub default: Vec<u8>,
    /// The start places of scan lines with the rows lent for them, without and with a shape, and in colours.
    pub lines: Vec<(usize, Vec<u8>)>,
    pub shape_lines: Vec<(usize, Shaped)>,
    pub colour_lines: Vec<(usize, Vec<u8>)>,
    pub frames: Vec<Vec<u8>>,
    pub shape_frames: Vec<Shaped>,
    pub colour_frames: Vec<Vec<u8>>,
    /// Whether the first of each frames has the right length.
    pub is_whole: bool,
}

impl Asked {
    /// Right and wrong inputs for a picture of this file, which may have none of this number.
    pub fn new(random: &mut Random, file: &[u8], picture: usize) -> Asked {
        Asked::of(random, file, picture, &second::properties(file, picture))
    }

    /// The same for a picture of which the second reader told this.
    pub fn of(random: &mut Random, file: &[u8], picture: usize, told: &Result<Properties, Refused>) -> Asked {
        let fields = told.as_ref().map(|told| (told.header.width, told.header.height));
        let (width, height) = fields.map_or((5, 1), |(w, h)| (usize::from(w), usize::from(h)));
        let is_whole = width * height <= GREATEST_FRAME;
        let frame = if is_whole { width * height } else { 1 };
        let places = starts(random, file, told, width);
        Asked {
            picture,
            default: default_palette(random),
            lines: lines(random, &places, width),
            shape_lines: shape_lines(random, &places, width),
            colour_lines: lines(random, &places, 3 * width),
            frames: lengths(random, frame).map(|length| random.bytes(length)).to_vec(),
            shape_frames: shapes(random, frame).to_vec(),
            colour_frames: lengths(random, 3 * frame).map(|length| random.bytes(length)).to_vec(),
            is_whole,
        }
    }

    /// Every picture of an accepted file, one beyond the last, and the last number.
    pub fn all(random: &mut Random, file: &[u8]) -> Vec<Asked> {
        let count = second::count_pictures(file).unwrap_or(0);
        (0..=count).chain([usize::MAX]).map(|picture| Asked::new(random, file, picture)).collect()
    }
}

/// The places of the first two scan lines, and two up to a little beyond the BODY's end.
fn starts(random: &mut Random, file: &[u8], told: &Result<Properties, Refused>, width: usize) -> [usize; 4] {
    let found = told.as_ref().ok().and_then(|told| Some((told.header.layout(), told.body.clone()?)));
    let body = found.as_ref().map_or(0, |(_, body)| body.len());
    let line = found.map(|(layout, body)| second::body_line(&file[body], &layout, 0, width));
    let second_line = line.and_then(Result::ok).map_or(0, |line| line.next);
    [0, second_line, random.below(body + 4), random.below(body + 4)]
}

/// A row for each place, the last of a wrong length.
fn lines(random: &mut Random, places: &[usize; 4], width: usize) -> Vec<(usize, Vec<u8>)> {
    let [right, wrong] = lengths(random, width);
    let lent = [right, right, right, wrong].map(|length| random.bytes(length));
    places.iter().copied().zip(lent).collect()
}

/// A row with a shape for each place, and one of a wrong length for either at the last.
fn shape_lines(random: &mut Random, places: &[usize; 4], width: usize) -> Vec<(usize, Shaped)> {
    let mut lent = Vec::new();
    for place in &places[..3] {
        lent.push((*place, shaped(random, width, width)));
    }
    lent.extend(shapes(random, width)[1..].iter().map(|wrong| (places[3], wrong.clone())));
    lent
}

/// Room of the right length for colours and shape, of a wrong one for the colours, and for the shape.
fn shapes(random: &mut Random, right: usize) -> [Shaped; 3] {
    let [_, wrong] = lengths(random, right);
    [(right, right), (wrong, right), (right, wrong)].map(|(colours, shape)| shaped(random, colours, shape))
}

fn shaped(random: &mut Random, colours: usize, shape: usize) -> Shaped {
    Shaped { colours: random.bytes(colours), shape: random.bytes(shape) }
}

/// The right length and a wrong one.
fn lengths(random: &mut Random, right: usize) -> [usize; 2] {
    [right, if random.one_in(2) { right + 1 } else { right.saturating_sub(1) }]
}
