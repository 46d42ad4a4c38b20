//! ilbm_body_shape_line.

use crate::borrowed::{numbers, refused, same, told, Buffer, Buffers};
use crate::numbers::{HEADER, ROWS, SHAPE, START};
use crate::{Call, Outcome, Subject, Tally};
use florinhado::{calls, Header, Refused};
use second::generate::body_input;
use second::random::Random;
use second::Lent;

const NAME: &str = "ilbm_body_shape_line";

pub const CALL: Call = Call { name: NAME, numbers: &[&[0], HEADER, START, ROWS, SHAPE], compare, run };

/// The file's bytes are taken as lines of 320 pixels in 4 planes and a mask.
fn run(file: &[u8]) {
    let fields = Header { width: 320, height: 1, planes: 4, masking: 1, ..Header::default() };
    let (mut row, mut shape) = ([0; 320], [0; 320]);
    let mut start = 0;
    while let Ok(next) = florinhado::body_shape_line(file, &fields, start, &mut row, &mut shape) {
        start = next;
    }
}

/// The BODY has nothing to do with the file.
fn compare(_: &Subject, random: &mut Random, tally: &mut Tally) -> Outcome {
    let input = body_input(random);
    let told = ask(&input.body, &fields(&input), input.start, input.row, random);
    tally.add(NAME, told.map_err(|text| format!("{input:?}: {text}"))?.number);
    Ok(())
}

/// The fields of a header that a BODY is read by with its shape.
pub(crate) fn fields(input: &second::generate::BodyInput) -> Header {
    let second::Layout { width, planes, masking, compression } = input.layout;
    let (height, transparent) = (input.height, input.transparent);
    Header { width, height, planes, masking, compression, transparent, ..Header::default() }
}

/// Those of them that say how a line lies in the BODY.
pub(crate) fn layout(fields: &Header) -> second::Layout {
    let Header { width, planes, masking, compression, .. } = *fields;
    second::Layout { width, planes, masking, compression }
}

/// Compares a scan line of these bytes with its shape, and gives the number and place told.
pub(crate) fn ask(
    body: &[u8],
    fields: &Header,
    start: usize,
    lent: Lent,
    random: &mut Random,
) -> Result<Refused, String> {
    let wanted =
        second::body_shape_line(body, &layout(fields), fields.transparent, start, lent).map_err(refused);
    let result = wanted.as_ref().ok().map(|line| (&line.pixels.colours[..], &line.shape[..]));
    let told = told(&wanted, |line| line.pixels.next);
    let [mut place, mut next] = numbers(random);
    let (mut bytes, mut both) = (Buffer::holding(random, body), Buffers::new(random, lent));
    let number = calls::ilbm_body_shape_line(
        bytes.slice(),
        fields.width,
        fields.planes,
        fields.masking,
        fields.compression,
        fields.transparent,
        start,
        both.colours.slice(),
        both.shape.slice(),
        &mut place,
        &mut next,
    );
    same("number, place, next", [number, place, next], told)?;
    both.compare(result)?;
    let mut both = Buffers::new(random, lent);
    let ours =
        florinhado::body_shape_line(bytes.slice(), fields, start, both.colours.slice(), both.shape.slice());
    same("body_shape_line", ours, wanted.as_ref().map(|line| line.pixels.next).map_err(|told| *told))?;
    both.compare(result)?;
    bytes.compare(body)?;
    Ok(Refused { number, place })
}
