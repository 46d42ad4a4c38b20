//! ilbm_body_colour_line.

use crate::body_shape_line::{fields, layout};
use crate::borrowed::{numbers, refused, same, told, Buffer};
use crate::numbers::{COLOURS, HEADER, ROWS, START};
use crate::{Call, Outcome, Subject, Tally};
use florinhado::{calls, Header, Refused};
use second::generate::body_input;
use second::random::Random;
use second::Colouring;

const NAME: &str = "ilbm_body_colour_line";

pub const CALL: Call = Call { name: NAME, numbers: &[&[0], HEADER, COLOURS, START, ROWS], compare, run };

/// The file's bytes are taken as lines of 320 pixels in 6 planes, held.
fn run(file: &[u8]) {
    let fields = Header { width: 320, height: 1, planes: 6, ..Header::default() };
    let mut row = [0; 960];
    let mut start = 0;
    while let Ok(next) = florinhado::body_colour_line(file, &fields, 0x800, &[9; 48], start, &mut row) {
        start = next;
    }
}

/// The BODY has nothing to do with the file.
fn compare(_: &Subject, random: &mut Random, tally: &mut Tally) -> Outcome {
    let input = body_input(random);
    let by = Colouring { view_modes: input.view_modes, palette: &input.palette };
    let told = ask(&input.body, &fields(&input), &by, input.start, input.colour_row, random);
    tally.add(NAME, told.map_err(|text| format!("{input:?}: {text}"))?.number);
    Ok(())
}

/// Compares a scan line of these bytes in colours, and gives the number and place told.
pub(crate) fn ask(
    body: &[u8],
    fields: &Header,
    by: &Colouring,
    start: usize,
    length: usize,
    random: &mut Random,
) -> Result<Refused, String> {
    let wanted = second::body_colour_line(body, &layout(fields), by, start, length).map_err(refused);
    let result = wanted.as_ref().map_or(&[][..], |line| &line.colours);
    let told = told(&wanted, |line| line.next);
    let [mut place, mut next] = numbers(random);
    let [mut bytes, mut palette] = [body, by.palette].map(|lent| Buffer::holding(random, lent));
    let mut row = Buffer::new(random, length);
    let number = calls::ilbm_body_colour_line(
        bytes.slice(),
        fields.width,
        fields.planes,
        fields.masking,
        fields.compression,
        by.view_modes,
        palette.slice(),
        start,
        row.slice(),
        &mut place,
        &mut next,
    );
    same("number, place, next", [number, place, next], told)?;
    row.compare(result)?;
    let mut row = Buffer::new(random, length);
    let (lent, into) = (palette.slice(), row.slice());
    let ours = florinhado::body_colour_line(bytes.slice(), fields, by.view_modes, lent, start, into);
    same("body_colour_line", ours, wanted.as_ref().map(|line| line.next).map_err(|told| *told))?;
    row.compare(result)?;
    bytes.compare(body)?;
    palette.compare(by.palette)?;
    Ok(Refused { number, place })
}
