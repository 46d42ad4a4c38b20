//! ilbm_body_colour_frame.

use crate::body_shape_line::{fields, layout};
use crate::borrowed::{numbers, refused, same, told, Buffer};
use crate::numbers::{COLOURS, HEADER, ROWS};
use crate::{Call, Outcome, Subject, Tally};
use florinhado::{calls, Header, Refused};
use second::generate::body_input;
use second::random::Random;
use second::Colouring;

const NAME: &str = "ilbm_body_colour_frame";

pub const CALL: Call = Call { name: NAME, numbers: &[&[0], HEADER, COLOURS, ROWS], compare, run };

/// The file's bytes are taken as a frame of lines of 320 pixels in 6 planes, held.
fn run(file: &[u8]) {
    let height = (file.len() / 240).min(65_535) as u16;
    let fields = Header { width: 320, height, planes: 6, ..Header::default() };
    let mut frame = vec![0; 960 * usize::from(height)];
    let _ = florinhado::body_colour_frame(file, &fields, 0x800, &[9; 48], &mut frame);
}

/// The BODY has nothing to do with the file.
fn compare(_: &Subject, random: &mut Random, tally: &mut Tally) -> Outcome {
    let input = body_input(random);
    let by = Colouring { view_modes: input.view_modes, palette: &input.palette };
    let told = ask(&input.body, &fields(&input), &by, input.colour_frame, random);
    tally.add(NAME, told.map_err(|text| format!("{input:?}: {text}"))?.number);
    Ok(())
}

/// Compares a frame of these bytes in colours, and gives the number and place told.
pub(crate) fn ask(
    body: &[u8],
    fields: &Header,
    by: &Colouring,
    length: usize,
    random: &mut Random,
) -> Result<Refused, String> {
    let wanted = second::body_colour_frame(body, &layout(fields), by, fields.height, length).map_err(refused);
    let result = wanted.as_ref().map_or(&[][..], |frame| &frame.colours);
    let told = told(&wanted, |frame| frame.leftover);
    let [mut place, mut leftover] = numbers(random);
    let [mut bytes, mut palette] = [body, by.palette].map(|lent| Buffer::holding(random, lent));
    let mut frame = Buffer::new(random, length);
    let number = calls::ilbm_body_colour_frame(
        bytes.slice(),
        fields.width,
        fields.height,
        fields.planes,
        fields.masking,
        fields.compression,
        by.view_modes,
        palette.slice(),
        frame.slice(),
        &mut place,
        &mut leftover,
    );
    same("number, place, leftover", [number, place, leftover], told)?;
    frame.compare(result)?;
    let mut frame = Buffer::new(random, length);
    let (lent, into) = (palette.slice(), frame.slice());
    let ours = florinhado::body_colour_frame(bytes.slice(), fields, by.view_modes, lent, into);
    same("body_colour_frame", ours, wanted.as_ref().map(|frame| frame.leftover).map_err(|told| *told))?;
    frame.compare(result)?;
    bytes.compare(body)?;
    palette.compare(by.palette)?;
    Ok(Refused { number, place })
}
