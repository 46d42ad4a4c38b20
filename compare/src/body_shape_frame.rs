//! ilbm_body_shape_frame.

use crate::body_shape_line::{fields, layout};
use crate::borrowed::{numbers, refused, same, told, Buffer, Buffers};
use crate::numbers::{HEADER, ROWS, SHAPE};
use crate::{Call, Outcome, Subject, Tally};
use florinhado::{calls, Header, Refused};
use second::generate::body_input;
use second::random::Random;
use second::Lent;

const NAME: &str = "ilbm_body_shape_frame";

pub const CALL: Call = Call { name: NAME, numbers: &[&[0], HEADER, ROWS, SHAPE], compare, run };

/// The file's bytes are taken as a frame of lines of 320 pixels in 4 planes and a mask.
fn run(file: &[u8]) {
    let height = (file.len() / 200).min(65_535) as u16;
    let fields = Header { width: 320, height, planes: 4, masking: 1, ..Header::default() };
    let mut room = [0, 1].map(|_| vec![0; 320 * usize::from(height)]);
    let [frame, shape] = &mut room;
    let _ = florinhado::body_shape_frame(file, &fields, frame, shape);
}

/// The BODY has nothing to do with the file.
fn compare(_: &Subject, random: &mut Random, tally: &mut Tally) -> Outcome {
    let input = body_input(random);
    let told = ask(&input.body, &fields(&input), input.frame, random);
    tally.add(NAME, told.map_err(|text| format!("{input:?}: {text}"))?.number);
    Ok(())
}

/// Compares a frame of these bytes with its shape, and gives the number and place told.
pub(crate) fn ask(body: &[u8], fields: &Header, lent: Lent, random: &mut Random) -> Result<Refused, String> {
    let wanted = second::body_shape_frame(body, &layout(fields), fields.transparent, fields.height, lent)
        .map_err(refused);
    let result = wanted.as_ref().ok().map(|frame| (&frame.pixels.colours[..], &frame.shape[..]));
    let told = told(&wanted, |frame| frame.pixels.leftover);
    let [mut place, mut leftover] = numbers(random);
    let (mut bytes, mut both) = (Buffer::holding(random, body), Buffers::new(random, lent));
    let number = calls::ilbm_body_shape_frame(
        bytes.slice(),
        fields.width,
        fields.height,
        fields.planes,
        fields.masking,
        fields.compression,
        fields.transparent,
        both.colours.slice(),
        both.shape.slice(),
        &mut place,
        &mut leftover,
    );
    same("number, place, leftover", [number, place, leftover], told)?;
    both.compare(result)?;
    let mut both = Buffers::new(random, lent);
    let ours = florinhado::body_shape_frame(bytes.slice(), fields, both.colours.slice(), both.shape.slice());
    same("body_shape_frame", ours, wanted.as_ref().map(|frame| frame.pixels.leftover).map_err(|told| *told))?;
    both.compare(result)?;
    bytes.compare(body)?;
    Ok(Refused { number, place })
}
