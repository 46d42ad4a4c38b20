//! ilbm_body_frame.

use crate::borrowed::{numbers, refused, same, told, Buffer};
use crate::numbers::{HEADER, ROWS};
use crate::{Call, Outcome, Subject, Tally};
use florinhado::{calls, Header, Refused};
use second::generate::body_input;
use second::random::Random;
use second::Layout;

const NAME: &str = "ilbm_body_frame";

pub const CALL: Call = Call { name: NAME, numbers: &[&[0], HEADER, ROWS], compare, run };

/// The file's bytes are taken as a frame of lines of 320 pixels in 5 planes.
fn run(file: &[u8]) {
    let height = (file.len() / 200).min(65_535) as u16;
    let fields = Header { width: 320, height, planes: 5, ..Header::default() };
    let _ = florinhado::body_frame(file, &fields, &mut vec![0; 320 * usize::from(height)]);
}

/// The BODY has nothing to do with the file.
fn compare(_: &Subject, random: &mut Random, tally: &mut Tally) -> Outcome {
    let input = body_input(random);
    let told = ask(&input.body, &input.layout, input.height, input.frame.colours, random);
    tally.add(NAME, told.map_err(|text| format!("{input:?}: {text}"))?.number);
    Ok(())
}

/// Compares a frame of these bytes, and gives the number and place told.
pub(crate) fn ask(
    body: &[u8],
    layout: &Layout,
    height: u16,
    length: usize,
    random: &mut Random,
) -> Result<Refused, String> {
    let wanted = second::body_frame(body, layout, height, length).map_err(refused);
    let result = wanted.as_ref().map_or(&[][..], |frame| &frame.colours);
    let [mut place, mut leftover] = numbers(random);
    let (mut lent, mut frame) = (Buffer::holding(random, body), Buffer::new(random, length));
    let Layout { width, planes, masking, compression } = *layout;
    let number = calls::ilbm_body_frame(
        lent.slice(),
        width,
        height,
        planes,
        masking,
        compression,
        frame.slice(),
        &mut place,
        &mut leftover,
    );
    let told = told(&wanted, |frame| frame.leftover);
    same("number, place, leftover", [number, place, leftover], told)?;
    frame.compare(result)?;
    let mut frame = Buffer::new(random, length);
    let fields = Header { width, height, planes, masking, compression, ..Header::default() };
    let ours = florinhado::body_frame(lent.slice(), &fields, frame.slice());
    same("body_frame", ours, wanted.as_ref().map(|frame| frame.leftover).map_err(|refused| *refused))?;
    frame.compare(result)?;
    lent.compare(body)?;
    Ok(Refused { number, place })
}
