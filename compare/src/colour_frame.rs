//! ilbm_colour_frame.

use crate::borrowed::{numbers, refused, same, told, Buffer};
use crate::numbers::{COLOURS, HEADER, NO_BODY, PICTURE, ROWS, STRUCTURE};
use crate::{Call, Outcome, Subject, Tally};
use florinhado::{calls, Refused};
use second::generate::{default_palette, query};
use second::random::Random;

const NAME: &str = "ilbm_colour_frame";

pub const CALL: Call =
    Call { name: NAME, numbers: &[STRUCTURE, PICTURE, HEADER, NO_BODY, COLOURS, ROWS], compare, run };

/// The file may have no such picture.
fn run(file: &[u8]) {
    let _ = florinhado::colour_frame(file, 0, b"", &mut [0; 64000]);
}

fn compare(subject: &Subject, random: &mut Random, tally: &mut Tally) -> Outcome {
    let asked = query(random, subject.file());
    let default = default_palette(random);
    let told = ask(subject.file(), asked.picture, &default, asked.colour_frame, random)?;
    tally.add(NAME, told.number);
    Ok(())
}

/// Compares the frame of a picture in colours, and gives the number and place told.
pub(crate) fn ask(
    file: &[u8],
    picture: usize,
    default: &[u8],
    length: usize,
    random: &mut Random,
) -> Result<Refused, String> {
    let wanted = second::colour_frame(file, picture, default, length).map_err(refused);
    let result = wanted.as_ref().map_or(&[][..], |frame| &frame.colours);
    let told = told(&wanted, |frame| frame.leftover);
    let [mut place, mut leftover] = numbers(random);
    let (mut palette, mut frame) = (Buffer::holding(random, default), Buffer::new(random, length));
    let (lent, into) = (palette.slice(), frame.slice());
    let number = calls::ilbm_colour_frame(file, picture, lent, into, &mut place, &mut leftover);
    same("number, place, leftover", [number, place, leftover], told)?;
    frame.compare(result)?;
    let mut frame = Buffer::new(random, length);
    let ours = florinhado::colour_frame(file, picture, palette.slice(), frame.slice());
    same("colour_frame", ours, wanted.as_ref().map(|frame| frame.leftover).map_err(|refused| *refused))?;
    frame.compare(result)?;
    palette.compare(default)?;
    Ok(Refused { number, place })
}
