//! ilbm_shape_frame.

use crate::borrowed::{numbers, refused, same, told, Buffers};
use crate::numbers::{HEADER, NO_BODY, PICTURE, ROWS, SHAPE, STRUCTURE};
use crate::{Call, Outcome, Subject, Tally};
use florinhado::{calls, Refused};
use second::generate::query;
use second::random::Random;
use second::Lent;

const NAME: &str = "ilbm_shape_frame";

pub const CALL: Call =
    Call { name: NAME, numbers: &[STRUCTURE, PICTURE, HEADER, NO_BODY, ROWS, SHAPE], compare, run };

/// The file may have no such picture.
fn run(file: &[u8]) {
    let _ = florinhado::shape_frame(file, 0, &mut [0; 64000], &mut [0; 64000]);
}

fn compare(subject: &Subject, random: &mut Random, tally: &mut Tally) -> Outcome {
    let asked = query(random, subject.file());
    let told = ask(subject.file(), asked.picture, asked.frame, random)?;
    tally.add(NAME, told.number);
    Ok(())
}

/// Compares the frame of a picture with its shape, and gives the number and place told.
pub(crate) fn ask(file: &[u8], picture: usize, lent: Lent, random: &mut Random) -> Result<Refused, String> {
    let wanted = second::shape_frame(file, picture, lent).map_err(refused);
    let result = wanted.as_ref().ok().map(|frame| (&frame.pixels.colours[..], &frame.shape[..]));
    let told = told(&wanted, |frame| frame.pixels.leftover);
    let [mut place, mut leftover] = numbers(random);
    let mut both = Buffers::new(random, lent);
    let (frame, shape) = (both.colours.slice(), both.shape.slice());
    let number = calls::ilbm_shape_frame(file, picture, frame, shape, &mut place, &mut leftover);
    same("number, place, leftover", [number, place, leftover], told)?;
    both.compare(result)?;
    let mut both = Buffers::new(random, lent);
    let ours = florinhado::shape_frame(file, picture, both.colours.slice(), both.shape.slice());
    same(
        "shape_frame",
        ours,
        wanted.as_ref().map(|frame| frame.pixels.leftover).map_err(|refused| *refused),
    )?;
    both.compare(result)?;
    Ok(Refused { number, place })
}
