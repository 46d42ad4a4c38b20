//! ilbm_frame.

use crate::borrowed::{numbers, refused, same, told, Buffer};
use crate::numbers::{HEADER, NO_BODY, PICTURE, ROWS, STRUCTURE};
use crate::{Call, Outcome, Subject, Tally};
use florinhado::{calls, Refused};
use second::generate::query;
use second::random::Random;

const NAME: &str = "ilbm_frame";

pub const CALL: Call =
    Call { name: NAME, numbers: &[STRUCTURE, PICTURE, HEADER, NO_BODY, ROWS], compare, run };

/// The file may have no such picture.
fn run(file: &[u8]) {
    let _ = florinhado::frame(file, 0, &mut [0; 64000]);
}

fn compare(subject: &Subject, random: &mut Random, tally: &mut Tally) -> Outcome {
    let asked = query(random, subject.file());
    let told = ask(subject.file(), asked.picture, asked.frame.colours, random)?;
    tally.add(NAME, told.number);
    Ok(())
}

/// Compares the frame of a picture, and gives the number and place told.
pub(crate) fn ask(
    file: &[u8],
    picture: usize,
    length: usize,
    random: &mut Random,
) -> Result<Refused, String> {
    let wanted = second::frame(file, picture, length).map_err(refused);
    let result = wanted.as_ref().map_or(&[][..], |frame| &frame.colours);
    let [mut place, mut leftover] = numbers(random);
    let mut buffer = Buffer::new(random, length);
    let number = calls::ilbm_frame(file, picture, buffer.slice(), &mut place, &mut leftover);
    let told = told(&wanted, |frame| frame.leftover);
    same("number, place, leftover", [number, place, leftover], told)?;
    buffer.compare(result)?;
    let mut buffer = Buffer::new(random, length);
    let ours = florinhado::frame(file, picture, buffer.slice());
    same("frame", ours, wanted.as_ref().map(|frame| frame.leftover).map_err(|refused| *refused))?;
    buffer.compare(result)?;
    Ok(Refused { number, place })
}
