//! ilbm_shape_line.

use crate::borrowed::{numbers, refused, same, told, Buffers};
use crate::numbers::{HEADER, NO_BODY, PICTURE, ROWS, SHAPE, START, STRUCTURE};
use crate::{Call, Outcome, Subject, Tally};
use florinhado::{calls, Refused};
use second::generate::query;
use second::random::Random;
use second::Lent;

const NAME: &str = "ilbm_shape_line";

pub const CALL: Call =
    Call { name: NAME, numbers: &[STRUCTURE, PICTURE, HEADER, NO_BODY, ROWS, START, SHAPE], compare, run };

/// The file may have no such picture.
fn run(file: &[u8]) {
    let _ = florinhado::shape_line(file, 0, 0, &mut [0; 320], &mut [0; 320]);
}

fn compare(subject: &Subject, random: &mut Random, tally: &mut Tally) -> Outcome {
    let asked = query(random, subject.file());
    let told = ask(subject.file(), asked.picture, asked.start, asked.row, random)?;
    tally.add(NAME, told.number);
    Ok(())
}

/// Compares a scan line of a picture with its shape, and gives the number and place told.
pub(crate) fn ask(
    file: &[u8],
    picture: usize,
    start: usize,
    lent: Lent,
    random: &mut Random,
) -> Result<Refused, String> {
    let wanted = second::shape_line(file, picture, start, lent).map_err(refused);
    let result = wanted.as_ref().ok().map(|line| (&line.pixels.colours[..], &line.shape[..]));
    let told = told(&wanted, |line| line.pixels.next);
    let [mut place, mut next] = numbers(random);
    let mut both = Buffers::new(random, lent);
    let (row, shape) = (both.colours.slice(), both.shape.slice());
    let number = calls::ilbm_shape_line(file, picture, start, row, shape, &mut place, &mut next);
    same("number, place, next", [number, place, next], told)?;
    both.compare(result)?;
    let mut both = Buffers::new(random, lent);
    let ours = florinhado::shape_line(file, picture, start, both.colours.slice(), both.shape.slice());
    same("shape_line", ours, wanted.as_ref().map(|line| line.pixels.next).map_err(|refused| *refused))?;
    both.compare(result)?;
    Ok(Refused { number, place })
}
