//! ilbm_colour_line.

use crate::borrowed::{numbers, refused, same, told, Buffer};
use crate::numbers::{COLOURS, HEADER, NO_BODY, PICTURE, ROWS, START, STRUCTURE};
use crate::{Call, Outcome, Subject, Tally};
use florinhado::{calls, Refused};
use second::generate::{default_palette, query};
use second::random::Random;

const NAME: &str = "ilbm_colour_line";

pub const CALL: Call =
    Call { name: NAME, numbers: &[STRUCTURE, PICTURE, HEADER, NO_BODY, COLOURS, ROWS, START], compare, run };

/// The file may have no such picture.
fn run(file: &[u8]) {
    let _ = florinhado::colour_line(file, 0, 0, b"", &mut [0; 960]);
}

fn compare(subject: &Subject, random: &mut Random, tally: &mut Tally) -> Outcome {
    let asked = query(random, subject.file());
    let default = default_palette(random);
    let told = ask(subject.file(), asked.picture, asked.start, &default, asked.colour_row, random)?;
    tally.add(NAME, told.number);
    Ok(())
}

/// Compares a scan line of a picture in colours, and gives the number and place told.
pub(crate) fn ask(
    file: &[u8],
    picture: usize,
    start: usize,
    default: &[u8],
    length: usize,
    random: &mut Random,
) -> Result<Refused, String> {
    let wanted = second::colour_line(file, picture, start, default, length).map_err(refused);
    let result = wanted.as_ref().map_or(&[][..], |line| &line.colours);
    let told = told(&wanted, |line| line.next);
    let [mut place, mut next] = numbers(random);
    let (mut palette, mut row) = (Buffer::holding(random, default), Buffer::new(random, length));
    let (lent, into) = (palette.slice(), row.slice());
    let number = calls::ilbm_colour_line(file, picture, start, lent, into, &mut place, &mut next);
    same("number, place, next", [number, place, next], told)?;
    row.compare(result)?;
    let mut row = Buffer::new(random, length);
    let ours = florinhado::colour_line(file, picture, start, palette.slice(), row.slice());
    same("colour_line", ours, wanted.as_ref().map(|line| line.next).map_err(|refused| *refused))?;
    row.compare(result)?;
    palette.compare(default)?;
    Ok(Refused { number, place })
}
