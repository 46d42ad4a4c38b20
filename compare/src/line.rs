//! ilbm_line.

use crate::borrowed::{numbers, refused, same, told, Buffer};
use crate::numbers::{HEADER, NO_BODY, PICTURE, ROWS, START, STRUCTURE};
use crate::{Call, Outcome, Subject, Tally};
use florinhado::{calls, Refused};
use second::generate::query;
use second::random::Random;

const NAME: &str = "ilbm_line";

pub const CALL: Call =
    Call { name: NAME, numbers: &[STRUCTURE, PICTURE, HEADER, NO_BODY, ROWS, START], compare, run };

/// The file may have no such picture.
fn run(file: &[u8]) {
    let _ = florinhado::scan_line(file, 0, 0, &mut [0; 320]);
}

fn compare(subject: &Subject, random: &mut Random, tally: &mut Tally) -> Outcome {
    let asked = query(random, subject.file());
    let told = ask(subject.file(), asked.picture, asked.start, asked.row.colours, random)?;
    tally.add(NAME, told.number);
    Ok(())
}

/// Compares a scan line of a picture, and gives the number and place told.
pub(crate) fn ask(
    file: &[u8],
    picture: usize,
    start: usize,
    length: usize,
    random: &mut Random,
) -> Result<Refused, String> {
    let wanted = second::scan_line(file, picture, start, length).map_err(refused);
    let result = wanted.as_ref().map_or(&[][..], |line| &line.colours);
    let [mut place, mut next] = numbers(random);
    let mut buffer = Buffer::new(random, length);
    let number = calls::ilbm_line(file, picture, start, buffer.slice(), &mut place, &mut next);
    let told = told(&wanted, |line| line.next);
    same("number, place, next", [number, place, next], told)?;
    buffer.compare(result)?;
    let mut buffer = Buffer::new(random, length);
    let ours = florinhado::scan_line(file, picture, start, buffer.slice());
    same("scan_line", ours, wanted.as_ref().map(|line| line.next).map_err(|refused| *refused))?;
    buffer.compare(result)?;
    Ok(Refused { number, place })
}
