//! ilbm_body_line.

use crate::borrowed::{numbers, refused, same, told, Buffer};
use crate::numbers::{HEADER, ROWS, START};
use crate::{Call, Outcome, Subject, Tally};
use florinhado::{calls, Header, Refused};
use second::generate::body_input;
use second::random::Random;
use second::Layout;

const NAME: &str = "ilbm_body_line";

pub const CALL: Call = Call { name: NAME, numbers: &[&[0], HEADER, START, ROWS], compare, run };

/// The file's bytes are taken as lines of 320 pixels in 5 planes.
fn run(file: &[u8]) {
    let fields = Header { width: 320, height: 1, planes: 5, ..Header::default() };
    let mut start = 0;
    while let Ok(next) = florinhado::body_line(file, &fields, start, &mut [0; 320]) {
        start = next;
    }
}

/// The BODY has nothing to do with the file.
fn compare(_: &Subject, random: &mut Random, tally: &mut Tally) -> Outcome {
    let input = body_input(random);
    let told = ask(&input.body, &input.layout, input.start, input.row.colours, random);
    tally.add(NAME, told.map_err(|text| format!("{input:?}: {text}"))?.number);
    Ok(())
}

/// Compares a scan line of these bytes, and gives the number and place told.
pub(crate) fn ask(
    body: &[u8],
    layout: &Layout,
    start: usize,
    length: usize,
    random: &mut Random,
) -> Result<Refused, String> {
    let wanted = second::body_line(body, layout, start, length).map_err(refused);
    let result = wanted.as_ref().map_or(&[][..], |line| &line.colours);
    let [mut place, mut next] = numbers(random);
    let (mut lent, mut row) = (Buffer::holding(random, body), Buffer::new(random, length));
    let Layout { width, planes, masking, compression } = *layout;
    let number = calls::ilbm_body_line(
        lent.slice(),
        width,
        planes,
        masking,
        compression,
        start,
        row.slice(),
        &mut place,
        &mut next,
    );
    let told = told(&wanted, |line| line.next);
    same("number, place, next", [number, place, next], told)?;
    row.compare(result)?;
    let mut row = Buffer::new(random, length);
    let fields = Header { width, planes, masking, compression, ..Header::default() };
    let ours = florinhado::body_line(lent.slice(), &fields, start, row.slice());
    same("body_line", ours, wanted.as_ref().map(|line| line.next).map_err(|refused| *refused))?;
    row.compare(result)?;
    lent.compare(body)?;
    Ok(Refused { number, place })
}
