//! ilbm_bmhd.

use crate::borrowed::{refused, same, Buffer};
use crate::header::{any_header, header};
use crate::{Call, Outcome, Subject, Tally};
use florinhado::{calls, Header};
use second::generate::header_input;
use second::random::Random;

const NAME: &str = "ilbm_bmhd";

pub const CALL: Call = Call { name: NAME, numbers: &[&[0, 23]], compare, run };

/// The file's bytes are taken as BMHDs.
fn run(file: &[u8]) {
    file.chunks_exact(20).for_each(|data| {
        florinhado::bmhd(data).unwrap();
    });
}

/// The BMHD has nothing to do with the file.
fn compare(_: &Subject, random: &mut Random, tally: &mut Tally) -> Outcome {
    let data = header_input(random);
    let answer = fields(&data, random).map_err(|text| format!("{data:02x?}: {text}"))?;
    tally.add(NAME, answer);
    Ok(())
}

/// Compares the fields and gives the answer.
fn fields(data: &[u8], random: &mut Random) -> Result<usize, String> {
    let wanted = second::header_fields(data).map(|told| header(&told)).map_err(refused);
    let mut lent = Buffer::holding(random, data);
    let mut value = any_header(random);
    let answer = calls::ilbm_bmhd(
        lent.slice(),
        &mut value.width,
        &mut value.height,
        &mut value.x,
        &mut value.y,
        &mut value.planes,
        &mut value.masking,
        &mut value.compression,
        &mut value.pad1,
        &mut value.transparent,
        &mut value.x_aspect,
        &mut value.y_aspect,
        &mut value.page_width,
        &mut value.page_height,
    );
    let told = wanted.map_or_else(|refused| (refused.number, Header::default()), |fields| (0, fields));
    same("number, fields", (answer, value), told)?;
    same("bmhd", florinhado::bmhd(lent.slice()), wanted)?;
    Ok(answer)
}
