//! byterun_pack.

use crate::borrowed::{numbers, refused, same, Buffer};
use crate::{Call, Outcome, Subject, Tally};
use florinhado::calls;
use second::generate::{row_input, RowInput};
use second::random::Random;

const NAME: &str = "byterun_pack";

pub const CALL: Call = Call { name: NAME, numbers: &[&[0, 31, 32]], compare, run };

/// The file's bytes are packed as rows.
fn run(file: &[u8]) {
    let mut out = [0; 2 * second::LONGEST_ROW];
    file.chunks(second::LONGEST_ROW).for_each(|row| {
        florinhado::pack(row, &mut out).unwrap();
    });
}

/// The row that is packed has nothing to do with the file.
fn compare(_: &Subject, random: &mut Random, tally: &mut Tally) -> Outcome {
    let input = row_input(random);
    let answer = packed(&input, random).map_err(|text| format!("{input:?}: {text}"))?;
    tally.add(NAME, answer);
    Ok(())
}

/// Compares the packing of a row and gives the answer.
fn packed(input: &RowInput, random: &mut Random) -> Result<usize, String> {
    let wanted = second::pack(&input.row, input.room).map_err(refused);
    let result = wanted.as_deref().unwrap_or(&[]);
    let [mut length] = numbers(random);
    let mut buffer = Buffer::new(random, input.room);
    let row = input.row.clone();
    let answer = calls::byterun_pack(&row, buffer.slice(), &mut length);
    let told = match &wanted {
        Ok(packed) => [0, packed.len()],
        Err(refused) => [refused.number, 0],
    };
    same("number, length", [answer, length], told)?;
    buffer.compare(result)?;
    same("row", &row, &input.row)?;
    let mut buffer = Buffer::new(random, input.room);
    let ours = florinhado::pack(&row, buffer.slice());
    same("pack", ours, wanted.as_ref().map(Vec::len).map_err(|refused| *refused))?;
    buffer.compare(result)?;
    Ok(answer)
}
