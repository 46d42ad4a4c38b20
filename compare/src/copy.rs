//! iff_clean_copy.

use crate::borrowed::{numbers, refused, same, Buffer};
use crate::numbers::{ROOM, STRUCTURE};
use crate::{Call, Outcome, Subject, Tally};
use florinhado::calls;
use second::random::Random;

const NAME: &str = "iff_clean_copy";

pub const CALL: Call = Call { name: NAME, numbers: &[STRUCTURE, ROOM], compare, run };

fn run(file: &[u8]) {
    florinhado::clean_copy(file, &mut vec![1; file.len()]).unwrap();
}

fn compare(subject: &Subject, random: &mut Random, tally: &mut Tally) -> Outcome {
    let end = second::check(subject.file()).map_or(0, |accepted| accepted.end);
    let rooms = match end {
        0 => vec![random.below(40)],
        _ => vec![end, end - 1, end + 1 + random.below(40), random.below(end)],
    };
    for room in rooms {
        let answer = in_room(subject.file(), room, random);
        tally.add(NAME, answer.map_err(|text| format!("in {room} bytes: {text}"))?);
    }
    Ok(())
}

/// Compares the copy into a buffer of so many bytes and gives the answer.
fn in_room(file: &[u8], room: usize, random: &mut Random) -> Result<usize, String> {
    let wanted = second::clean_copy(file, room).map_err(refused);
    let result = wanted.as_deref().unwrap_or(&[]);
    let [mut place, mut length] = numbers(random);
    let mut buffer = Buffer::new(random, room);
    let answer = calls::iff_clean_copy(file, buffer.slice(), &mut place, &mut length);
    let told = match &wanted {
        Ok(copy) => [0, 0, copy.len()],
        Err(refused) => [refused.number, refused.place, 0],
    };
    same("number, place, length", [answer, place, length], told)?;
    buffer.compare(result)?;
    let mut buffer = Buffer::new(random, room);
    let ours = florinhado::clean_copy(file, buffer.slice());
    same("clean_copy", ours, wanted.as_ref().map(Vec::len).map_err(|refused| *refused))?;
    buffer.compare(result)?;
    Ok(answer)
}
