//! iff_check.

use crate::borrowed::{numbers, refused, same};
use crate::numbers::STRUCTURE;
use crate::{Call, Outcome, Subject, Tally};
use florinhado::{calls, Accepted};
use second::random::Random;

const NAME: &str = "iff_check";

pub const CALL: Call = Call { name: NAME, numbers: &[STRUCTURE], compare, run };

fn run(file: &[u8]) {
    florinhado::check(file).unwrap();
}

fn compare(subject: &Subject, random: &mut Random, tally: &mut Tally) -> Outcome {
    let file = subject.file();
    let wanted = second::check(file).map_err(refused);
    let [mut place, mut chunks, mut end, mut trailing] = numbers(random);
    let number = calls::iff_check(file, &mut place, &mut chunks, &mut end, &mut trailing);
    tally.add(NAME, number);
    let told = match wanted {
        Ok(accepted) => [0, 0, accepted.chunks, accepted.end, accepted.trailing],
        Err(refused) => [refused.number, refused.place, 0, 0, 0],
    };
    same("number, place, chunks, end, trailing", [number, place, chunks, end, trailing], told)?;
    let accepted = |a: second::Accepted| Accepted { chunks: a.chunks, end: a.end, trailing: a.trailing };
    same("check", florinhado::check(file), wanted.map(accepted))
}
