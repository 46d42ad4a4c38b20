//! iff_count_pictures.

use crate::borrowed::{numbers, refused, same};
use crate::numbers::STRUCTURE;
use crate::{Call, Outcome, Subject, Tally};
use florinhado::calls;
use second::random::Random;

const NAME: &str = "iff_count_pictures";

pub const CALL: Call = Call { name: NAME, numbers: &[STRUCTURE], compare, run };

fn run(file: &[u8]) {
    florinhado::count_pictures(file).unwrap();
}

fn compare(subject: &Subject, random: &mut Random, tally: &mut Tally) -> Outcome {
    let file = subject.file();
    let wanted = second::count_pictures(file).map_err(refused);
    let [mut place, mut pictures] = numbers(random);
    let number = calls::iff_count_pictures(file, &mut place, &mut pictures);
    tally.add(NAME, number);
    let told = match wanted {
        Ok(count) => [0, 0, count],
        Err(refused) => [refused.number, refused.place, 0],
    };
    same("number, place, pictures", [number, place, pictures], told)?;
    same("count_pictures", florinhado::count_pictures(file), wanted)
}
