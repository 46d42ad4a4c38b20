//! ilbm_sprite.

use crate::numbers::OF_PROPERTY;
use crate::property::{each_picture, property, Told};
use crate::{Call, Outcome, Subject, Tally};
use florinhado::calls;
use second::random::Random;

const NAME: &str = "ilbm_sprite";

pub const CALL: Call = Call { name: NAME, numbers: OF_PROPERTY, compare, run };

/// The file may have no such picture.
fn run(file: &[u8]) {
    let _ = florinhado::sprite(file, file.len() / 25);
}

fn compare(subject: &Subject, random: &mut Random, tally: &mut Tally) -> Outcome {
    each_picture(subject, |asked| {
        let mut told = Told::any(random);
        let mut value = random.word() as u16;
        told.answer = calls::ilbm_sprite(
            asked.file,
            asked.picture,
            &mut told.place,
            &mut value,
            &mut told.origin,
            &mut told.shared,
        );
        tally.add(NAME, told.answer);
        let bound = florinhado::sprite(asked.file, asked.picture);
        asked.compare(told, value, bound, |wanted| property(&wanted.precedence, |value| *value))
    })
}
