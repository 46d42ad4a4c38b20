//! ilbm_grab.

use crate::numbers::OF_PROPERTY;
use crate::property::{each_picture, property, Told};
use crate::{Call, Outcome, Subject, Tally};
use florinhado::{calls, HotSpot};
use second::random::Random;

const NAME: &str = "ilbm_grab";

pub const CALL: Call = Call { name: NAME, numbers: OF_PROPERTY, compare, run };

/// The file may have no such picture.
fn run(file: &[u8]) {
    let _ = florinhado::grab(file, file.len() / 25);
}

fn compare(subject: &Subject, random: &mut Random, tally: &mut Tally) -> Outcome {
    each_picture(subject, |asked| {
        let mut told = Told::any(random);
        let mut value = HotSpot { x: random.word() as i16, y: random.word() as i16 };
        told.answer = calls::ilbm_grab(
            asked.file,
            asked.picture,
            &mut told.place,
            &mut value.x,
            &mut value.y,
            &mut told.origin,
            &mut told.shared,
        );
        tally.add(NAME, told.answer);
        let bound = florinhado::grab(asked.file, asked.picture);
        asked.compare(told, value, bound, |wanted| property(&wanted.grab, hot_spot))
    })
}

/// The second reader's fields in the library's type.
pub fn hot_spot(told: &second::Grab) -> HotSpot {
    HotSpot { x: told.x, y: told.y }
}
