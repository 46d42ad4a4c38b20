//! ilbm_dest.

use crate::numbers::OF_PROPERTY;
use crate::property::{each_picture, property, Told};
use crate::{Call, Outcome, Subject, Tally};
use florinhado::{calls, Destination};
use second::random::Random;

const NAME: &str = "ilbm_dest";

pub const CALL: Call = Call { name: NAME, numbers: OF_PROPERTY, compare, run };

/// The file may have no such picture.
fn run(file: &[u8]) {
    let _ = florinhado::destination(file, file.len() / 25);
}

fn compare(subject: &Subject, random: &mut Random, tally: &mut Tally) -> Outcome {
    each_picture(subject, |asked| {
        let mut told = Told::any(random);
        let mut value = any_destination(random);
        told.answer = calls::ilbm_dest(
            asked.file,
            asked.picture,
            &mut told.place,
            &mut value.depth,
            &mut value.pad1,
            &mut value.plane_pick,
            &mut value.plane_on_off,
            &mut value.plane_mask,
            &mut told.origin,
            &mut told.shared,
        );
        tally.add(NAME, told.answer);
        let bound = florinhado::destination(asked.file, asked.picture);
        asked.compare(told, value, bound, |wanted| property(&wanted.destination, destination))
    })
}

fn any_destination(random: &mut Random) -> Destination {
    Destination {
        depth: random.word() as u8,
        pad1: random.word() as u8,
        plane_pick: random.word() as u16,
        plane_on_off: random.word() as u16,
        plane_mask: random.word() as u16,
    }
}

/// The second reader's fields in the library's type.
pub fn destination(told: &second::Destination) -> Destination {
    Destination {
        depth: told.depth,
        pad1: told.pad1,
        plane_pick: told.plane_pick,
        plane_on_off: told.plane_on_off,
        plane_mask: told.plane_mask,
    }
}
