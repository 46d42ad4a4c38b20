//! ilbm_palette.

use crate::borrowed::{numbers, refused, same};
use crate::numbers::OF_PROPERTY;
use crate::property::{each_picture, origin, origin_numbers, Asked, Told};
use crate::{Call, Outcome, Subject, Tally};
use florinhado::calls;
use second::random::Random;

const NAME: &str = "ilbm_palette";

pub const CALL: Call = Call { name: NAME, numbers: OF_PROPERTY, compare, run };

/// The file may have no such picture.
fn run(file: &[u8]) {
    let _ = florinhado::palette(file, file.len() / 25, b"");
}

fn compare(subject: &Subject, random: &mut Random, tally: &mut Tally) -> Outcome {
    each_picture(subject, |asked| {
        let mut told = Told::any(random);
        let [mut from, mut to] = numbers(random);
        told.answer = calls::ilbm_palette(
            asked.file,
            asked.picture,
            &mut told.place,
            &mut told.origin,
            &mut told.shared,
            &mut from,
            &mut to,
        );
        tally.add(NAME, told.answer);
        let wanted = match asked.wanted() {
            Ok(wanted) => {
                let part = wanted.colour_map.value.clone().unwrap_or_default();
                [[0, 0], origin_numbers(origin(wanted.colour_map.origin)), [part.start, part.end]]
            }
            Err(refused) => [[refused.number, refused.place], [0, 0], [0, 0]],
        };
        let ours = [[told.answer, told.place], [told.origin, told.shared], [from, to]];
        same("[number, place], [origin, shared], [from, to]", ours, wanted)?;
        bound(asked, &random.bytes(6))
    })
}

/// Compares the binding's palette: the part itself, of the file or of the
/// default, not only the same bytes.
fn bound(asked: &Asked, default: &[u8]) -> Outcome {
    let ours = florinhado::palette(asked.file, asked.picture, default);
    let wanted = second::palette(asked.file, asked.picture, default).map_err(refused);
    same("palette", ours.map(|palette| palette.value.as_ptr_range()), wanted.map(<[u8]>::as_ptr_range))?;
    let wanted = asked.wanted().map(|wanted| origin(wanted.colour_map.origin));
    same("palette's origin", ours.map(|palette| palette.origin), wanted)
}
