//! ilbm_triples.

use crate::borrowed::{numbers, refused, same, Buffer};
use crate::numbers::{HEADER, PICTURE, ROOM, STRUCTURE};
use crate::property::{each_picture, Asked};
use crate::{Call, Outcome, Subject, Tally};
use florinhado::{calls, Refused};
use second::generate::{default_palette, triples_room};
use second::random::Random;
use second::{Colouring, Rgb};

const NAME: &str = "ilbm_triples";

pub const CALL: Call = Call { name: NAME, numbers: &[STRUCTURE, PICTURE, HEADER, ROOM], compare, run };

/// The file may have no such picture.
fn run(file: &[u8]) {
    let _ = florinhado::triples(file, file.len() / 25, b"");
}

/// Compares the triples of every picture, in any room and as the binding gives them.
fn compare(subject: &Subject, random: &mut Random, tally: &mut Tally) -> Outcome {
    each_picture(subject, |asked| {
        let (default, length) = (default_palette(random), triples_room(random));
        let wanted = wanted(asked, &default, length);
        let result = wanted.as_ref().map_or(&[][..], |triples| triples.as_flattened());
        let told = wanted.as_ref().map_or_else(|refused| [refused.number, refused.place], |_| [0, 0]);
        let [mut place] = numbers(random);
        let (mut palette, mut room) = (Buffer::holding(random, &default), Buffer::new(random, length));
        let (lent, into) = (palette.slice(), room.slice());
        let number = calls::ilbm_triples(asked.file, asked.picture, lent, into, &mut place);
        tally.add(NAME, number);
        same("number, place", [number, place], told)?;
        room.compare(result)?;
        let wanted = self::wanted(asked, &default, 192);
        same("triples", florinhado::triples(asked.file, asked.picture, palette.slice()), wanted)?;
        palette.compare(&default)
    })
}

/// The triples by what the second reader told of the picture, without reading the file anew.
fn wanted(asked: &Asked, default: &[u8], room: usize) -> Result<[Rgb; 64], Refused> {
    let told = asked.wanted()?;
    let palette = told.colour_map.value.clone().map_or(default, |range| &asked.file[range]);
    let by = Colouring { view_modes: told.view_modes.value.unwrap_or(0), palette };
    second::palette_triples(&by, told.header.planes, room).map_err(refused)
}
