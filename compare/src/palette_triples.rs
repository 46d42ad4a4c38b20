//! ilbm_palette_triples.

use crate::borrowed::{refused, same, Buffer};
use crate::numbers::ROOM;
use crate::{Call, Outcome, Subject, Tally};
use florinhado::calls;
use second::generate::{default_palette, triples_mode, triples_room};
use second::random::Random;
use second::Colouring;

const NAME: &str = "ilbm_palette_triples";

pub const CALL: Call = Call { name: NAME, numbers: &[&[0], ROOM], compare, run };

/// The file's bytes are taken as a palette.
fn run(file: &[u8]) {
    let _ = florinhado::palette_triples(file, 6, 0x80);
}

/// The palette has nothing to do with the file.
fn compare(_: &Subject, random: &mut Random, tally: &mut Tally) -> Outcome {
    let (given, length) = (default_palette(random), triples_room(random));
    let (planes, modes) = triples_mode(random);
    let by = Colouring { view_modes: modes, palette: &given };
    let wanted = second::palette_triples(&by, planes, length).map_err(refused);
    let result = wanted.as_ref().map_or(&[][..], |triples| triples.as_flattened());
    let (mut palette, mut room) = (Buffer::holding(random, by.palette), Buffer::new(random, length));
    let number = calls::ilbm_palette_triples(palette.slice(), planes, modes, room.slice());
    tally.add(NAME, number);
    same("number", number, wanted.as_ref().map_or_else(|refused| refused.number, |_| 0))?;
    room.compare(result)?;
    let wanted = second::palette_triples(&by, planes, 192).map_err(refused);
    same("palette_triples", Ok(florinhado::palette_triples(palette.slice(), planes, modes)), wanted)?;
    palette.compare(by.palette)
}
