//! ilbm_header.

use crate::numbers::OF_PROPERTY;
use crate::property::{each_picture, origin, Told};
use crate::{Call, Outcome, Subject, Tally};
use florinhado::{calls, Header, Property};
use second::random::Random;

const NAME: &str = "ilbm_header";

pub const CALL: Call = Call { name: NAME, numbers: OF_PROPERTY, compare, run };

/// The file may have no such picture.
fn run(file: &[u8]) {
    let _ = florinhado::header(file, file.len() / 25);
}

fn compare(subject: &Subject, random: &mut Random, tally: &mut Tally) -> Outcome {
    each_picture(subject, |asked| {
        let mut told = Told::any(random);
        let mut value = any_header(random);
        told.answer = calls::ilbm_header(
            asked.file,
            asked.picture,
            &mut told.place,
            &mut value.width,
            &mut value.height,
            &mut value.x,
            &mut value.y,
            &mut value.planes,
            &mut value.masking,
            &mut value.compression,
            &mut value.pad1,
            &mut value.transparent,
            &mut value.x_aspect,
            &mut value.y_aspect,
            &mut value.page_width,
            &mut value.page_height,
            &mut told.origin,
            &mut told.shared,
        );
        tally.add(NAME, told.answer);
        let bound = florinhado::header(asked.file, asked.picture);
        asked.compare(told, value, bound, |wanted| Property {
            value: header(&wanted.header),
            origin: origin(wanted.header_origin),
        })
    })
}

pub fn any_header(random: &mut Random) -> Header {
    Header {
        width: random.word() as u16,
        height: random.word() as u16,
        x: random.word() as i16,
        y: random.word() as i16,
        planes: random.word() as u8,
        masking: random.word() as u8,
        compression: random.word() as u8,
        pad1: random.word() as u8,
        transparent: random.word() as u16,
        x_aspect: random.word() as u8,
        y_aspect: random.word() as u8,
        page_width: random.word() as i16,
        page_height: random.word() as i16,
    }
}

/// The second reader's fields in the library's type.
pub fn header(told: &second::Header) -> Header {
    Header {
        width: told.width,
        height: told.height,
        x: told.x,
        y: told.y,
        planes: told.planes,
        masking: told.masking,
        compression: told.compression,
        pad1: told.pad1,
        transparent: told.transparent_color,
        x_aspect: told.x_aspect,
        y_aspect: told.y_aspect,
        page_width: told.page_width,
        page_height: told.page_height,
    }
}
