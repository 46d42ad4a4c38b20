//! All that the calls on one picture tell, by the library and by the second reader.

use crate::asked::Asked;
use crate::borrowed::refused;
use crate::dest::destination;
use crate::grab::hot_spot;
use crate::header::header;
use crate::picture_table::data_moved;
use crate::property::{origin, property};
use crate::row_answers::{ByNumber, BySecond, RowAnswers};
use florinhado::{Destination, File, Header, HotSpot, Origin, Picture, Property, Refused};

/// A property with its origin, or the refusal.
type Told<T> = Result<Property<T>, Refused>;

#[derive(Clone, Debug, PartialEq)]
pub struct Answers {
    header: Told<Header>,
    grab: Told<HotSpot>,
    destination: Told<Destination>,
    sprite: Told<u16>,
    view_mode: Told<u32>,
    /// The palette's bytes.
    palette: Told<Vec<u8>>,
    /// Where the CMAP that counts has its data in the file.
    extent: Option<(usize, usize)>,
    /// The palette as triples.
    triples: Result<[[u8; 3]; 64], Refused>,
    pub rows: RowAnswers,
}

impl Answers {
    pub fn of_library(file: &[u8], asked: &Asked) -> Answers {
        let picture = asked.picture;
        let palette = florinhado::palette(file, picture, &asked.default);
        Answers {
            header: florinhado::header(file, picture),
            grab: florinhado::grab(file, picture),
            destination: florinhado::destination(file, picture),
            sprite: florinhado::sprite(file, picture),
            view_mode: florinhado::view_mode(file, picture),
            extent: palette.ok().and_then(|told| extent(file, &told)),
            palette: palette.map(bytes),
            triples: florinhado::triples(file, picture, &asked.default),
            rows: RowAnswers::of(&ByNumber(file, picture), asked),
        }
    }

    /// By the table of pictures, the fields of a BMHD and the rows of a BODY: all that an opened file tells.
    pub fn of_opened(opened: &Result<File, Refused>, asked: &Asked) -> Answers {
        let no_such = Refused { number: 20, place: 0 };
        match opened.as_ref().map(|file| (file.bytes(), file.picture(asked.picture))) {
            Ok((file, Some(picture))) => Answers::of_picture(file, &picture, asked),
            Ok((_, None)) => Answers::all_refused(no_such, asked),
            Err(refused) => Answers::all_refused(*refused, asked),
        }
    }

    fn of_picture(file: &[u8], picture: &Picture, asked: &Asked) -> Answers {
        let palette = picture.palette(&asked.default);
        Answers {
            header: picture.header(),
            grab: picture.grab(),
            destination: picture.destination(),
            sprite: picture.sprite(),
            view_mode: picture.view_mode(),
            extent: palette.ok().and_then(|told| extent(file, &told)),
            palette: palette.map(bytes),
            triples: picture.triples(&asked.default),
            rows: RowAnswers::of(picture, asked),
        }
    }

    pub fn of_second(file: &[u8], asked: &Asked) -> Answers {
        let picture = asked.picture;
        let told = second::properties(file, picture).map_err(refused);
        let told = told.as_ref().map_err(|told| *told);
        let palette = second::palette(file, picture, &asked.default).map_err(refused);
        Answers {
            header: told
                .map(|told| Property { value: header(&told.header), origin: origin(told.header_origin) }),
            grab: told.map(|told| property(&told.grab, hot_spot)),
            destination: told.map(|told| property(&told.destination, destination)),
            sprite: told.map(|told| property(&told.precedence, |value| *value)),
            view_mode: told.map(|told| property(&told.view_modes, |value| *value)),
            extent: told
                .ok()
                .and_then(|told| told.colour_map.value.clone())
                .map(|range| (range.start, range.end)),
            palette: palette.and_then(|bytes| {
                told.map(|told| Property { value: bytes.to_vec(), origin: origin(told.colour_map.origin) })
            }),
            triples: second::triples(file, picture, &asked.default, 192).map_err(refused),
            rows: RowAnswers::of(&BySecond(file, picture), asked),
        }
    }

    /// Every call refuses, and what was lent is as it was.
    pub fn all_refused(refused: Refused, asked: &Asked) -> Answers {
        Answers {
            header: Err(refused),
            grab: Err(refused),
            destination: Err(refused),
            sprite: Err(refused),
            view_mode: Err(refused),
            palette: Err(refused),
            extent: None,
            triples: Err(refused),
            rows: RowAnswers::of(&refused, asked),
        }
    }

    /// The same with the places of shared PROPs and of the CMAP moved.
    pub fn moved(self, place: &impl Fn(usize) -> usize) -> Answers {
        Answers {
            header: moved(self.header, place),
            grab: moved(self.grab, place),
            destination: moved(self.destination, place),
            sprite: moved(self.sprite, place),
            view_mode: moved(self.view_mode, place),
            palette: moved(self.palette, place),
            extent: self
                .extent
                .map(|(from, to)| data_moved(from..to, place))
                .map(|part| (part.start, part.end)),
            ..self
        }
    }

    /// The place of each PROP that a property comes from.
    pub fn props(&self) -> Vec<usize> {
        let origins = [
            self.header.map(|told| told.origin),
            self.grab.map(|told| told.origin),
            self.destination.map(|told| told.origin),
            self.sprite.map(|told| told.origin),
            self.view_mode.map(|told| told.origin),
            self.palette.as_ref().map(|told| told.origin).map_err(|refused| *refused),
        ];
        let place = |origin| if let Ok(Origin::Shared(place)) = origin { Some(place) } else { None };
        origins.into_iter().filter_map(place).collect()
    }

    /// What the picture itself is refused with, or 0.
    pub fn number(&self) -> usize {
        self.header.map_or_else(|refused| refused.number, |_| 0)
    }
}

fn bytes(told: Property<&[u8]>) -> Property<Vec<u8>> {
    Property { value: told.value.to_vec(), origin: told.origin }
}

/// Where the palette's bytes lie in the file, unless they are the default's.
fn extent(file: &[u8], told: &Property<&[u8]>) -> Option<(usize, usize)> {
    let from = (told.value.as_ptr() as usize).wrapping_sub(file.as_ptr() as usize);
    (told.origin != Origin::Absent).then_some((from, from + told.value.len()))
}

fn moved<T>(told: Told<T>, place: &impl Fn(usize) -> usize) -> Told<T> {
    told.map(|told| match told.origin {
        Origin::Shared(at) => Property { origin: Origin::Shared(place(at)), ..told },
        _ => told,
    })
}
