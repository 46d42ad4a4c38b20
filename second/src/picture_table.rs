//! The table of pictures: thirty numbers for each.

use crate::answer::Refused;
use crate::name::Name;
use crate::picture::{all_pictures, data_range, Origin, Picture, Property, PROPERTIES};
use crate::tree::Tree;
use std::ops::Range;

/// All that the table tells of one picture, refused or not.
#[derive(Clone, Debug, PartialEq, Eq)]
pub struct PictureRow {
    /// 0, or what the picture is refused for.
    pub answer: u32,
    /// Where its FORM's header stands, and the FORM's type.
    pub place: usize,
    pub kind: Name,
    /// Where the data of BMHD, CMAP, GRAB, DEST, SPRT and CAMG lies; absent if it is refused.
    pub properties: [Property<Range<usize>>; 6],
    /// Where the BODY's data lies; none if it is refused.
    pub body: Option<Range<usize>>,
}

/// The rows of all pictures in file order, or 1 to 12.
pub fn picture_rows(file: &[u8]) -> Result<Vec<PictureRow>, Refused> {
    let tree = Tree::read(file)?;
    Ok(all_pictures(&tree.outermost).iter().map(|picture| row(file, picture)).collect())
}

/// Fills a table of numbers with the rows in order and returns how many there are, or 13 if it
/// has fewer places, of thirty numbers each.
pub fn fill_pictures(file: &[u8], table: &mut [usize]) -> Result<usize, Refused> {
    let rows = picture_rows(file)?;
    let mut places = table.chunks_exact_mut(PictureRow::NUMBERS);
    if places.len() < rows.len() {
        return Err(Refused::plain(13));
    }
    rows.iter().zip(&mut places).for_each(|(row, place)| place.copy_from_slice(&row.numbers()));
    Ok(rows.len())
}

impl PictureRow {
    pub const NUMBERS: usize = 30;

    /// Its answer, its FORM's place and type; for BMHD, CMAP, GRAB, DEST, SPRT, CAMG in this order the origin,
    /// the PROP's place, from, to; then 1 or 0 for a BODY, its from, its to.
    pub fn numbers(&self) -> [usize; PictureRow::NUMBERS] {
        let kind = u32::from_be_bytes(self.kind.0) as usize;
        let mut numbers = vec![self.answer as usize, self.place, kind];
        for property in &self.properties {
            let (origin, shared) = match property.origin {
                Origin::Absent => (0, 0),
                Origin::Own => (1, 0),
                Origin::Shared(place) => (2, place),
            };
            let data = property.value.clone().unwrap_or(0..0);
            numbers.extend([origin, shared, data.start, data.end]);
        }
        let body = self.body.clone().unwrap_or(0..0);
        numbers.extend([usize::from(self.body.is_some()), body.start, body.end]);
        numbers.try_into().expect("thirty numbers")
    }
}

/// Of a refused picture its answer, place and type are told, and the rest is 0.
fn row(file: &[u8], picture: &Picture) -> PictureRow {
    let told = picture.properties(file);
    let properties = match told {
        Ok(_) => PROPERTIES.map(|name| picture.property(name).map(data_range)),
        Err(_) => PROPERTIES.map(|_| Property { origin: Origin::Absent, value: None }),
    };
    PictureRow {
        answer: told.as_ref().map_or_else(|refused| refused.number, |_| 0),
        place: picture.form.place,
        kind: picture.form.name,
        properties,
        body: told.ok().and_then(|told| told.body),
    }
}
