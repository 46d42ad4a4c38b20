//! The palette of a picture.

use crate::answer::{answer, Refused};
use crate::calls;
use crate::properties::{Origin, Property};

/// The palette of the picture with this number, three bytes a colour: the CMAP
/// that counts, as a part of the file, or the default where none counts; or a
/// refusal [of a picture](crate#refusals-of-a-picture).
///
/// Each property is looked for by itself: here the nearest PROP has a CMAP, and
/// one further out the BMHD.
///
/// ```
/// use florinhado::Origin;
///
/// let file = include_bytes!("../../../samples/two_levels.iff");
/// let colours = florinhado::palette(file, 0, b"")?;
/// assert_eq!((&colours.value[3..6], colours.origin), (&[255, 0, 0][..], Origin::Shared(84)));
/// assert_eq!(florinhado::header(file, 0)?.origin, Origin::Shared(12));
/// # Ok::<(), florinhado::Refused>(())
/// ```
pub fn palette<'a>(file: &'a [u8], picture: usize, default: &'a [u8]) -> Result<Property<&'a [u8]>, Refused> {
    let (mut place, mut number, mut shared, mut from, mut to) = (0, 0, 0, 0, 0);
    let told = calls::ilbm_palette(file, picture, &mut place, &mut number, &mut shared, &mut from, &mut to);
    let origin = Origin::of(number, shared);
    let value = if origin == Origin::Absent { default } else { &file[from..to] };
    answer(told, place, Property { value, origin })
}
