//! The properties of a picture.

use crate::answer::{answer, Refused};
use crate::calls;

/// Where a property comes from.
#[derive(Clone, Copy, Debug, PartialEq, Eq, Hash)]
pub enum Origin {
    /// The FORM itself.
    Own,
    /// The PROP at this place, that of the nearest LIST whose PROP ILBM has the property.
    Shared(usize),
    /// Nowhere: no such property counts.
    Absent,
}

impl Origin {
    pub(crate) fn of(number: usize, shared: usize) -> Origin {
        match number {
            1 => Origin::Own,
            2 => Origin::Shared(shared),
            _ => Origin::Absent,
        }
    }
}

/// A property with its origin. The fields of an absent one are 0.
#[derive(Clone, Copy, Debug, PartialEq, Eq, Hash)]
pub struct Property<T> {
    /// The fields.
    pub value: T,
    /// Where they come from.
    pub origin: Origin,
}

/// The fields of BMHD.
#[derive(Clone, Copy, Debug, Default, PartialEq, Eq, Hash)]
pub struct Header {
    /// Pixels in a row.
    pub width: u16,
    /// Rows.
    pub height: u16,
    /// The picture's place on its page, from the left.
    pub x: i16,
    /// The picture's place on its page, from the top.
    pub y: i16,
    /// Planes, without a mask.
    pub planes: u8,
    /// 0 none, 1 a mask plane, 2 a transparent colour, 3 lasso.
    pub masking: u8,
    /// 0 none, 1 ByteRun1.
    pub compression: u8,
    /// A byte without meaning.
    pub pad1: u8,
    /// The colour number of masking 2 and 3.
    pub transparent: u16,
    /// The width of a pixel beside its height.
    pub x_aspect: u8,
    /// The height of a pixel beside its width.
    pub y_aspect: u8,
    /// The width of the page.
    pub page_width: i16,
    /// The height of the page.
    pub page_height: i16,
}

/// The hot spot of GRAB, from the picture's upper left corner.
#[derive(Clone, Copy, Debug, Default, PartialEq, Eq, Hash)]
pub struct HotSpot {
    /// To the right.
    pub x: i16,
    /// Down.
    pub y: i16,
}

/// The fields of DEST.
#[derive(Clone, Copy, Debug, Default, PartialEq, Eq, Hash)]
pub struct Destination {
    /// Planes of the destination.
    pub depth: u8,
    /// A byte without meaning.
    pub pad1: u8,
    /// The planes that the picture's planes go to.
    pub plane_pick: u16,
    /// What the other planes are filled with.
    pub plane_on_off: u16,
    /// The planes that may be written to.
    pub plane_mask: u16,
}

/// The BMHD that counts for the picture with this number, or a refusal
/// [of a picture](crate#refusals-of-a-picture).
///
/// ```
/// let refused = florinhado::header(b"FORM\0\0\0\x04ILBM", 0).unwrap_err();
/// assert_eq!((refused.number, refused.place), (21, 0));
/// ```
pub fn header(file: &[u8], picture: usize) -> Result<Property<Header>, Refused> {
    let (mut place, mut origin, mut shared) = (0, 0, 0);
    let mut value = Header::default();
    let told = calls::ilbm_header(
        file,
        picture,
        &mut place,
        &mut value.width,
        &mut value.height,
        &mut value.x,
        &mut value.y,
        &mut value.planes,
        &mut value.masking,
        &mut value.compression,
        &mut value.pad1,
        &mut value.transparent,
        &mut value.x_aspect,
        &mut value.y_aspect,
        &mut value.page_width,
        &mut value.page_height,
        &mut origin,
        &mut shared,
    );
    answer(told, place, Property { value, origin: Origin::of(origin, shared) })
}

/// The fields of a BMHD by its bytes alone; 23 if it hasn't 20.
///
/// ```
/// let data = [0, 3, 0, 1, 0, 0, 0, 0, 2, 0, 1, 0, 0, 0, 10, 11, 1, 64, 0, 200];
/// let fields = florinhado::bmhd(&data)?;
/// assert_eq!((fields.width, fields.height, fields.planes, fields.page_width), (3, 1, 2, 320));
/// assert_eq!(florinhado::bmhd(&data[1..]).unwrap_err().number, 23);
/// # Ok::<(), florinhado::Refused>(())
/// ```
pub fn bmhd(data: &[u8]) -> Result<Header, Refused> {
    let mut value = Header::default();
    let told = calls::ilbm_bmhd(
        data,
        &mut value.width,
        &mut value.height,
        &mut value.x,
        &mut value.y,
        &mut value.planes,
        &mut value.masking,
        &mut value.compression,
        &mut value.pad1,
        &mut value.transparent,
        &mut value.x_aspect,
        &mut value.y_aspect,
        &mut value.page_width,
        &mut value.page_height,
    );
    answer(told, 0, value)
}

/// The GRAB that counts for the picture with this number, or a refusal
/// [of a picture](crate#refusals-of-a-picture).
pub fn grab(file: &[u8], picture: usize) -> Result<Property<HotSpot>, Refused> {
    let (mut place, mut origin, mut shared) = (0, 0, 0);
    let mut value = HotSpot::default();
    let (x, y) = (&mut value.x, &mut value.y);
    let told = calls::ilbm_grab(file, picture, &mut place, x, y, &mut origin, &mut shared);
    answer(told, place, Property { value, origin: Origin::of(origin, shared) })
}

/// The DEST that counts for the picture with this number, or a refusal
/// [of a picture](crate#refusals-of-a-picture).
pub fn destination(file: &[u8], picture: usize) -> Result<Property<Destination>, Refused> {
    let (mut place, mut origin, mut shared) = (0, 0, 0);
    let mut value = Destination::default();
    let told = calls::ilbm_dest(
        file,
        picture,
        &mut place,
        &mut value.depth,
        &mut value.pad1,
        &mut value.plane_pick,
        &mut value.plane_on_off,
        &mut value.plane_mask,
        &mut origin,
        &mut shared,
    );
    answer(told, place, Property { value, origin: Origin::of(origin, shared) })
}

/// The sprite precedence of the SPRT that counts for the picture with this
/// number, or a refusal [of a picture](crate#refusals-of-a-picture).
pub fn sprite(file: &[u8], picture: usize) -> Result<Property<u16>, Refused> {
    let (mut place, mut value, mut origin, mut shared) = (0, 0, 0, 0);
    let told = calls::ilbm_sprite(file, picture, &mut place, &mut value, &mut origin, &mut shared);
    answer(told, place, Property { value, origin: Origin::of(origin, shared) })
}

/// The view modes of the CAMG that counts for the picture with this number,
/// or a refusal [of a picture](crate#refusals-of-a-picture).
pub fn view_mode(file: &[u8], picture: usize) -> Result<Property<u32>, Refused> {
    let (mut place, mut value, mut origin, mut shared) = (0, 0, 0, 0);
    let told = calls::ilbm_view_mode(file, picture, &mut place, &mut value, &mut origin, &mut shared);
    answer(told, place, Property { value, origin: Origin::of(origin, shared) })
}
