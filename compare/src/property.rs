//! What the calls on a picture's properties have in common.

use crate::borrowed::{numbers, refused, same};
use crate::{Outcome, Subject};
use florinhado::{Origin, Property, Refused};
use second::random::Random;
use second::Properties;
use std::fmt::Debug;

/// A picture that is asked for, with what the second reader tells of it.
pub struct Asked<'a> {
    pub file: &'a [u8],
    pub picture: usize,
    wanted: Result<&'a Properties, Refused>,
}

/// The numbers that such a call tells beside its fields.
pub struct Told {
    pub answer: usize,
    pub place: usize,
    pub origin: usize,
    pub shared: usize,
}

impl Told {
    /// Any values, for the call to write over.
    pub fn any(random: &mut Random) -> Told {
        let [answer, place, origin, shared] = numbers(random);
        Told { answer, place, origin, shared }
    }
}

/// Compares one call on every picture that is asked for.
pub fn each_picture(subject: &Subject, mut compare: impl FnMut(&Asked) -> Outcome) -> Outcome {
    subject.pictures.iter().try_for_each(|(picture, told)| {
        let wanted = told.as_ref().map_err(|told| refused(*told));
        let asked = Asked { file: subject.file(), picture: *picture, wanted };
        compare(&asked).map_err(|text| format!("picture {picture}: {text}"))
    })
}

impl Asked<'_> {
    /// Compares all that was told with the property of the second reader, and
    /// with what the Rust binding gives.
    pub fn compare<T: Clone + Debug + Default + PartialEq>(
        &self,
        told: Told,
        value: T,
        bound: Result<Property<T>, Refused>,
        property: impl Fn(&Properties) -> Property<T>,
    ) -> Outcome {
        let wanted = self.wanted.map(property);
        let numbers = match &wanted {
            Ok(property) => [[0, 0], origin_numbers(property.origin)],
            Err(refused) => [[refused.number, refused.place], [0, 0]],
        };
        let fields = wanted.as_ref().map_or(T::default(), |property| property.value.clone());
        let ours = ([[told.answer, told.place], [told.origin, told.shared]], value);
        same("[number, place], [origin, shared], fields", ours, (numbers, fields))?;
        same("the binding", bound, wanted)
    }

    /// What the second reader tells.
    pub fn wanted(&self) -> Result<&Properties, Refused> {
        self.wanted
    }
}

/// The second reader's origin in the library's type.
pub fn origin(origin: second::Origin) -> Origin {
    match origin {
        second::Origin::Own => Origin::Own,
        second::Origin::Shared(place) => Origin::Shared(place),
        second::Origin::Absent => Origin::Absent,
    }
}

/// The origin and the PROP's place as the calls tell them.
pub fn origin_numbers(origin: Origin) -> [usize; 2] {
    match origin {
        Origin::Own => [1, 0],
        Origin::Shared(place) => [2, place],
        Origin::Absent => [0, 0],
    }
}

/// The second reader's property in the library's type.
pub fn property<T, U: Default>(told: &second::Property<T>, convert: impl Fn(&T) -> U) -> Property<U> {
    Property { value: told.value.as_ref().map(convert).unwrap_or_default(), origin: origin(told.origin) }
}
