//! How often a picture was shown with each kind of shape.

use crate::{Kinds, Subject};
use second::{Header, Lent};

const OPAQUE: &str = "masking 0";
const MASK: &str = "a mask plane";
const THERE: &str = "a transparent colour that is there";
const NOT_THERE: &str = "one that isn't";
const BEYOND: &str = "one over 255";
const LASSO: &str = "a lasso";

pub fn none() -> Kinds {
    Kinds::none("shapes", &[OPAQUE, MASK, THERE, NOT_THERE, BEYOND, LASSO])
}

/// Counts every picture that was asked for and is shown, or refused for its lasso alone.
pub fn count(kinds: &mut Kinds, subject: &Subject) {
    for (picture, told) in &subject.pictures {
        let Ok(Header { width, height, masking, transparent_color, .. }) =
            told.as_ref().map(|told| told.header)
        else {
            continue;
        };
        let pixels = usize::from(width) * usize::from(height);
        let lent = Lent { colours: pixels, shape: pixels };
        let shape = second::shape_frame(subject.file(), *picture, lent).map(|frame| frame.shape);
        kinds.add(match (shape, masking) {
            (Ok(_), 0) => OPAQUE,
            (Ok(shape), 1) if shape.contains(&0) && shape.contains(&1) => MASK,
            (Ok(shape), 2) if shape.contains(&0) => THERE,
            (Ok(_), 2) => [NOT_THERE, BEYOND][usize::from(transparent_color > 255)],
            (Err(refused), _) if refused.number == 44 => LASSO,
            _ => continue,
        });
    }
}
