//! Answers that all calls share.

/// A refusal: its number and the place told with it.
#[derive(Clone, Copy, Debug, PartialEq, Eq, Hash)]
pub struct Refused {
    pub number: u32,
    pub place: usize,
}

impl Refused {
    pub(crate) fn at(number: u32, place: usize) -> Refused {
        Refused { number, place }
    }

    pub(crate) fn plain(number: u32) -> Refused {
        Refused::at(number, 0)
    }
}

/// What acceptance tells of a file.
#[derive(Clone, Copy, Debug, PartialEq, Eq)]
pub struct Accepted {
    pub chunks: usize,
    pub end: usize,
    pub trailing: usize,
}
