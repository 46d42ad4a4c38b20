//! The calls that are compared.

use crate::{bmhd, body_frame, body_line, body_shape_frame, body_shape_line, picture_table};
use crate::{body_colour_frame, body_colour_line, colour_frame, colour_line, palette_triples, triples};
use crate::{check, copy, data, pictures, reader, record, table, Outcome, Subject, Tally};
use crate::{dest, frame, grab, header, line, pack, palette, sprite, view_mode, write};
use crate::{shape_frame, shape_line};
use second::random::Random;

/// One exported call.
pub struct Call {
    pub name: &'static str,
    /// Every number that it can answer, by sets.
    pub numbers: &'static [&'static [usize]],
    /// Makes the call on a file, in several ways if it takes more than the
    /// file, and compares all that it tells with what the second reader tells.
    pub compare: fn(&Subject, &mut Random, &mut Tally) -> Outcome,
    /// Makes the call once on an accepted file, to be timed.
    pub run: fn(&[u8]),
}

pub const CALLS: &[Call] = &[
    check::CALL,
    record::CALL,
    table::CALL,
    reader::CALL,
    data::CALL,
    copy::CALL,
    pictures::CALL,
    header::CALL,
    grab::CALL,
    dest::CALL,
    sprite::CALL,
    view_mode::CALL,
    palette::CALL,
    line::CALL,
    frame::CALL,
    shape_line::CALL,
    shape_frame::CALL,
    colour_line::CALL,
    colour_frame::CALL,
    triples::CALL,
    picture_table::CALL,
    bmhd::CALL,
    body_line::CALL,
    body_frame::CALL,
    body_shape_line::CALL,
    body_shape_frame::CALL,
    body_colour_line::CALL,
    body_colour_frame::CALL,
    palette_triples::CALL,
    pack::CALL,
    write::CALL,
];
