//! `bench [PART]`: times of the library beside the second reader and plain
//! programs in Rust, each line in turns in one run, as medians. Of the parts
//! structure, frames, shapes, colours, rows, pictures and growth the one that is
//! named, or all. Where the variable OUTSIDE names the shared object of
//! `libavcodec.c`, frames are timed beside libavcodec too, and colours beside
//! libavcodec and libswscale. Fails if something takes more than 2.3 times as long
//! for twice the input, a call on a picture inside many PROPs more than twice the
//! check, or a frame with its shape, one in colours or many pictures of a file far
//! more than they may.

mod brushes;
mod coloured;
mod drawn;
mod frames;
mod listing;
mod outside;
mod packing;
mod pictures;
mod structure;
mod timing;
mod writing;

use outside::Outside;
use std::process::ExitCode;

/// The most that twice the input may take.
const GREATEST_GROWTH: f64 = 2.3;

/// The most that a call on a picture inside many PROPs may take, of the check.
const GREATEST_SEARCH: f64 = 2.0;

fn main() -> ExitCode {
    let named = std::env::args().nth(1);
    let asked = |part: &str| named.as_deref().is_none_or(|name| name == part);
    let mut within = true;
    if asked("structure") {
        structure::against_others();
        within &=
            at_most("a picture inside many PROPs, of the check", structure::through_lists(), GREATEST_SEARCH);
        listing::against_others();
    }
    let outside = std::env::var("OUTSIDE").ok().map(|name| Outside::load(&name));
    if asked("frames") {
        frames::against_others(outside.as_ref());
    }
    if asked("shapes") {
        within &= brushes::within_limits();
    }
    if asked("colours") {
        within &= coloured::within_limits(outside.as_ref());
    }
    if asked("rows") {
        packing::against_others();
        writing::against_others();
    }
    if asked("pictures") {
        within &= pictures::within_limits();
    }
    if asked("growth") {
        timing::growth_heading();
        let frames = frames::growth().max(brushes::growth()).max(coloured::growth());
        let rows = packing::growth().max(writing::growth());
        let greatest = frames.max(rows).max(structure::growth());
        within &= at_most("twice the input", greatest, GREATEST_GROWTH);
    }
    ExitCode::from(u8::from(!within))
}

/// The most that a time may be beyond what is wanted, with other processes beside.
const MARGIN: f64 = 1.15;

/// Whether a ratio is within what is wanted, with a margin; tells if it isn't.
fn within(what: &str, ratio: f64, wanted: f64) -> bool {
    at_most(what, ratio, wanted * MARGIN)
}

fn at_most(what: &str, ratio: f64, greatest: f64) -> bool {
    if ratio > greatest {
        println!("{what}: {ratio:.2} times as long, more than {greatest:.2}");
    }
    ratio <= greatest
}
