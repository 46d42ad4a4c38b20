//! How often a picture was shown in colours of each mode.

use crate::{Kinds, Subject};
use second::Properties;

const BY_SIX: &str = "hold-and-modify with 6 planes";
const BY_EIGHT: &str = "with 8";
const WITH_BOTH: &str = "with 6 planes and bit 7 too";
const REFUSED: &str = "hold-and-modify with other planes";
const HALF: &str = "half-bright";
const NOT_HALF: &str = "bit 7 with other planes";
const PALETTE: &str = "the palette alone";
const STARTS: &str = "a line that starts by holding, where entry 0 and the line before are not black";
const BEYOND: &str = "a number beyond the palette";

pub fn none() -> Kinds {
    let all = [BY_SIX, BY_EIGHT, WITH_BOTH, REFUSED, HALF, NOT_HALF, PALETTE, STARTS, BEYOND];
    Kinds::none("colours", &all)
}

/// Counts every picture that was asked for and is shown in colours, or refused for its planes alone.
pub fn count(kinds: &mut Kinds, subject: &Subject) {
    for (picture, told) in &subject.pictures {
        let Ok(told) = told else { continue };
        let pixels = usize::from(told.header.width) * usize::from(told.header.height);
        let shown = second::colour_frame(subject.file(), *picture, b"", 3 * pixels);
        match shown.map(|frame| frame.colours).map_err(|refused| refused.number) {
            Ok(colours) => {
                let numbers = second::frame(subject.file(), *picture, pixels).map(|frame| frame.colours);
                count_shown(kinds, subject, told, &numbers.unwrap_or_default(), &colours);
            }
            Err(46) => kinds.add(REFUSED),
            Err(_) => {}
        }
    }
}

fn count_shown(kinds: &mut Kinds, subject: &Subject, told: &Properties, numbers: &[u8], colours: &[u8]) {
    let modes = told.view_modes.value.unwrap_or(0);
    let (planes, bits) = (told.header.planes, [11, 7].map(|bit| modes >> bit & 1));
    kinds.add(match (bits, planes) {
        ([1, 1], 6) => WITH_BOTH,
        ([1, _], 6) => BY_SIX,
        ([1, _], _) => BY_EIGHT,
        ([_, 1], 6) => HALF,
        ([_, 1], _) => NOT_HALF,
        _ => PALETTE,
    });
    let palette = told.colour_map.value.clone().map_or(&[][..], |part| &subject.file()[part]);
    let width = usize::from(told.header.width);
    let border = palette.first_chunk::<3>().is_some_and(|entry| *entry != [0; 3]);
    let held = |(line, before): (&[u8], &[u8])| line[0] >> (planes - 2) != 0 && !before.ends_with(&[0; 3]);
    let mut lines = numbers.chunks(width).skip(1).zip(colours.chunks(3 * width));
    if bits[0] == 1 && border && lines.any(held) {
        kinds.add(STARTS);
    }
    if bits[0] == 0 && numbers.iter().any(|number| usize::from(*number) >= palette.len() / 3) {
        kinds.add(BEYOND);
    }
}
