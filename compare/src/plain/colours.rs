//! Colours of colour numbers, pixel by pixel.

use second::{Colouring, Header, Rgb};

/// Makes three bytes of each colour number of a frame, line by line. The view
/// modes must be such as the planes allow.
pub fn colours(header: &Header, by: &Colouring, numbers: &[u8], frame: &mut [u8]) {
    let width = usize::from(header.width);
    let palette = palette(header, by);
    let lines = numbers.chunks_exact(width).zip(frame.chunks_exact_mut(3 * width));
    for (numbers, pixels) in lines {
        if is_held(by) {
            hold(header.planes - 2, &palette, numbers, pixels);
        } else {
            look_up(&palette, numbers, pixels);
        }
    }
}

pub(super) fn is_held(by: &Colouring) -> bool {
    by.view_modes >> 11 & 1 == 1
}

/// The colour of each number: its entry, in a half-bright picture from 32 on a half.
pub(super) fn palette(header: &Header, by: &Colouring) -> [Rgb; 256] {
    let mut palette = [[0; 3]; 256];
    for (colour, entry) in palette.iter_mut().zip(by.palette.chunks_exact(3)) {
        colour.copy_from_slice(entry);
    }
    if header.planes == 6 && by.view_modes >> 7 & 1 == 1 && !is_held(by) {
        for number in 32..64 {
            palette[number] = palette[number - 32].map(|part| part / 2);
        }
    }
    palette
}

/// A part of so many bits as one of eight.
pub(super) fn level(bits: u8, data: u8) -> u8 {
    if bits == 4 {
        17 * data
    } else {
        4 * data + data / 16
    }
}

fn look_up(palette: &[Rgb; 256], numbers: &[u8], pixels: &mut [u8]) {
    for (number, pixel) in numbers.iter().zip(pixels.chunks_exact_mut(3)) {
        pixel.copy_from_slice(&palette[usize::from(*number)]);
    }
}

fn hold(bits: u8, palette: &[Rgb; 256], numbers: &[u8], pixels: &mut [u8]) {
    let mut held = [0; 3];
    for (number, pixel) in numbers.iter().zip(pixels.chunks_exact_mut(3)) {
        let data = number & ((1 << bits) - 1);
        match number >> bits {
            0 => held = palette[usize::from(data)],
            1 => held[2] = level(bits, data),
            2 => held[0] = level(bits, data),
            _ => held[1] = level(bits, data),
        }
        pixel.copy_from_slice(&held);
    }
}
