//! `sample picture` writes the sample picture to standard output, by the second
//! reader's writer; `sample list` writes the listing of standard input.

use second::{listing_text, write_picture, Fields};
use std::io::{Error, Read, Write};

const WIDTH: usize = 37;
const HEIGHT: usize = 24;

/// Rings of fifteen colours around the middle, on colour 0.
fn colour(x: usize, y: usize) -> u8 {
    let far = |a: usize, b: usize| (2 * a + 1).abs_diff(b);
    let square = far(x, WIDTH).pow(2) + far(y, HEIGHT).pow(2);
    let ring = square.isqrt() * 15 / HEIGHT;
    15u8.saturating_sub(ring as u8)
}

fn picture() -> Vec<u8> {
    let fields = Fields {
        width: WIDTH as u16,
        height: HEIGHT as u16,
        x: 0,
        y: 0,
        planes: 4,
        masking: 0,
        compression: 1,
        transparent_color: 0,
        x_aspect: 10,
        y_aspect: 11,
        page_width: 320,
        page_height: 200,
    };
    let palette: Vec<u8> = (0..16).flat_map(|n| [n * 17, n * n, 255 - n * 17]).collect();
    let frame: Vec<u8> = (0..WIDTH * HEIGHT).map(|n| colour(n % WIDTH, n / WIDTH)).collect();
    write_picture(&fields, &palette, &frame, b"", usize::MAX).expect("a picture that can be written")
}

fn main() -> Result<(), Error> {
    let made = match std::env::args().nth(1).as_deref() {
        Some("picture") => picture(),
        Some("list") => {
            let mut file = Vec::new();
            std::io::stdin().read_to_end(&mut file)?;
            listing_text(&file)
        }
        _ => return Err(Error::other("use: sample picture | list")),
    };
    std::io::stdout().write_all(&made)
}
