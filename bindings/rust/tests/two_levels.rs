//! Forty pictures in a LIST of a LIST: the outer PROP has BMHD and CMAP, the
//! inner one only a CMAP. Each is shown by the outer header in the inner colours.

use florinhado::{count_pictures, frame, grab, header, palette, Origin};

const FILE: &[u8] = include_bytes!("../../../samples/two_levels.iff");
const OUTER: Origin = Origin::Shared(12);
const INNER: Origin = Origin::Shared(84);

/// The red, green and blue of each pixel.
fn shown(picture: usize) -> Vec<u8> {
    let told = header(FILE, picture).unwrap();
    assert_eq!((told.value.width, told.value.height, told.origin), (8, 2, OUTER));
    let colours = palette(FILE, picture, b"").unwrap();
    assert_eq!((colours.value.len(), colours.origin), (12, INNER));
    assert_eq!(grab(FILE, picture).unwrap().origin, Origin::Absent);
    let mut numbers = [9; 16];
    assert_eq!(frame(FILE, picture, &mut numbers), Ok(0));
    numbers.iter().flat_map(|number| colours.value[usize::from(*number) * 3..][..3].to_vec()).collect()
}

/// The colours by the bits that the sample's maker put into the planes.
fn drawn(picture: u8) -> Vec<u8> {
    let colours = [[0, 0, 0], [255, 0, 0], [0, 255, 0], [0, 0, 255]];
    let lines = [(picture, picture.wrapping_mul(6)), (255 - picture, picture.wrapping_mul(3))];
    let pixel =
        |low: u8, high: u8, x: usize| colours[usize::from(low >> (7 - x) & 1 | (high >> (7 - x) & 1) << 1)];
    lines
        .iter()
        .flat_map(|(low, high)| (0..8).flat_map(|x| pixel(*low, *high, x)).collect::<Vec<u8>>())
        .collect()
}

#[test]
fn outer_header_and_inner_colours() {
    assert_eq!(count_pictures(FILE), Ok(40));
    for picture in 0..40 {
        assert_eq!(shown(picture), drawn(picture as u8), "picture {picture}");
    }
    assert_eq!(header(FILE, 40).unwrap_err().number, 20);
}
