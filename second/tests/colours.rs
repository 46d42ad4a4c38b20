//! Scan lines and frames in colours, and triples: every mode, refusals 46, 28 and 32, and the order.

mod common;

use common::{chunk, form, header, refused};
use second::{body_colour_frame, body_colour_line, colour_frame, colour_line, palette_triples, triples};
use second::{Colouring, Frame, Layout, Refused, Rgb};

const HAM: u32 = 0x800;
const EHB: u32 = 0x80;

/// Two entries and a part of a third.
const TWO_AND_CUT: &[u8] = &[1, 2, 3, 4, 5, 7, 8, 9];

/// The plane rows of one line of these colour numbers.
fn rows(planes: u8, numbers: &[u8]) -> Vec<u8> {
    let mut rows = vec![0; numbers.len().div_ceil(16) * 2 * usize::from(planes)];
    let length = rows.len() / usize::from(planes);
    for (x, number) in numbers.iter().enumerate() {
        for plane in 0..usize::from(planes) {
            rows[plane * length + x / 8] |= (number >> plane & 1) << (7 - x % 8);
        }
    }
    rows
}

fn layout(planes: u8, width: usize) -> Layout {
    Layout { width: width as u16, planes, masking: 0, compression: 0 }
}

fn by(view_modes: u32) -> Colouring<'static> {
    Colouring { view_modes, palette: TWO_AND_CUT }
}

/// The colours of one line.
fn line(view_modes: u32, planes: u8, numbers: &[u8]) -> Vec<Rgb> {
    let body = rows(planes, numbers);
    let layout = layout(planes, numbers.len());
    let told = body_colour_line(&body, &layout, &by(view_modes), 0, 3 * numbers.len()).unwrap();
    assert_eq!(told.next, body.len());
    told.colours.as_chunks().0.to_vec()
}

/// "the two high bits choose 00 palette, 01 blue, 10 red, 11 green"; "Four data bits v become 17v".
#[test]
fn held_by_six_planes() {
    let shown = line(HAM, 6, &[0x2a, 0x01, 0x1f, 0x2a, 0x31, 0x02, 0x30]);
    let red = [[170, 0, 0], [4, 5, 7], [4, 5, 255], [170, 5, 255]];
    assert_eq!(shown[..4], red);
    assert_eq!(shown[4..], [[170, 17, 255], [0; 3], [0; 3]]);
    for v in 0..16 {
        let level = 17 * v;
        assert_eq!(line(HAM, 6, &[0x10 + v, 0x20 + v, 0x30 + v])[2], [level; 3]);
    }
}

/// "six become 4v + floor(v/16)".
#[test]
fn held_by_eight_planes() {
    let shown = line(HAM, 8, &[0xbf, 0x4f, 0xd0, 0x00]);
    assert_eq!(shown, [[255, 0, 0], [255, 0, 60], [255, 65, 60], [1, 2, 3]]);
    for v in 0..64 {
        let level = 4 * v + v / 16;
        assert_eq!(line(HAM, 8, &[0x40 + v, 0x80 + v, 0xc0 + v])[2], [level; 3]);
    }
}

/// "CAMG bit 7 with 6 planes and no bit 11 is half-bright"; "each part halved, rounded down".
#[test]
fn half_bright() {
    assert_eq!(line(EHB, 6, &[1, 33, 34, 32]), [[4, 5, 7], [2, 2, 3], [0; 3], [0, 1, 1]]);
    assert_eq!(line(HAM | EHB, 6, &[1, 33]), [[4, 5, 7], [17, 5, 7]]);
    for planes in [7, 8] {
        assert_eq!(line(EHB, planes, &[1, 33]), [[4, 5, 7], [0; 3]]);
    }
    let whole: Vec<u8> = (0..192).collect();
    let bright = Colouring { view_modes: EHB, palette: &whole };
    let told = body_colour_line(&rows(6, &[40, 8]), &layout(6, 2), &bright, 0, 6).unwrap();
    assert_eq!(told.colours, [12, 12, 13, 24, 25, 26]);
}

/// Other bits of CAMG say nothing of colours.
#[test]
fn through_the_palette() {
    for modes in [0, 4, 0x8000, 0x8004, 0x400, 0x1000, 0x40, 0x100, 0xffff_f77f] {
        assert_eq!(line(modes, 6, &[1, 33, 2, 0]), [[4, 5, 7], [0; 3], [0; 3], [1, 2, 3]]);
    }
    for planes in 1..=8 {
        assert_eq!(line(0, planes, &[1, 0]), [[4, 5, 7], [1, 2, 3]]);
    }
}

/// "each line starts from (0, 0, 0)": neither from the line before nor from the border's colour.
#[test]
fn lines_start_from_black() {
    let body = [rows(6, &[0x01, 0x2a]), rows(6, &[0x1f, 0x30])].concat();
    let told = body_colour_frame(&body, &layout(6, 2), &by(HAM), 2, 12);
    assert_eq!(told, Ok(Frame { colours: vec![4, 5, 7, 170, 5, 7, 0, 0, 255, 0, 0, 255], leftover: 0 }));
}

/// The file's own CAMG, and its CMAP or else the default.
#[test]
fn of_a_picture() {
    let modes = |modes: u32| chunk("CAMG", &modes.to_be_bytes());
    let map = chunk("CMAP", &[9, 9, 9, 8, 8, 8]);
    let body = chunk("BODY", &rows(6, &[1, 33]));
    let file = form(&[header(2, 1, 6, 0, 0), modes(EHB), body.clone()]);
    assert_eq!(colour_frame(&file, 0, TWO_AND_CUT, 6).unwrap().colours, [4, 5, 7, 2, 2, 3]);
    assert_eq!(triples(&file, 0, TWO_AND_CUT, 192).unwrap()[33], [2, 2, 3]);
    let file = form(&[header(2, 1, 6, 0, 0), modes(HAM), map.clone(), body.clone()]);
    assert_eq!(colour_line(&file, 0, 0, TWO_AND_CUT, 6).unwrap().colours, [8, 8, 8, 17, 8, 8]);
    assert_eq!(triples(&file, 0, TWO_AND_CUT, 192).unwrap()[..3], [[9; 3], [8; 3], [0; 3]]);
    let file = form(&[header(2, 1, 6, 0, 0), map, body]);
    assert_eq!(colour_frame(&file, 0, b"", 6).unwrap().colours, [8, 8, 8, 0, 0, 0]);
    let bare = form(&[header(2, 1, 5, 0, 0), modes(HAM)]);
    assert_eq!(colour_line(&bare, 0, 0, b"", 6), refused(25, 0));
    assert_eq!(triples(&bare, 0, b"abcd", 192).unwrap()[..2], [*b"abc", [0; 3]]);
    assert_eq!(triples(&bare, 0, b"", 191), refused(32, 0));
    assert_eq!(triples(&bare, 1, b"", 0), refused(20, 0));
}

/// "Asked of another picture, the triples are its palette's first 64".
#[test]
fn triples_of_each_mode() {
    let whole: Vec<u8> = (0..=255).chain(0..=255).collect();
    for (modes, planes, half) in
        [(EHB, 6, true), (HAM | EHB, 6, false), (EHB, 5, false), (0, 6, false), (HAM, 5, false)]
    {
        let by = Colouring { view_modes: modes, palette: &whole };
        let told = palette_triples(&by, planes, 300).unwrap();
        assert_eq!((told[1], told[31]), ([3, 4, 5], [93, 94, 95]));
        let known = if half { [[1, 2, 2], [46, 47, 47]] } else { [[99, 100, 101], [189, 190, 191]] };
        assert_eq!([told[33], told[63]], known);
    }
    assert_eq!(palette_triples(&by(EHB), 6, 191), refused(32, 0));
}

/// "46 for bit 11 with other plane counts, after 25; 28 if the lent row isn't 3w bytes".
#[test]
fn order_of_refusals() {
    let line = |layout: &Layout, modes, start, row| {
        let told = body_colour_line(b"", layout, &by(modes), start, row);
        told.map_err(|Refused { number, .. }| number).unwrap_err()
    };
    let five = layout(5, 3);
    assert_eq!(line(&Layout { planes: 9, ..five }, HAM, 1, 1), 41);
    assert_eq!(line(&Layout { masking: 4, compression: 2, ..five }, HAM, 1, 1), 42);
    assert_eq!(line(&Layout { compression: 2, width: 0, ..five }, HAM, 1, 1), 43);
    assert_eq!(line(&Layout { width: 0, ..five }, HAM, 1, 1), 24);
    for planes in [1, 2, 3, 4, 5, 7] {
        assert_eq!(line(&Layout { planes, ..five }, HAM, 1, 1), 46);
        assert_eq!(line(&Layout { planes, ..five }, EHB, 1, 1), 29);
    }
    for row in [0, 3, 8, 10] {
        assert_eq!(line(&layout(6, 3), HAM, 0, row), 28);
        assert_eq!(body_colour_frame(b"", &layout(6, 3), &by(HAM), 1, row), refused(28, 0));
    }
    assert_eq!(line(&layout(6, 3), HAM, 0, 9), 26);
    assert_eq!(body_colour_frame(b"", &five, &by(HAM), 0, 9), refused(24, 0));
    assert_eq!(body_colour_frame(b"", &five, &by(HAM), 1, 0), refused(46, 0));
    let packed = Layout { compression: 1, ..layout(8, 9) };
    assert_eq!(body_colour_line(b"\xfe\x01", &packed, &by(HAM), 0, 27), refused(27, 0));
}
