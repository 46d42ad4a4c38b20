//! The worked examples of the scope and of its two standards, by the compiled
//! library, with what is known of them. `files` hands the files on to be
//! compared with the second reader too.

use crate::borrowed::same;
use crate::chunks::{chunk, group, Fields};
use crate::Outcome;
use florinhado::{Header, Kind, Origin, Refused};

/// One scan line of so many planes, with this BODY.
fn line(width: u16, planes: u8, compression: u8, body: &[u8]) -> Vec<u8> {
    let fields = Fields { width, height: 1, planes, masking: 0, compression };
    group(b"FORM", b"ILBM", &[fields.bmhd(), chunk(b"BODY", body)].concat())
}

/// A scan line's file, and its colour numbers or its refusal.
type Line = (Vec<u8>, Result<Vec<u8>, Refused>);

/// The bits of these bytes as colour numbers.
fn bits(bytes: &[u8]) -> Vec<u8> {
    bytes.iter().flat_map(|byte| (0..8).rev().map(move |bit| byte >> bit & 1)).collect()
}

/// The scope's rows and picture, the decoder of 003 on each kind of code, and
/// the pixel that 003 draws, number 3 of its eight.
fn lines() -> Vec<Line> {
    let row = |width, body: &[u8], told: &[u8]| (line(width, 1, 1, body), Ok(bits(told)));
    let refused = |body: &[u8], number| (line(16, 1, 1, body), Err(Refused { number, place: 0 }));
    let planes = [0b10000011, 0b00110010, 0b10001001, 0b11010100, 0b01010111, 0b10011010];
    let body: Vec<u8> = planes.iter().flat_map(|byte| [*byte, 0]).collect();
    let pixel = |x: u8| (0..6).map(|k| (planes[k] >> (7 - x) & 1) << k).sum();
    let pixels: Vec<u8> = (0..8).map(pixel).collect();
    assert_eq!(pixels[3], 0b00111010);
    vec![
        row(32, &[0xfd, 0], &[0; 4]),
        row(32, &[0x80, 0xfd, 0], &[0; 4]),
        refused(&[0xfe, 7], 27),
        refused(&[1, 7], 26),
        row(32, &[0x80, 1, 0xaa, 0xbb, 0xff, 0xcc], &[0xaa, 0xbb, 0xcc, 0xcc]),
        row(1024, &[0x81, 0x5a], &[0x5a; 128]),
        (line(3, 2, 0, &[0xa0, 0, 0x60, 0]), Ok(vec![1, 2, 3])),
        (line(8, 6, 0, &body), Ok(pixels)),
    ]
}

/// What an outline tells of a chunk: level, kind, name, size.
type Told = (usize, Kind, &'static [u8; 4], usize);

const BMHD: Told = (2, Kind::Local, b"BMHD", 20);
const CMAP: Told = (2, Kind::Local, b"CMAP", 21);
const BODY: Told = (2, Kind::Local, b"BODY", 24_000);

/// BMHD and CMAP as 002 and 003 draw them: 320 by 200, 3 planes, 7 colours.
fn properties() -> Vec<u8> {
    let colours: Vec<u8> = (0..7).flat_map(|n| [32 * n, 0, 0]).collect();
    let fields = Fields { width: 320, height: 200, planes: 3, masking: 0, compression: 0 };
    [fields.bmhd(), chunk(b"CMAP", &colours)].concat()
}

/// The box diagrams with their outlines: one picture, and two in a LIST.
fn diagrams() -> [(Vec<u8>, Vec<Told>, Origin); 2] {
    let body = chunk(b"BODY", &[0; 24_000]);
    let one = group(b"FORM", b"ILBM", &[properties(), body.clone()].concat());
    let form = group(b"FORM", b"ILBM", &body);
    let prop = group(b"PROP", b"ILBM", &properties());
    let two = group(b"LIST", b"AAAA", &[prop, form.repeat(2)].concat());
    let inner = |told: Told| (3, told.1, told.2, told.3);
    let told = (2, Kind::Form, b"ILBM", 24_012);
    let outline = vec![
        (1, Kind::List, b"AAAA", 48_114),
        (2, Kind::Prop, b"ILBM", 62),
        inner(BMHD),
        inner(CMAP),
        told,
        inner(BODY),
        told,
        inner(BODY),
    ];
    let alone = vec![(1, Kind::Form, b"ILBM", 24_070), BMHD, CMAP, BODY];
    [(one, alone, Origin::Own), (two, outline, Origin::Shared(12))]
}

/// Each file of an example.
pub fn files() -> Vec<Vec<u8>> {
    let lines = lines().into_iter().map(|(file, _)| file);
    lines.chain(diagrams().into_iter().map(|(file, ..)| file)).collect()
}

/// Compares every example with what is known of it.
pub fn compare() -> Outcome {
    lines().into_iter().try_for_each(compare_line)?;
    diagrams().into_iter().try_for_each(compare_diagram)?;
    compare_packed()?;
    compare_written()?;
    compare_shapes()?;
    compare_colours()
}

fn compare_line((file, known): Line) -> Outcome {
    let width = florinhado::header(&file, 0).expect("a picture").value.width;
    let mut row = vec![9; usize::from(width)];
    let told = florinhado::frame(&file, 0, &mut row).map(|_| row);
    same("worked line", told, known)
}

fn compare_diagram((file, outline, origin): (Vec<u8>, Vec<Told>, Origin)) -> Outcome {
    let told = florinhado::check(&file).map(|told| (told.chunks, told.end, told.trailing));
    same("diagram", told, Ok((outline.len(), file.len(), 0)))?;
    for (number, known) in outline.iter().enumerate() {
        let record = florinhado::record(&file, number).map_err(|refused| refused.to_string())?;
        let known = (known.0, known.1, *known.2, known.3);
        same("outline", (record.level, record.kind, record.name, record.size), known)?;
    }
    let pictures = florinhado::count_pictures(&file).map_err(|refused| refused.to_string())?;
    same("pictures", pictures, if origin == Origin::Own { 1 } else { 2 })?;
    for picture in 0..pictures {
        let told = florinhado::header(&file, picture).map_err(|refused| refused.to_string())?;
        let fields = (told.value.width, told.value.height, told.value.planes, told.origin);
        same("fields", fields, (320, 200, 3, origin))?;
        let colours = florinhado::palette(&file, picture, b"").map(|told| (told.value[18], told.origin));
        same("palette", colours, Ok((192, origin)))?;
        let mut frame = vec![9; 64_000];
        same("leftover", florinhado::frame(&file, picture, &mut frame), Ok(0))?;
        same("frame", frame, vec![0; 64_000])?;
    }
    Ok(())
}

/// The scope's packed rows.
fn compare_packed() -> Outcome {
    let b = 0x2a;
    let rows: [(usize, &[u8]); 4] =
        [(2, &[1, b, b]), (128, &[0x81, b]), (129, &[0x81, b, 0, b]), (131, &[0x81, b, 0xfe, b])];
    for (length, known) in rows {
        let mut out = vec![9; 200];
        let told = florinhado::pack(&vec![b; length], &mut out);
        same("packed length", told, Ok(known.len()))?;
        same("packed row", &out[..known.len()], known)?;
    }
    Ok(())
}

/// The scope's picture, written: 52 bytes plain, 54 packed, and one byte less is 32.
fn compare_written() -> Outcome {
    for (compression, length) in [(0, 52), (1, 54)] {
        let fields = Header { width: 3, height: 1, planes: 2, compression, ..Header::default() };
        let write = |out: &mut [u8]| florinhado::write(&fields, b"", &[1, 2, 3], out);
        let mut out = vec![9; length];
        same("written length", write(&mut out), Ok(length))?;
        let mut colours = [9; 3];
        same("read back", florinhado::frame(&out, 0, &mut colours), Ok(0))?;
        same("colours read back", colours, [1, 2, 3])?;
        same("little room", write(&mut out[1..]), Err(Refused { number: 32, place: 0 }))?;
    }
    Ok(())
}

/// The scope's picture with each masking, and a mask row that shows the pixels at the sides: read, and
/// written to the same rows.
fn compare_shapes() -> Outcome {
    let body = [0xa0, 0, 0x60, 0, 0xa0, 0];
    let lasso = Refused { number: 44, place: 0 };
    let known = [
        (0, 2, Ok([1, 1, 1])),
        (1, 2, Ok([1, 0, 1])),
        (2, 2, Ok([1, 0, 1])),
        (2, 4, Ok([1, 1, 1])),
        (2, 256 + 2, Ok([1, 1, 1])),
        (3, 2, Err(lasso)),
    ];
    for (masking, transparent, shape) in known {
        let fields = Header { width: 3, height: 1, planes: 2, masking, transparent, ..Header::default() };
        let (rows, mask) = if masking == 1 { (&body[..], &[1, 0, 1][..]) } else { (&body[..4], &[][..]) };
        let (mut colours, mut shown) = ([9; 3], [9; 3]);
        let told = florinhado::body_shape_frame(rows, &fields, &mut colours, &mut shown);
        same(
            "worked shape",
            told.map(|leftover| (leftover, colours, shown)),
            shape.map(|s| (0, [1, 2, 3], s)),
        )?;
        same("after a refusal", told.is_ok() || [colours, shown] == [[9; 3]; 2], true)?;
        let mut file = [0; 54];
        let length = florinhado::write_with_shape(&fields, b"", &[1, 2, 3], mask, &mut file);
        same("written with a shape", length, Ok(48 + rows.len()))?;
        same("its BODY", &file[48..48 + rows.len()], rows)?;
    }
    Ok(())
}

/// Two entries and a part of a third.
const TWO_AND_CUT: [u8; 8] = [1, 2, 3, 4, 5, 7, 8, 9];

/// Planes, view modes, the colour numbers of a line, and its colours.
type Coloured = (u8, u32, &'static [u8], Vec<[u8; 3]>);

/// Hold-and-modify by 6 planes and by 8, half-bright, half-bright with bit 11, and the palette alone.
fn coloured() -> [Coloured; 5] {
    let by_six = vec![[170, 0, 0], [4, 5, 7], [4, 5, 255], [170, 5, 255], [170, 17, 255], [0; 3], [0; 3]];
    [
        (6, 0x800, &[0x2a, 0x01, 0x1f, 0x2a, 0x31, 0x02, 0x30], by_six),
        (8, 0x800, &[0xbf, 0x4f, 0xd0, 0x00], vec![[255, 0, 0], [255, 0, 60], [255, 65, 60], [1, 2, 3]]),
        (6, 0x80, &[1, 33, 34], vec![[4, 5, 7], [2, 2, 3], [0; 3]]),
        (6, 0x880, &[1, 33], vec![[4, 5, 7], [17, 5, 7]]),
        (6, 0, &[1, 33, 2], vec![[4, 5, 7], [0; 3], [0; 3]]),
    ]
}

/// Ask 5's rules on lines worked out by hand, and 46.
fn compare_colours() -> Outcome {
    for (planes, view_mode, numbers, known) in coloured() {
        let fields = Header { width: numbers.len() as u16, height: 1, planes, ..Header::default() };
        let mut file = [0; 64];
        same("written", florinhado::write(&fields, b"", numbers, &mut file).is_ok(), true)?;
        let rows = &file[48..48 + 2 * usize::from(planes)];
        let mut shown = vec![[9; 3]; numbers.len()];
        let told =
            florinhado::body_colour_frame(rows, &fields, view_mode, &TWO_AND_CUT, shown.as_flattened_mut());
        same("worked colours", told.map(|leftover| (leftover, shown)), Ok((0, known)))?;
        let five = Header { planes: 5, ..fields };
        let mut row = [9; 3];
        let told = florinhado::body_colour_line(rows, &five, 0x800, &TWO_AND_CUT, 99, &mut row);
        same("worked refusal", (told, row), (Err(Refused { number: 46, place: 0 }), [9; 3]))?;
    }
    Ok(())
}
