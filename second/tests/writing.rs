//! The packer and the picture writer: examples and refusals 31 to 35 and 45.

mod common;

use common::refused;
use second::{check, frame, pack, palette, properties, shape_frame, write_picture, Fields, Lent};

fn packed(row: &[u8]) -> Vec<u8> {
    let out = pack(row, 20_000).unwrap();
    assert_eq!(pack(row, out.len() - 1), refused(32, 0));
    out
}

fn fields(width: u16, height: u16, planes: u8, masking: u8, compression: u8) -> Fields {
    Fields {
        width,
        height,
        x: -3,
        y: 4,
        planes,
        masking,
        compression,
        transparent_color: 0xfffe,
        x_aspect: 10,
        y_aspect: 11,
        page_width: -320,
        page_height: 200,
    }
}

#[test]
fn packed_rows_of_the_scope() {
    assert_eq!(packed(&[7, 7]), [1, 7, 7]);
    assert_eq!(packed(&[9; 128]), [0x81, 9]);
    assert_eq!(packed(&[9; 129]), [0x81, 9, 0, 9]);
    assert_eq!(packed(&[9; 131]), [0x81, 9, 0xfe, 9]);
    assert_eq!(packed(&[9; 130]), [0x81, 9, 1, 9, 9]);
}

#[test]
fn literals_stop_where_three_equal_bytes_start() {
    assert_eq!(packed(&[1, 2, 2, 2]), [0, 1, 0xfe, 2]);
    assert_eq!(packed(&[1, 2, 2, 3, 3, 3, 3, 4]), [2, 1, 2, 2, 0xfd, 3, 0, 4]);
    let uneven: Vec<u8> = (0..128u8).chain([1, 1, 1]).collect();
    assert_eq!(packed(&uneven).len(), 129 + 2);
    let long: Vec<u8> = (0..129u8).collect();
    assert_eq!(packed(&long)[129..], [0, 128]);
    let at_end: Vec<u8> = (0..127u8).chain([1, 1, 1]).collect();
    assert_eq!(packed(&at_end)[..1], [126]);
}

#[test]
fn packer_refusals() {
    assert_eq!(pack(&[], 9), refused(31, 0));
    assert_eq!(pack(&[0; 8193], 0), refused(31, 0));
    assert_eq!(pack(&[0; 8192], 127), refused(32, 0));
    assert_eq!(pack(&[0; 8192], 128).unwrap().len(), 128);
}

#[test]
fn lengths_of_the_scope() {
    let colours = [1, 2, 3];
    assert_eq!(write_picture(&fields(3, 1, 2, 0, 0), b"", &colours, b"", 52).unwrap().len(), 52);
    assert_eq!(write_picture(&fields(3, 1, 2, 0, 1), b"", &colours, b"", 54).unwrap().len(), 54);
    assert_eq!(write_picture(&fields(3, 1, 2, 0, 1), b"", &colours, b"", 53), refused(32, 0));
}

#[test]
fn written_bytes() {
    let file = write_picture(&fields(3, 1, 2, 2, 1), &[1, 2, 3], &[1, 2, 3], b"", 100).unwrap();
    let mut expected = b"FORM\0\0\0\x3aILBMBMHD\0\0\0\x14".to_vec();
    expected.extend([0, 3, 0, 1, 0xff, 0xfd, 0, 4, 2, 2, 1, 0, 0xff, 0xfe, 10, 11, 0xfe, 0xc0, 0, 200]);
    expected.extend(b"CMAP\0\0\0\x03\x01\x02\x03\0BODY\0\0\0\x06\x01\xa0\0\x01\x60\0");
    assert_eq!(file, expected);
}

#[test]
fn writer_refusals_stand_in_order() {
    let write = |fields: Fields, palette: usize, frame: &[u8]| {
        write_picture(&fields, &vec![0; palette], frame, &[2], 0).unwrap_err().number
    };
    for bad in [fields(0, 1, 1, 0, 0), fields(1, 0, 1, 0, 0)] {
        assert_eq!(write(bad, 0, &[]), 33);
    }
    let bad = [(0, 0, 0), (9, 0, 0), (1, 4, 0), (1, 255, 0), (1, 0, 2)];
    for (planes, masking, compression) in bad {
        assert_eq!(write(fields(1, 1, planes, masking, compression), 0, &[9]), 33);
    }
    assert_eq!(write(fields(1, 1, 1, 0, 0), 4, &[9]), 33);
    assert_eq!(write(fields(1, 1, 1, 0, 0), 771, &[9]), 33);
    assert_eq!(write(fields(1, 1, 1, 0, 0), 768, &[9, 9]), 33);
    assert_eq!(write(fields(1, 1, 1, 0, 0), 768, &[2]), 34);
    assert_eq!(write(fields(1, 1, 8, 0, 0), 768, &[255]), 45);
    let huge = vec![255; 4096 * 4096];
    assert_eq!(write(fields(4096, 4096, 8, 0, 0), 0, &huge), 45);
    assert_eq!(write(fields(4096, 4096, 7, 0, 0), 0, &huge), 34);
    let opaque = fields(4096, 4096, 8, 0, 0);
    assert_eq!(write_picture(&opaque, b"", &huge, b"", 0), refused(35, 0));
    assert_eq!(write_picture(&fields(1, 1, 8, 0, 0), &[0; 768], &[255], b"", 0), refused(32, 0));
}

/// "45 after 34 for a shape with a byte over 1 or of a length other than w times h for masking 1 and 0 for
/// the rest".
#[test]
fn shapes_that_are_not_written() {
    let write = |masking, shape: &[u8]| {
        let told = write_picture(&fields(3, 1, 2, masking, 0), b"", &[1, 2, 3], shape, 0);
        told.unwrap_err().number
    };
    for (masking, shape, wanted) in [
        (1, &[0, 1, 0][..], 32),
        (1, &[0, 1], 45),
        (1, &[], 45),
        (1, &[0, 1, 0, 1], 45),
        (1, &[0, 1, 2], 45),
        (1, &[255, 1, 0], 45),
        (0, &[1, 1, 1], 45),
        (2, &[0], 45),
        (3, &[1], 45),
        (3, &[], 32),
    ] {
        assert_eq!(write(masking, shape), wanted, "masking {masking}, {shape:?}");
    }
}

/// The mask row stands behind the plane rows of each line, packed as they are.
#[test]
fn written_mask() {
    for (compression, body) in [
        (0, &b"BODY\0\0\0\x0c\xa0\0\x60\0\xc0\0\0\0\0\0\x20\0"[..]),
        (1, b"BODY\0\0\0\x12\x01\xa0\0\x01\x60\0\x01\xc0\0\x01\0\0\x01\0\0\x01\x20\0"),
    ] {
        let given = fields(3, 2, 2, 1, compression);
        let file = write_picture(&given, b"", &[1, 2, 3, 0, 0, 0], &[1, 1, 0, 0, 0, 1], 99).unwrap();
        assert_eq!((&file[40..], file[29]), (body, 1));
    }
}

/// 8 planes of 41,941 rows of 50 bytes and 253 colours fill a file exactly.
#[test]
fn longest_result() {
    let given = fields(385, 41_941, 8, 0, 0);
    let colours = vec![0; 385 * 41_941];
    let written = |palette: usize, room| write_picture(&given, &vec![0; palette], &colours, b"", room);
    let longest = written(3 * 253, 16_777_216).unwrap();
    assert_eq!((longest.len(), check(&longest).unwrap().chunks), (16_777_216, 4));
    assert_eq!(written(3 * 253, 16_777_215), refused(32, 0));
    assert_eq!(written(3 * 254, 16_777_215), refused(35, 0));
}

#[test]
fn written_pictures_read_back() {
    for compression in 0..=1 {
        for width in 1..40u16 {
            let planes = (width % 8 + 1) as u8;
            let mask = (1u16 << planes) - 1;
            let colours: Vec<u8> = (0..width * 3).map(|n| ((n * n / 5) & mask) as u8).collect();
            let given = fields(width, 3, planes, width as u8 % 3, compression);
            let shown: Vec<u8> = (0..width * 3).map(|n| u8::from(n % 7 < 3)).collect();
            let shape = if given.masking == 1 { &shown[..] } else { &[] };
            let map = vec![5; usize::from(width) * 3];
            let file = write_picture(&given, &map, &colours, shape, 1 << 20).unwrap();
            assert_eq!(check(&file).unwrap().end, file.len());
            let header = properties(&file, 0).unwrap().header;
            assert_eq!((header.width, header.x, header.pad1), (given.width, given.x, 0));
            assert_eq!(palette(&file, 0, b""), Ok(&map[..]));
            let read = frame(&file, 0, colours.len()).unwrap();
            assert_eq!((&read.colours, read.leftover), (&colours, 0));
            let lent = Lent { colours: colours.len(), shape: colours.len() };
            let whole = shape_frame(&file, 0, lent).unwrap();
            assert_eq!(whole.pixels, read);
            assert_eq!(whole.shape, if given.masking == 1 { shown } else { vec![1; colours.len()] });
        }
    }
}
