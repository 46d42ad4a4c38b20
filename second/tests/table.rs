//! The table of pictures, and rows and fields from bytes alone.

mod common;

use common::{chunk, form, group, header, refused};
use second::{
    body_frame, body_line, fill_pictures, frame, header_fields, picture_rows, properties, scan_line,
};
use second::{Frame, Layout, Name, Origin, PictureRow, ScanLine};

const BY_TWO: Layout = Layout { width: 3, planes: 2, masking: 0, compression: 0 };

fn list(members: &[Vec<u8>]) -> Vec<u8> {
    group("LIST", "JJJJ", members)
}

/// Two levels: the inner picture has its palette of the inner PROP, its header of the outer one.
fn two_levels() -> Vec<u8> {
    let outer = group("PROP", "ILBM", &[header(3, 1, 2, 0, 0), chunk("CMAP", &[1; 3])]);
    let inner = group("PROP", "ILBM", &[chunk("CMAP", &[2; 3]), chunk("CMAP", &[3; 6])]);
    let shown = form(&[chunk("CAMG", &[0; 4]), chunk("BODY", b"\xa0\0\x60\0"), chunk("GRAB", &[0; 4])]);
    list(&[outer, list(&[inner, shown, form(&[header(3, 1, 9, 0, 0)])])])
}

#[test]
fn rows_of_two_levels() {
    let rows = picture_rows(&two_levels()).unwrap();
    let ilbm = 0x494c_424d;
    let map = [2, 76, 108, 114];
    let shown: [usize; 30] = [
        [0, 114, ilbm].as_slice(),
        &[2, 12, 32, 52],
        &map,
        &[0; 8],
        &[0; 4],
        &[1, 0, 134, 138],
        &[1, 146, 150],
    ]
    .concat()
    .try_into()
    .unwrap();
    assert_eq!(rows[0].numbers(), shown);
    let mut wrong = [0; 30];
    wrong[..3].copy_from_slice(&[41, 162, ilbm]);
    assert_eq!((rows[1].numbers(), rows.len()), (wrong, 2));
    assert_eq!((rows[0].kind, rows[0].properties[1].origin), (Name::ILBM, Origin::Shared(76)));
}

#[test]
fn places_of_a_table() {
    let file = two_levels();
    let rows = picture_rows(&file).unwrap();
    let numbers: Vec<usize> = rows.iter().flat_map(PictureRow::numbers).collect();
    for (length, wanted) in [(0, refused(13, 0)), (59, refused(13, 0)), (60, Ok(2)), (67, Ok(2))] {
        let mut table = vec![7; length];
        assert_eq!(fill_pictures(&file, &mut table), wanted);
        let filled = if wanted.is_ok() { 60 } else { 0 };
        assert_eq!(table[..filled], numbers[..filled]);
        assert!(table[filled..].iter().all(|number| *number == 7));
    }
    assert_eq!(fill_pictures(&form(&[]), &mut [0; 30]), Ok(1));
    assert_eq!(fill_pictures(&group("FORM", "ABCD", &[]), &mut []), Ok(0));
    assert_eq!(fill_pictures(b"FORM", &mut []), refused(4, 0));
    assert_eq!(picture_rows(b""), refused(2, 0));
}

#[test]
fn a_row_leads_to_the_pixels() {
    let file = two_levels();
    let row = &picture_rows(&file).unwrap()[0];
    let fields = header_fields(&file[row.properties[0].value.clone().unwrap()]).unwrap();
    assert_eq!(fields, properties(&file, 0).unwrap().header);
    let body = &file[row.body.clone().unwrap()];
    assert_eq!(body_frame(body, &fields.layout(), fields.height, 3), frame(&file, 0, 3));
    assert_eq!(body_line(body, &fields.layout(), 0, 3), scan_line(&file, 0, 0, 3));
}

#[test]
fn fields_by_bytes() {
    let data: Vec<u8> = (1..=20).collect();
    let told = header_fields(&data).unwrap();
    assert_eq!((told.width, told.planes, told.pad1, told.page_height), (0x0102, 9, 12, 0x1314));
    for size in [0, 19, 21] {
        assert_eq!(header_fields(&vec![1; size]), refused(23, 0));
    }
}

#[test]
fn rows_of_any_bytes() {
    let body = b"\xa0\0\x60\0!";
    assert_eq!(body_line(body, &BY_TWO, 0, 3), Ok(ScanLine { colours: vec![1, 2, 3], next: 4 }));
    assert_eq!(body_frame(body, &BY_TWO, 1, 3), Ok(Frame { colours: vec![1, 2, 3], leftover: 1 }));
    assert_eq!(body_line(body, &BY_TWO, 5, 3), refused(26, 5));
    assert_eq!(body_frame(body, &BY_TWO, 2, 6), refused(26, 4));
    let packed = Layout { compression: 1, ..BY_TWO };
    assert_eq!(body_line(b"\xfe\x07", &packed, 0, 3), refused(27, 0));
    assert_eq!(body_line(b"\x80\xff\xa0\x01\x60\0", &packed, 0, 3).unwrap().next, 6);
}

/// "41 planes over 8, 42 masking over 3, 43 compression over 1, 24 w or planes 0 (of a frame h too), then 29, 28".
#[test]
fn order_of_refusals() {
    let worst = Layout { width: 0, planes: 9, masking: 4, compression: 2 };
    let orders = [
        (41, worst),
        (42, Layout { planes: 0, ..worst }),
        (43, Layout { planes: 0, masking: 3, ..worst }),
        (24, Layout { planes: 0, masking: 3, compression: 1, width: 3 }),
        (24, Layout { planes: 8, masking: 3, compression: 1, width: 0 }),
    ];
    for (number, layout) in orders {
        assert_eq!(body_line(b"", &layout, 1, 9), refused(number, 0));
        assert_eq!(body_frame(b"", &layout, 0, 9), refused(number, 0));
    }
    assert_eq!(body_line(b"", &BY_TWO, 1, 9), refused(29, 0));
    assert_eq!(body_line(b"", &BY_TWO, 0, 9), refused(28, 0));
    assert_eq!(body_frame(b"", &BY_TWO, 0, 0), refused(24, 0));
    assert_eq!(body_frame(b"", &BY_TWO, 1, 9), refused(28, 0));
}
