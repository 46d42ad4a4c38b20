//! Pictures: origins, refusals 20 to 29, rows and frames.

mod common;

use common::{chunk, form, group, header, refused};
use second::{frame, header_faults, palette, properties, scan_line, Frame, Origin, ScanLine};

fn prop(members: &[Vec<u8>]) -> Vec<u8> {
    group("PROP", "ILBM", members)
}

fn list(members: &[Vec<u8>]) -> Vec<u8> {
    group("LIST", "JJJJ", members)
}

fn picture(header: Vec<u8>, body: &[u8]) -> Vec<u8> {
    form(&[header, chunk("BODY", body)])
}

fn number<T: std::fmt::Debug>(answer: Result<T, second::Refused>) -> u32 {
    let refused = answer.unwrap_err();
    assert_eq!(refused.place, 0);
    refused.number
}

#[test]
fn no_such_picture_and_no_header() {
    assert_eq!(properties(b"", 0), refused(2, 0));
    assert_eq!(number(properties(&form(&[]), 0)), 21);
    assert_eq!(number(properties(&form(&[]), 1)), 20);
    assert_eq!(number(properties(&group("FORM", "ABCD", &[]), 0)), 20);
    assert_eq!(number(properties(&form(&[chunk("BODY", b""), header(1, 1, 1, 0, 0)]), 0)), 21);
    let inner_only = form(&[header(1, 1, 1, 0, 0), form(&[])]);
    assert!(properties(&inner_only, 0).is_ok());
    assert_eq!(number(properties(&inner_only, 1)), 21);
}

#[test]
fn several_bodies_and_wrong_sizes() {
    let body = chunk("BODY", b"");
    let two = form(&[header(0, 0, 99, 0, 0), chunk("GRAB", b""), body.clone(), body.clone()]);
    assert_eq!(number(properties(&two, 0)), 22);
    let wrong = [("BMHD", 19), ("CMAP", 4), ("GRAB", 5), ("DEST", 7), ("SPRT", 0), ("CAMG", 2)];
    for (name, size) in wrong {
        let bad = chunk(name, &vec![0; size]);
        let own = form(&[header(1, 1, 99, 0, 0), bad.clone()]);
        assert_eq!(number(properties(&own, 0)), 23, "{name}");
        let shared = list(&[prop(&[header(1, 1, 1, 0, 0), bad.clone()]), form(&[])]);
        assert_eq!(number(properties(&shared, 0)), 23, "{name}");
        let after = form(&[header(1, 1, 1, 0, 0), body.clone(), bad]);
        assert!(properties(&after, 0).is_ok(), "{name}");
    }
}

#[test]
fn fields_that_are_not_read() {
    let rows = |fields| number(properties(&picture(fields, b""), 0));
    for (wanted, fields) in [
        (41, header(1, 1, 9, 0, 0)),
        (41, header(0, 0, 255, 255, 255)),
        (42, header(1, 1, 1, 4, 0)),
        (42, header(0, 0, 0, 255, 255)),
        (43, header(1, 1, 1, 0, 2)),
        (43, header(0, 0, 0, 3, 255)),
    ] {
        assert_eq!(number(properties(&form(std::slice::from_ref(&fields)), 0)), wanted);
        assert_eq!(rows(fields), wanted);
    }
    for fields in [header(0, 1, 1, 0, 0), header(1, 0, 1, 0, 0), header(1, 1, 0, 0, 0)] {
        assert!(properties(&form(std::slice::from_ref(&fields)), 0).is_ok());
        assert_eq!(rows(fields), 24);
    }
    assert!(properties(&picture(header(1, 1, 8, 3, 1), b""), 0).is_ok());
    let faults = |fields| header_faults(&picture(fields, b""), 0).unwrap();
    assert_eq!(faults(header(1, 1, 8, 3, 1)), []);
    assert_eq!(faults(header(0, 1, 9, 4, 2)), [41, 42, 43, 24]);
    assert_eq!(header_faults(&form(&[header(0, 1, 9, 4, 2)]), 0), Ok(vec![41, 42, 43]));
    assert_eq!(header_faults(&form(&[]), 0), refused(21, 0));
}

#[test]
fn header_and_other_values() {
    let bytes: Vec<u8> =
        vec![1, 2, 3, 4, 0xff, 0xfe, 0, 5, 8, 2, 1, 77, 0x12, 0x34, 10, 11, 0xff, 0xff, 0, 9];
    let members = [
        chunk("BMHD", &bytes),
        chunk("GRAB", &[0xff, 0xff, 0, 2]),
        chunk("DEST", &[5, 6, 0, 7, 0, 8, 0, 9]),
        chunk("SPRT", &[1, 0]),
        chunk("CAMG", &[0, 0, 8, 0x80]),
    ];
    let told = properties(&form(&members), 0).unwrap();
    let h = told.header;
    assert_eq!((h.width, h.height, h.x, h.y), (0x0102, 0x0304, -2, 5));
    assert_eq!((h.planes, h.masking, h.compression, h.pad1), (8, 2, 1, 77));
    assert_eq!((h.transparent_color, h.x_aspect, h.y_aspect), (0x1234, 10, 11));
    assert_eq!((h.page_width, h.page_height), (-1, 9));
    let grab = told.grab.value.unwrap();
    assert_eq!((grab.x, grab.y), (-1, 2));
    let dest = told.destination.value.unwrap();
    let fields = (dest.depth, dest.pad1, dest.plane_pick, dest.plane_on_off, dest.plane_mask);
    assert_eq!(fields, (5, 6, 7, 8, 9));
    assert_eq!(told.precedence.value, Some(0x100));
    assert_eq!(told.view_modes.value, Some(0x880));
    assert_eq!((told.header_origin, told.colour_map.origin), (Origin::Own, Origin::Absent));
}

#[test]
fn origins() {
    let map = |byte: u8| chunk("CMAP", &[byte; 3]);
    let inner = list(&[prop(&[chunk("SPRT", &[0, 1])]), form(&[header(1, 1, 1, 0, 0)])]);
    let file = list(&[
        prop(&[header(7, 7, 1, 0, 0), map(1), chunk("BODY", b""), map(2)]),
        form(&[]),
        form(&[map(3), map(4), chunk("BODY", b""), map(5)]),
        group("FORM", "ABCD", &[map(9), form(&[header(2, 1, 1, 0, 0)])]),
        inner,
    ]);
    let place = Origin::Shared(12);
    let first = properties(&file, 0).unwrap();
    assert_eq!((first.header_origin, first.header.width), (place, 7));
    assert_eq!((first.colour_map.origin, palette(&file, 0, b"")), (place, Ok(&[2u8; 3][..])));
    assert_eq!(properties(&file, 1).unwrap().colour_map.origin, Origin::Own);
    assert_eq!(palette(&file, 1, b""), Ok(&[4u8; 3][..]));
    let nested = properties(&file, 2).unwrap();
    assert_eq!((nested.header_origin, nested.header.width), (Origin::Own, 2));
    assert_eq!(nested.colour_map.origin, place);
    let innermost = properties(&file, 3).unwrap();
    assert_eq!((innermost.colour_map.origin, innermost.precedence.value), (place, Some(1)));
    assert_eq!(palette(&file, 3, b"default"), Ok(&[2u8; 3][..]));
    assert_eq!(palette(&file, 4, b"default"), refused(20, 0));
}

/// Each property is looked for by itself, outward: "the outer PROP ILBM has
/// BMHD and CMAP, the inner PROP ILBM only a CMAP".
#[test]
fn each_property_by_itself() {
    let map = |byte: u8| chunk("CMAP", &[byte; 3]);
    let innermost = list(&[prop(&[chunk("SPRT", &[0, 9])]), form(&[]), form(&[map(7)])]);
    let inner = list(&[prop(&[map(2), map(3)]), form(&[]), innermost]);
    let outer = prop(&[header(5, 5, 1, 0, 0), map(1)]);
    let nearer = 12 + outer.len() + 12;
    let nearest = nearer + prop(&[map(2), map(3)]).len() + form(&[]).len() + 12;
    let file = list(&[outer, inner, form(&[])]);
    for (picture, colour, origin) in [
        (0, 3, Origin::Shared(nearer)),
        (1, 3, Origin::Shared(nearer)),
        (2, 7, Origin::Own),
        (3, 1, Origin::Shared(12)),
    ] {
        let told = properties(&file, picture).unwrap();
        assert_eq!((told.header_origin, told.header.width), (Origin::Shared(12), 5));
        assert_eq!(told.colour_map.origin, origin);
        assert_eq!(palette(&file, picture, b""), Ok(&[colour; 3][..]));
    }
    assert_eq!(properties(&file, 0).unwrap().precedence.origin, Origin::Absent);
    assert_eq!(properties(&file, 1).unwrap().precedence.origin, Origin::Shared(nearest));
    assert_eq!(second::surroundings(&file, 1).unwrap().props, [nearest, nearer, 12]);
    let wrong = list(&[prop(&[header(5, 5, 1, 0, 0), chunk("GRAB", b"abc")]), list(&[prop(&[]), form(&[])])]);
    assert_eq!(number(properties(&wrong, 0)), 23);
    let own = group("FORM", "ILBM", &[header(5, 5, 1, 0, 0), map(1), list(&[prop(&[map(2)]), form(&[])])]);
    assert_eq!(number(properties(&own, 1)), 21);
}

/// A LIST between without a PROP ILBM lets the one further out through, and
/// so does one whose PROP ILBM hasn't the property.
#[test]
fn nearest_list_with_a_prop() {
    let between =
        list(&[group("PROP", "ABCD", &[header(9, 9, 1, 0, 0)]), group("CAT ", "JJJJ", &[form(&[])])]);
    let file = list(&[prop(&[header(3, 3, 1, 0, 0)]), between]);
    let told = properties(&file, 0).unwrap();
    assert_eq!((told.header_origin, told.header.width), (Origin::Shared(12), 3));
    let empty = list(&[prop(&[]), form(&[])]);
    assert_eq!(number(properties(&empty, 0)), 21);
    let through = list(&[prop(&[header(3, 3, 1, 0, 0)]), empty]);
    assert_eq!(properties(&through, 0).unwrap().header_origin, Origin::Shared(12));
    let late = form(&[chunk("BODY", b""), header(5, 5, 1, 0, 0), chunk("CMAP", b"abc")]);
    let file = list(&[prop(&[header(3, 3, 1, 0, 0)]), late]);
    let told = properties(&file, 0).unwrap();
    assert_eq!((told.header_origin, told.header.width), (Origin::Shared(12), 3));
    assert_eq!(told.colour_map.origin, Origin::Absent);
    let map_of_no_bytes = form(&[header(1, 1, 1, 0, 0), chunk("CMAP", b"")]);
    assert_eq!(palette(&map_of_no_bytes, 0, b"default"), Ok(&b""[..]));
}

fn row(length: u16, body: &[u8]) -> Result<ScanLine, second::Refused> {
    let width = length * 8;
    scan_line(&picture(header(width, 1, 1, 0, 1), body), 0, 0, usize::from(width))
}

#[test]
fn packed_rows_of_the_scope() {
    let zeros = |next| Ok(ScanLine { colours: vec![0; 32], next });
    assert_eq!(row(4, b"\xfd\0"), zeros(2));
    assert_eq!(row(4, b"\x80\xfd\0"), zeros(3));
    assert_eq!(row(4, b"\xfd\0\x80"), zeros(2));
    assert_eq!(row(2, b"\xfe\x07"), refused(27, 0));
    assert_eq!(row(2, b"\x01\x07"), refused(26, 0));
    assert_eq!(row(2, b"\x80\x80"), refused(26, 2));
    assert_eq!(row(2, b"\x00\x07\x00"), refused(26, 2));
    assert_eq!(row(2, b"\x00\x07\x01"), refused(27, 2));
    assert_eq!(row(2, b"\xff"), refused(26, 0));
    assert_eq!(row(2, b"\xfe"), refused(27, 0));
}

#[test]
fn two_planes_of_the_scope() {
    let file = picture(header(3, 1, 2, 0, 0), b"\xa0\0\x60\0!");
    assert_eq!(scan_line(&file, 0, 0, 3), Ok(ScanLine { colours: vec![1, 2, 3], next: 4 }));
    assert_eq!(frame(&file, 0, 3), Ok(Frame { colours: vec![1, 2, 3], leftover: 1 }));
    assert_eq!(scan_line(&file, 0, 5, 3), refused(26, 5));
    assert_eq!(scan_line(&file, 0, 3, 3), refused(26, 5));
    assert_eq!(scan_line(&file, 0, 6, 4), refused(29, 0));
    assert_eq!(scan_line(&file, 0, 5, 4), refused(28, 0));
    assert_eq!(frame(&file, 0, 4), refused(28, 0));
    let no_body = form(&[header(3, 1, 2, 0, 0)]);
    assert_eq!(scan_line(&no_body, 0, 99, 4), refused(25, 0));
    assert_eq!(frame(&no_body, 0, 4), refused(25, 0));
}

#[test]
fn mask_row_must_be_sound() {
    let packed = |body: &[u8]| frame(&picture(header(1, 1, 1, 1, 1), body), 0, 1);
    assert_eq!(packed(b"\xff\xff\xff\0x"), Ok(Frame { colours: vec![1], leftover: 1 }));
    assert_eq!(packed(b"\xff\xff\xfe\0"), refused(27, 2));
    assert_eq!(packed(b"\xff\xff"), refused(26, 2));
    let plain = picture(header(1, 2, 1, 1, 0), b"\x80\0\0\0\0\0\0");
    assert_eq!(frame(&plain, 0, 2), refused(26, 6));
    let other = picture(header(1, 2, 1, 2, 0), b"\x80\0\0\0");
    assert_eq!(frame(&other, 0, 2), Ok(Frame { colours: vec![1, 0], leftover: 0 }));
}

#[test]
fn eight_planes_and_word_rows() {
    let width = 17u16;
    let mut body = Vec::new();
    for plane in 0..8u8 {
        body.extend([0, 0, if plane % 2 == 0 { 0x80 } else { 0 }, 0xff]);
    }
    let line = scan_line(&picture(header(width, 1, 8, 0, 0), &body), 0, 0, 17).unwrap();
    assert_eq!((line.next, line.colours[15], line.colours[16]), (32, 0, 0x55));
}
