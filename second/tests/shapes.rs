//! Scan lines and frames with their shape: every masking, refusals 28 and 44, and the order.

mod common;

use common::{chunk, form, header, refused};
use second::{body_shape_frame, body_shape_line, shape_frame, shape_line, Refused};
use second::{Frame, Layout, Lent, ScanLine, Shaped};

const BY_TWO: Layout = Layout { width: 3, planes: 2, masking: 0, compression: 0 };

/// Colours 1, 2, 3 and a mask row, then a byte.
const BODY: &[u8] = b"\xa0\0\x60\0\xbf\xff!";

fn both(pixels: usize) -> Lent {
    Lent { colours: pixels, shape: pixels }
}

fn line(masking: u8, transparent: u16) -> Vec<u8> {
    let told = body_shape_line(BODY, &Layout { masking, ..BY_TWO }, transparent, 0, both(3)).unwrap();
    let next = if masking == 1 { 6 } else { 4 };
    assert_eq!(told.pixels, ScanLine { colours: vec![1, 2, 3], next });
    told.shape
}

/// "Masking 0: all 1. Masking 1: the mask row's bit, same bit order. Masking 2: 0 exactly where the colour
/// number equals transparentColor."
#[test]
fn each_masking() {
    for transparent in [0, 1, 3, 0xffff] {
        assert_eq!(line(0, transparent), [1, 1, 1]);
        assert_eq!(line(1, transparent), [1, 0, 1]);
    }
    for (transparent, shape) in [(1, [0, 1, 1]), (2, [1, 0, 1]), (3, [1, 1, 0])] {
        assert_eq!(line(2, transparent), shape);
    }
    for transparent in [0, 4, 255, 256 + 1, 0x8002, 0xff03] {
        assert_eq!(line(2, transparent), [1, 1, 1]);
    }
}

/// The file's own header decides; "44, only where the shape is asked".
#[test]
fn of_a_picture() {
    let file = |masking: u8| form(&[header(3, 1, 2, masking, 0), chunk("BODY", BODY)]);
    let colours = vec![1, 2, 3];
    for (masking, shape, next) in [(0, vec![1, 1, 1], 4), (1, vec![1, 0, 1], 6), (2, vec![1, 1, 1], 4)] {
        let pixels = ScanLine { colours: colours.clone(), next };
        let told = Shaped { pixels, shape: shape.clone() };
        assert_eq!(shape_line(&file(masking), 0, 0, both(3)), Ok(told));
        let pixels = Frame { colours: colours.clone(), leftover: BODY.len() - next };
        assert_eq!(shape_frame(&file(masking), 0, both(3)), Ok(Shaped { pixels, shape }));
    }
    assert_eq!(shape_line(&file(3), 0, 0, both(3)), refused(44, 0));
    assert_eq!(shape_frame(&file(3), 0, both(3)), refused(44, 0));
    assert_eq!(second::scan_line(&file(3), 0, 0, 3).unwrap().colours, colours);
    assert_eq!(second::frame(&file(3), 0, 3).unwrap().colours, colours);
    assert_eq!(shape_frame(&form(&[header(3, 1, 2, 3, 0)]), 0, both(0)), refused(25, 0));
    assert_eq!(shape_line(&file(3), 1, 0, both(3)), refused(20, 0));
}

/// Two lines with a mask row each.
#[test]
fn frames_with_a_mask() {
    let layout = Layout { width: 9, planes: 1, masking: 1, compression: 1 };
    let body = b"\x01\xaa\x80\x01\x0f\0\xff\0\xff\xff";
    let told = body_shape_frame(body, &layout, 0, 2, both(18)).unwrap();
    assert_eq!(told.pixels, Frame { colours: [[1, 0, 1, 0, 1, 0, 1, 0, 1], [0; 9]].concat(), leftover: 0 });
    assert_eq!(told.shape, [[0, 0, 0, 0, 1, 1, 1, 1, 0], [1; 9]].concat());
    assert_eq!(body_shape_frame(&body[..8], &layout, 0, 2, both(18)), refused(26, 8));
    let over = b"\x01\xaa\x80\xfe\x0f";
    assert_eq!(body_shape_line(over, &layout, 0, 0, both(9)), refused(27, 3));
}

/// "28 also if the shape row isn't w bytes; 44 .. after 28", 29 before both, 27 and 26 after.
#[test]
fn order_of_refusals() {
    let lasso = Layout { masking: 3, ..BY_TWO };
    let line = |layout: &Layout, start, colours, shape| {
        let told = body_shape_line(b"", layout, 0, start, Lent { colours, shape });
        told.map_err(|Refused { number, .. }| number).unwrap_err()
    };
    assert_eq!(line(&Layout { planes: 9, ..lasso }, 1, 9, 9), 41);
    assert_eq!(line(&Layout { masking: 4, compression: 2, ..lasso }, 1, 9, 9), 42);
    assert_eq!(line(&Layout { compression: 2, width: 0, ..lasso }, 1, 9, 9), 43);
    assert_eq!(line(&Layout { width: 0, ..lasso }, 1, 9, 9), 24);
    assert_eq!(line(&lasso, 1, 9, 9), 29);
    for (colours, shape) in [(2, 3), (3, 2), (4, 3), (3, 4), (0, 0), (4, 2)] {
        assert_eq!(line(&lasso, 0, colours, shape), 28);
        let lent = Lent { colours, shape };
        assert_eq!(body_shape_frame(b"", &lasso, 0, 1, lent), refused(28, 0));
    }
    assert_eq!(line(&lasso, 0, 3, 3), 44);
    assert_eq!(line(&BY_TWO, 0, 3, 3), 26);
    assert_eq!(body_shape_frame(b"", &lasso, 0, 0, both(0)), refused(24, 0));
    assert_eq!(body_shape_frame(b"", &lasso, 0, 1, both(3)), refused(44, 0));
}
