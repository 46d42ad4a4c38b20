//! Pictures whose headers can't be shown: every call tells which field is wrong.

use florinhado::{colour_frame, colour_line, shape_frame, shape_line, triples, Refused};
use florinhado::{destination, frame, grab, header, palette, scan_line, sprite, view_mode};

const FILE: &[u8] = include_bytes!("../../../samples/headers.iff");

/// What each call on a picture is refused with.
fn refusals(picture: usize) -> [Option<Refused>; 13] {
    [
        header(FILE, picture).err(),
        grab(FILE, picture).err(),
        destination(FILE, picture).err(),
        sprite(FILE, picture).err(),
        view_mode(FILE, picture).err(),
        palette(FILE, picture, b"").err(),
        scan_line(FILE, picture, 0, &mut [9; 3]).err(),
        frame(FILE, picture, &mut [9; 6]).err(),
        shape_line(FILE, picture, 0, &mut [9; 3], &mut [9; 3]).err(),
        shape_frame(FILE, picture, &mut [9; 6], &mut [9; 6]).err(),
        colour_line(FILE, picture, 0, b"", &mut [9; 9]).err(),
        colour_frame(FILE, picture, b"", &mut [9; 18]).err(),
        triples(FILE, picture, b"").err(),
    ]
}

#[test]
fn each_call_names_the_field() {
    for (picture, number, words) in [
        (0, 41, "nPlanes 9 or more: at most 8 planes are known"),
        (1, 42, "masking 4 or more: only 0 to 3 are known"),
        (2, 43, "compression 2 or more: only 0 and 1 are known"),
        (3, 24, "w, h or nPlanes 0: a picture with a BODY has at least 1 of each"),
        (4, 41, "nPlanes 9 or more: at most 8 planes are known"),
    ] {
        let refused = Refused { number, place: 0 };
        assert_eq!(refusals(picture), [Some(refused); 13]);
        assert_eq!(refused.meaning(), words);
    }
    assert_eq!(refusals(5), [None; 13]);
}
