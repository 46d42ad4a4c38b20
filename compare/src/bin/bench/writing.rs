//! The picture writer, with packed rows.

use crate::drawn::{few, Drawn, Shape, KINDS, SMALL};
use crate::timing::{beside, grown, heading, timed, Timed};
use compare::plain;
use second::Fields;
use std::hint::black_box;

const PALETTE: [u8; 96] = [0; 96];

/// Writes the picture into a cleared buffer of twice its pixels.
fn written<'a>(picture: &'a Drawn, write: impl Fn(&Fields, &[u8], &mut [u8]) -> usize + 'a) -> Timed<'a> {
    let shape = Shape { height: picture.frame.len() / SMALL.width, ..SMALL };
    let fields = shape.fields(1);
    let mut out = vec![0; 2 * picture.frame.len()];
    let mut run = move || {
        out.fill(0);
        let length = write(black_box(&fields), black_box(&picture.frame), &mut out);
        assert_eq!(out[..length], picture.file);
        length
    };
    run();
    timed(run)
}

fn library(picture: &Drawn) -> Timed<'_> {
    written(picture, |fields, frame, out| {
        let header = florinhado::Header {
            width: fields.width,
            height: fields.height,
            planes: fields.planes,
            compression: fields.compression,
            x_aspect: fields.x_aspect,
            y_aspect: fields.y_aspect,
            page_width: fields.page_width,
            page_height: fields.page_height,
            ..florinhado::Header::default()
        };
        florinhado::write(&header, &PALETTE, frame, out).expect("room enough")
    })
}

fn second_writer(picture: &Drawn) -> Timed<'_> {
    written(picture, |fields, frame, out| {
        let file = second::write_picture(fields, &PALETTE, frame, b"", out.len()).expect("room enough");
        out[..file.len()].copy_from_slice(&file);
        file.len()
    })
}

fn plain(picture: &Drawn) -> Timed<'_> {
    written(picture, |fields, frame, out| plain::write(fields, &PALETTE, frame, out).expect("room enough"))
}

pub fn against_others() {
    heading("writing of 320 by 200, 5 planes, packed", ["second", "plain"]);
    for kind in few() {
        let picture = kind.picture(SMALL, 1, 0);
        beside(kind.name, [library(&picture), second_writer(&picture), plain(&picture)]);
    }
}

pub fn growth() -> f64 {
    let long = Shape { height: 2 * SMALL.height, ..SMALL };
    let [whole, half] = [long, SMALL].map(|shape| KINDS[3].picture(shape, 1, 0));
    grown("writing of 400 lines / 200 lines", library(&whole), library(&half))
}
