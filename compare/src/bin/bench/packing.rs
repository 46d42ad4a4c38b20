//! Packing of the plane rows of a picture, one after the other.

use crate::drawn::{few, Kind, Shape, KINDS, SMALL};
use crate::timing::{beside, grown, heading, timed, Timed};
use compare::plain;
use std::hint::black_box;

/// The plane rows of a picture, and how many bytes they have packed.
struct Rows {
    plain: Vec<u8>,
    packed: usize,
}

impl Rows {
    fn of(kind: &Kind, shape: Shape) -> Rows {
        let [plain, packed] = [0, 1].map(|compression| kind.picture(shape, compression, 0).body().1.to_vec());
        Rows { plain, packed: packed.len() }
    }
}

/// Packs each row to where the one before it ended, in a cleared buffer. The
/// length of a row is not known when the packer is compiled.
fn packing<'a>(rows: &'a Rows, pack: impl Fn(&[u8], &mut [u8]) -> usize + 'a) -> Timed<'a> {
    let mut out = vec![0; 2 * rows.plain.len()];
    let mut run = move || {
        out.fill(0);
        let mut length = 0;
        for row in black_box(&rows.plain).chunks_exact(black_box(SMALL.row())) {
            length += pack(row, &mut out[length..]);
        }
        black_box(&out);
        length
    };
    assert_eq!(run(), rows.packed);
    timed(run)
}

fn library(rows: &Rows) -> Timed<'_> {
    packing(rows, |row, out| florinhado::pack(row, out).expect("room enough"))
}

fn second_reader(rows: &Rows) -> Timed<'_> {
    packing(rows, |row, out| {
        let packed = second::pack(row, out.len()).expect("room enough");
        out[..packed.len()].copy_from_slice(&packed);
        packed.len()
    })
}

fn plain(rows: &Rows) -> Timed<'_> {
    packing(rows, |row, out| plain::pack(row, out).expect("room enough"))
}

pub fn against_others() {
    heading("packing of 320 by 200, 5 planes", ["second", "plain"]);
    for kind in few() {
        let rows = Rows::of(kind, SMALL);
        beside(kind.name, [library(&rows), second_reader(&rows), plain(&rows)]);
    }
}

pub fn growth() -> f64 {
    let long = Shape { height: 2 * SMALL.height, ..SMALL };
    let [whole, half] = [long, SMALL].map(|shape| Rows::of(&KINDS[3], shape));
    grown("packing of 400 lines / 200 lines", library(&whole), library(&half))
}
