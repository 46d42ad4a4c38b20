//! Frames with their shape beside the same frames alone, 32 different pictures of
//! a kind in turn, into rooms that are cleared before each while the clock stands
//! still.

use crate::drawn::{Brush, Kind, Shape, KINDS, SMALL};
use crate::timing::{grown, steady_ratio, timed, Timed};
use crate::within;
use std::hint::black_box;
use std::time::Instant;

/// The most that a frame with its shape may take, of the frame alone.
const OF_THE_FRAME: f64 = 1.5;

const PICTURES: u64 = 32;

const SHAPES: [Shape; 4] = [
    SMALL,
    Shape { planes: 1, ..SMALL },
    Shape { planes: 8, ..SMALL },
    Shape { width: 640, height: 400, ..SMALL },
];

/// Decodes all the pictures once; a room for the frame and one for the shape are
/// cleared before each, also where the shape is not asked for.
fn decoded<'a>(brushes: &'a [Brush], decode: impl Fn(&[u8], &mut [u8], &mut [u8]) + 'a) -> Timed<'a> {
    let pixels = brushes[0].shape.len();
    let (mut frame, mut shape) = (vec![0; pixels], vec![0; pixels]);
    Box::new(move |times| {
        let mut seconds = 0.0;
        for brush in (0..times).flat_map(|_| brushes) {
            black_box(&mut frame).fill(0);
            black_box(&mut shape).fill(0);
            let start = Instant::now();
            decode(black_box(&brush.drawn.file), black_box(&mut frame), black_box(&mut shape));
            seconds += start.elapsed().as_secs_f64();
        }
        seconds
    })
}

fn alone(brushes: &[Brush]) -> Timed<'_> {
    decoded(brushes, |file, frame, _| assert_eq!(florinhado::frame(file, 0, frame), Ok(0)))
}

fn with_shape(brushes: &[Brush]) -> Timed<'_> {
    for Brush { drawn, shape } in brushes {
        let (mut frame, mut shown) = (vec![9; shape.len()], vec![9; shape.len()]);
        assert_eq!(florinhado::shape_frame(&drawn.file, 0, &mut frame, &mut shown), Ok(0));
        assert!(frame == drawn.frame && shown == *shape, "another frame or shape");
    }
    decoded(brushes, |file, frame, shape| {
        assert_eq!(florinhado::shape_frame(file, 0, frame, shape), Ok(0));
    })
}

fn brushes(kind: &Kind, shape: Shape, compression: u8, masking: u8, count: u64) -> Vec<Brush> {
    (0..count).map(|number| kind.brush(shape, compression, masking, number)).collect()
}

/// A line: microseconds without and with the shape, and the ratio, for each masking.
fn line(kind: &Kind, shape: Shape, compression: u8) -> bool {
    let packing = ["plain", "packed"][usize::from(compression)];
    print!("{:10} {packing:6}", kind.name);
    let ratios = [0, 1, 2].map(|masking| {
        let brushes = brushes(kind, shape, compression, masking, PICTURES);
        let [with, without, ratio] = steady_ratio(with_shape(&brushes), alone(&brushes));
        let each = [without, with].map(|time| time / PICTURES as f64);
        print!(" {:10.1} {:10.1} {ratio:6.2}", each[0], each[1]);
        ratio
    });
    println!();
    let greatest = ratios.into_iter().fold(0.0, f64::max);
    within(&format!("{} {packing} with its shape", kind.name), greatest, OF_THE_FRAME)
}

/// Prints the times; whether no frame takes far more with its shape than it may.
pub fn within_limits() -> bool {
    let mut good = true;
    for shape in SHAPES {
        let Shape { width, height, planes } = shape;
        println!("\nframe of {width} by {height}, {planes} planes: microseconds alone, with its shape, and their ratio");
        println!("{:17} {:>28} {:>28} {:>28}", "", "masking 0", "masking 1", "masking 2");
        for compression in [1, 0] {
            good &= KINDS.iter().map(|kind| line(kind, shape, compression)).fold(true, |all, one| all & one);
        }
    }
    good
}

/// Writes a brush with a mask plane, packed, into a buffer of twice its pixels.
fn written(brush: &Brush) -> Timed<'_> {
    let Brush { drawn, shape } = brush;
    let header = florinhado::header(&drawn.file, 0).expect("a picture").value;
    let mut out = vec![0; 2 * shape.len()];
    let mut run = move || {
        florinhado::write_with_shape(&header, &[0; 96], black_box(&drawn.frame), shape, &mut out)
            .map(|length| assert_eq!(out[..length], drawn.file))
    };
    assert_eq!(run(), Ok(()));
    timed(run)
}

/// Twice the lines, read with each masking and written with a mask plane; the greatest ratio.
pub fn growth() -> f64 {
    let long = Shape { height: 2 * SMALL.height, ..SMALL };
    let both = |masking| [long, SMALL].map(|shape| brushes(&KINDS[3], shape, 1, masking, 1));
    let ratios = [0, 1, 2].map(|masking| {
        let [whole, half] = both(masking);
        let what = format!("shape of 400 lines / 200 lines, masking {masking}");
        grown(&what, with_shape(&whole), with_shape(&half))
    });
    let [whole, half] = both(1);
    let writing = grown("writing with a mask, 400 lines / 200 lines", written(&whole[0]), written(&half[0]));
    ratios.into_iter().fold(writing, f64::max)
}
