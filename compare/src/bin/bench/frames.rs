//! Frame decoding: 32 different pictures of a kind in turn, so that no branch
//! predictor learns one. The frame is cleared before each, and the clock stands
//! still meanwhile.

use crate::drawn::{Drawn, Kind, Shape, KINDS, SMALL};
use crate::outside::Outside;
use crate::timing::{grown, steady, Timed};
use compare::plain;
use second::{Header, Refused};
use std::hint::black_box;
use std::time::Instant;

/// The shapes with how many different pictures of a kind are decoded in turn.
const SHAPES: [(Shape, u64); 4] = [
    (SMALL, 32),
    (Shape { width: 640, height: 512, planes: 4 }, 32),
    (Shape { width: 1_280, height: 1_024, planes: 8 }, 8),
    (Shape { width: 65_535, height: 24, planes: 8 }, 8),
];

/// Decodes all the pictures once into a frame that is cleared before each.
fn decoded<'a>(pictures: &'a [Drawn], mut decode: impl FnMut(usize, &mut [u8]) + 'a) -> Timed<'a> {
    let mut frame = vec![0; pictures[0].frame.len()];
    for (number, picture) in pictures.iter().enumerate() {
        decode(number, &mut frame);
        assert!(frame == picture.frame, "another frame");
        frame.fill(0);
    }
    Box::new(move |times| {
        let mut seconds = 0.0;
        for number in (0..times).flat_map(|_| 0..pictures.len()) {
            black_box(&mut frame).fill(0);
            let start = Instant::now();
            decode(black_box(number), black_box(&mut frame));
            seconds += start.elapsed().as_secs_f64();
        }
        seconds
    })
}

fn library(pictures: &[Drawn]) -> Timed<'_> {
    decoded(pictures, |number, frame| {
        assert_eq!(florinhado::frame(&pictures[number].file, 0, frame), Ok(0));
    })
}

/// A plain decoder is given the header and the BODY, and a cleared frame.
type Decode = fn(&Header, &[u8], &mut [u8]) -> Result<usize, Refused>;

fn plain(pictures: &[Drawn], decode: Decode) -> Timed<'_> {
    let bodies: Vec<_> = pictures.iter().map(Drawn::body).collect();
    decoded(pictures, move |number, frame| {
        let (header, body) = &bodies[number];
        assert_eq!(decode(header, body, frame), Ok(0));
    })
}

fn line(kind: &Kind, shape: Shape, compression: u8, count: u64, outside: Option<&Outside>) {
    let pictures: Vec<_> = (0..count).map(|number| kind.picture(shape, compression, number)).collect();
    let mut programs =
        vec![library(&pictures), plain(&pictures, plain::frame), plain(&pictures, plain::frame_by_table)];
    programs.extend(outside.map(|outside| outside.decoder(shape, compression, &pictures)));
    let times = steady(programs);
    let each: String = times.iter().map(|time| format!(" {:10.1}", time / count as f64)).collect();
    let ratios: String = times[1..].iter().map(|other| format!(" {:8.3}", times[0] / other)).collect();
    let packing = ["plain", "packed"][usize::from(compression)];
    println!("{:10} {packing:6}{each}   /{ratios}", kind.name);
}

/// Each kind, shape and packing, with libavcodec where it is.
pub fn against_others(outside: Option<&Outside>) {
    for (shape, count) in SHAPES {
        let Shape { width, height, planes } = shape;
        println!(
            "\nframe of {width} by {height}, {planes} planes, {count} pictures in turn: microseconds, and"
        );
        println!("the library / each   library bit by bit      table libavcodec");
        for compression in [1, 0] {
            KINDS.iter().for_each(|kind| line(kind, shape, compression, count, outside));
        }
    }
}

pub fn growth() -> f64 {
    let long = Shape { height: 2 * SMALL.height, ..SMALL };
    let [whole, half] = [long, SMALL].map(|shape| [KINDS[3].picture(shape, 1, 0)]);
    grown("frame of 400 lines / 200 lines", library(&whole), library(&half))
}
