//! Frames in colours: 32 different pictures of a kind in turn, into rooms for
//! colour numbers and for colours that are cleared before each while the clock
//! stands still. Beside them a plain program that makes the same colours of the
//! same colour numbers, and the fastest in Rust that we could write, which
//! decodes the BODY too.

use crate::drawn::{palette, Drawn, Kind, Shape, KINDS, SCANNED, SMALL};
use crate::outside::Outside;
use crate::timing::{grown, steady, Timed};
use crate::within;
use compare::plain;
use second::{Colouring, Header};
use std::hint::black_box;
use std::time::Instant;

/// The most that colours may take of the plain program and of the fastest, and of libavcodec with libswscale.
const OF_PLAIN: f64 = 1.0;
const OF_FASTEST: f64 = 1.4;
const OF_OUTSIDE: f64 = 1.0;

const PICTURES: u64 = 32;

/// A way to colours, with as many entries of a palette as it can show.
struct Mode {
    name: &'static str,
    planes: usize,
    view_mode: u32,
    entries: usize,
}

const MODES: [Mode; 6] = [
    Mode { name: "5 planes, palette", planes: 5, view_mode: 0, entries: 32 },
    Mode { name: "6 planes, palette", planes: 6, view_mode: 0, entries: 64 },
    Mode { name: "8 planes, palette", planes: 8, view_mode: 0, entries: 256 },
    Mode { name: "6 planes, half-bright", planes: 6, view_mode: 0x80, entries: 32 },
    Mode { name: "6 planes, hold-and-modify", planes: 6, view_mode: 0x800, entries: 16 },
    Mode { name: "8 planes, hold-and-modify", planes: 8, view_mode: 0x800, entries: 64 },
];

/// Pictures of one kind, mode and packing, and their colours.
struct Shown<'a> {
    mode: &'a Mode,
    compression: u8,
    palette: Vec<u8>,
    pictures: Vec<Drawn>,
    colours: Vec<Vec<u8>>,
}

impl Shown<'_> {
    fn new<'a>(kind: &Kind, mode: &'a Mode, shape: Shape, compression: u8, count: u64) -> Shown<'a> {
        let shape = Shape { planes: mode.planes, ..shape };
        let palette = palette(mode.entries);
        let picture = |number| kind.coloured(shape, compression, number, &palette, mode.view_mode);
        let pictures: Vec<Drawn> = (0..count).map(picture).collect();
        let pixels = 3 * shape.width * shape.height;
        let shown = |one: &Drawn| second::colour_frame(&one.file, 0, b"", pixels).map(|frame| frame.colours);
        let colours = pictures.iter().map(|one| shown(one).expect("a picture in colours")).collect();
        Shown { mode, compression, palette, pictures, colours }
    }

    fn by(&self) -> Colouring<'_> {
        Colouring { view_modes: self.mode.view_mode, palette: &self.palette }
    }

    /// The headers and BODYs.
    fn bodies(&self) -> Vec<(Header, &[u8])> {
        self.pictures.iter().map(Drawn::body).collect()
    }

    /// Shows all the pictures once, into a room for numbers and one for colours.
    fn timed<'a>(&self, mut show: impl FnMut(usize, &mut [u8], &mut [u8]) + 'a) -> Timed<'a> {
        let pixels = self.pictures[0].frame.len();
        let (mut numbers, mut colours) = (vec![0; pixels], vec![0; 3 * pixels]);
        let count = self.pictures.len();
        Box::new(move |times| {
            let mut seconds = 0.0;
            for number in (0..times).flat_map(|_| 0..count) {
                black_box(&mut numbers).fill(0);
                black_box(&mut colours).fill(0);
                let start = Instant::now();
                show(black_box(number), black_box(&mut numbers), black_box(&mut colours));
                seconds += start.elapsed().as_secs_f64();
            }
            seconds
        })
    }

    /// The same, after it has been seen to give the colours.
    fn seen<'a>(&self, mut show: impl FnMut(usize, &mut [u8], &mut [u8]) + 'a) -> Timed<'a> {
        for (number, known) in self.colours.iter().enumerate() {
            let (mut numbers, mut colours) = (vec![0; known.len() / 3], vec![0; known.len()]);
            show(number, &mut numbers, &mut colours);
            assert!(colours == *known, "other colours");
        }
        self.timed(show)
    }

    fn library(&self) -> Timed<'_> {
        self.seen(|number, _, colours| {
            assert_eq!(florinhado::colour_frame(&self.pictures[number].file, 0, b"", colours), Ok(0));
        })
    }

    /// By the header, the BODY, the view modes and the palette.
    fn of_body(&self) -> Timed<'_> {
        let header = florinhado::header(&self.pictures[0].file, 0).expect("a picture").value;
        let bodies = self.bodies();
        self.seen(move |number, _, colours| {
            let (body, mode) = (bodies[number].1, self.mode.view_mode);
            let told = florinhado::body_colour_frame(body, &header, mode, &self.palette, colours);
            assert_eq!(told, Ok(0));
        })
    }

    /// The library's colour numbers alone.
    fn numbers(&self) -> Timed<'_> {
        self.timed(|number, numbers, _| {
            assert_eq!(florinhado::frame(&self.pictures[number].file, 0, numbers), Ok(0));
        })
    }

    /// The plain program on colour numbers that it is given.
    fn plain_step(&self) -> Timed<'_> {
        let bodies = self.bodies();
        self.seen(move |number, _, colours| {
            plain::colours(&bodies[number].0, &self.by(), &self.pictures[number].frame, colours);
        })
    }

    /// The plain program on those that the library gives.
    fn plain_whole(&self) -> Timed<'_> {
        let bodies = self.bodies();
        self.seen(move |number, numbers, colours| {
            assert_eq!(florinhado::frame(&self.pictures[number].file, 0, numbers), Ok(0));
            plain::colours(&bodies[number].0, &self.by(), numbers, colours);
        })
    }

    fn fastest(&self) -> Timed<'_> {
        let bodies = self.bodies();
        self.seen(move |number, _, colours| {
            let (header, body) = &bodies[number];
            assert_eq!(plain::colours_by_table(header, &self.by(), body, colours), Ok(0));
        })
    }

    /// The first entry is black, so that it matters not what a line starts from.
    fn outside(&self, outside: &Outside) -> Timed<'_> {
        let shape = Shape { planes: self.mode.planes, ..SMALL };
        let Shown { mode, compression, palette, pictures, .. } = self;
        let mut show = outside.shower(shape, *compression, mode.view_mode, palette, pictures);
        self.seen(move |number, _, colours| show(number, colours))
    }
}

/// A line: microseconds of each program and the ratios; whether none is far beyond its limit.
fn line(kind: &Kind, mode: &Mode, compression: u8, outside: Option<&Outside>) -> bool {
    let shown = Shown::new(kind, mode, SMALL, compression, PICTURES);
    let mut programs = vec![
        shown.library(),
        shown.of_body(),
        shown.numbers(),
        shown.plain_step(),
        shown.plain_whole(),
        shown.fastest(),
    ];
    programs.extend(outside.map(|outside| shown.outside(outside)));
    let times = steady(programs);
    let each: String = times.iter().map(|time| format!(" {:8.1}", time / PICTURES as f64)).collect();
    let packing = ["plain", "packed"][usize::from(compression)];
    let [ours, _, numbers, step, whole, fastest] = times[..6] else { unreachable!("six programs") };
    let mut ratios = vec![
        ("the plain step", (ours - numbers) / step, OF_PLAIN),
        ("plain, whole", ours / whole, OF_PLAIN),
        ("the fastest", ours / fastest, OF_FASTEST),
    ];
    ratios.extend(times.get(6).map(|time| ("libavcodec", ours / time, OF_OUTSIDE)));
    let told: String = ratios.iter().map(|(_, ratio, _)| format!(" {ratio:7.2}")).collect();
    println!("{:9} {packing:6}{each}   /{told}", kind.name);
    let what = |other: &str| format!("{} {packing}, {}, of {other}", kind.name, mode.name);
    ratios
        .iter()
        .map(|(other, ratio, wanted)| within(&what(other), *ratio, *wanted))
        .fold(true, |all, one| all & one)
}

fn heading(mode: &Mode) {
    println!(
        "\n320 by 200, {}, {PICTURES} pictures in turn: microseconds of the library's colours, of those of",
        mode.name
    );
    println!(
        "a BODY, of its numbers, of the plain program alone and with these numbers, of the fastest, outside;"
    );
    let times: String = ["colours", "of BODY", "numbers", "step", "whole", "fastest", "outside"]
        .map(|name| format!(" {name:>8}"))
        .concat();
    let ratios: String = ["step", "whole", "fastest", "outside"].map(|name| format!(" {name:>7}")).concat();
    println!("{:16}{times}   /{ratios}", "and its ratios");
}

/// Prints the times; whether none is far beyond its limit.
pub fn within_limits(outside: Option<&Outside>) -> bool {
    let mut good = true;
    for mode in &MODES {
        heading(mode);
        let held = if mode.view_mode == 0x800 { &[SCANNED][..] } else { &[] };
        for compression in [1, 0] {
            for kind in KINDS.iter().chain(held) {
                good &= line(kind, mode, compression, outside);
            }
        }
    }
    good
}

/// Twice the lines, of each mode; the greatest ratio.
pub fn growth() -> f64 {
    let long = Shape { height: 2 * SMALL.height, ..SMALL };
    let ratio = |mode: &Mode| {
        let [whole, half] = [long, SMALL].map(|shape| Shown::new(&KINDS[3], mode, shape, 1, 1));
        let what = format!("colours of 400 lines / 200, {}", mode.name);
        grown(&what, whole.library(), half.library())
    };
    MODES.iter().map(ratio).fold(0.0, f64::max)
}
