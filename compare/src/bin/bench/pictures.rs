//! Many pictures of one file: the table of pictures, and rows from BODYs that it tells.

use crate::drawn::{Drawn, Shape, KINDS, SMALL};
use crate::timing::{grown, timed_alone, Timed};
use crate::within;
use compare::chunks::{chunk, group, Fields};
use compare::large::{forms, pictures_sharing, GROUPS};
use compare::picture_table::{fill, room};
use florinhado::{File, Header};
use second::LONGEST_FILE;
use std::hint::black_box;

/// Pictures of a contact sheet.
const FEW: usize = 400;
const TINY: Shape = Shape { width: 16, height: 16, planes: 5 };

/// Pictures that share a PROP of so many chunks.
const SHARING: (usize, usize) = (20_000, 60_000);

/// The most that each may take.
const TEN_TIMES: f64 = 12.0;
const OF_DECODING: f64 = 1.3;
const OF_ITS_OWN_FILE: f64 = 1.2;
const TWICE: f64 = 2.0;

fn heading(what: &str, one: &str, other: &str) {
    println!("\n{what:48} {one:>11} {other:>11} {:>10}", "ratio");
}

/// BMHD and CMAP of packed pictures of a shape.
fn shared_properties(shape: Shape) -> Vec<u8> {
    let Shape { width, height, planes } = shape;
    let (width, height, planes) = (width as u16, height as u16, planes as u8);
    let bmhd = Fields { width, height, planes, masking: 0, compression: 1 }.bmhd();
    [bmhd, chunk(b"CMAP", &[7; 96])].concat()
}

/// Small pictures of all kinds in turn, under one PROP.
fn sheet(count: usize) -> Vec<u8> {
    let picture = |n: usize| {
        let drawn = KINDS[n % KINDS.len()].picture(TINY, 1, n as u64);
        group(b"FORM", b"ILBM", &chunk(b"BODY", drawn.body().1))
    };
    let pictures: Vec<u8> = (0..count).flat_map(picture).collect();
    let prop = group(b"PROP", b"ILBM", &shared_properties(TINY));
    group(b"LIST", b"ILBM", &[prop, pictures].concat())
}

/// Header, palette and frame of each picture by the table.
fn by_table(file: &[u8], count: usize) -> Timed<'_> {
    let (mut table, mut frame) = (room(count), [0; 256]);
    timed_alone(move || {
        assert_eq!(fill(black_box(file), &mut table), Ok(count));
        for row in table.as_chunks::<30>().0 {
            let header = florinhado::bmhd(&file[row[5]..row[6]]).unwrap();
            black_box(&file[row[9]..row[10]]);
            florinhado::body_frame(&file[row[28]..row[29]], &header, &mut frame).unwrap();
            black_box(&frame);
        }
    })
}

/// The check of the file, and every BODY decoded by itself.
fn check_and_decode(file: &[u8]) -> Timed<'_> {
    let opened = File::new(file).unwrap();
    let header = opened.picture(0).unwrap().header().unwrap().value;
    let bodies: Vec<&[u8]> = opened.pictures().map(|picture| picture.body().unwrap()).collect();
    let mut frame = [0; 256];
    timed_alone(move || {
        florinhado::check(black_box(file)).unwrap();
        for body in &bodies {
            florinhado::body_frame(black_box(body), &header, &mut frame).unwrap();
            black_box(&frame);
        }
    })
}

/// Header, palette and frame of each picture by its number.
fn by_number(file: &[u8], count: usize) -> Timed<'_> {
    let mut frame = [0; 256];
    timed_alone(move || {
        for picture in 0..count {
            black_box(florinhado::header(black_box(file), picture).unwrap());
            black_box(florinhado::palette(file, picture, b"").unwrap());
            florinhado::frame(file, picture, &mut frame).unwrap();
            black_box(&frame);
        }
    })
}

/// A contact sheet, by the table and by the calls on a picture's number.
fn sheets() -> bool {
    let (few, many) = (sheet(FEW), sheet(10 * FEW));
    heading("16 by 16, 5 planes: header, palette, frame", "first", "second");
    let ratio = grown("4,000 pictures / 400", by_table(&many, 10 * FEW), by_table(&few, FEW));
    let mut good = within("ten times the pictures", ratio, TEN_TIMES);
    for (file, count) in [(&few, FEW), (&many, 10 * FEW)] {
        let what = format!("{count} pictures / check and decoding alone");
        good &= within(&what, grown(&what, by_table(file, count), check_and_decode(file)), OF_DECODING);
    }
    grown("400 pictures by number / by the table", by_number(&few, FEW), by_table(&few, FEW));
    good
}

/// The lines of the first picture of a file, after its table is made.
fn lines(file: &[u8]) -> Timed<'_> {
    let picture = File::new(file).unwrap().picture(0).unwrap();
    let (header, body): (Header, &[u8]) = (picture.header().unwrap().value, picture.body().unwrap());
    let mut row = [0; SMALL.width];
    timed_alone(move || {
        let mut start = 0;
        for _ in 0..header.height {
            start = florinhado::body_line(black_box(body), &header, start, &mut row).unwrap();
            black_box(&row);
        }
    })
}

/// A picture of 200 lines behind so many chunks, in a file of 16 MiB.
fn behind(picture: &Drawn, chunks: usize) -> Vec<u8> {
    let body = chunk(b"BODY", picture.body().1);
    let properties = shared_properties(SMALL);
    let room = (LONGEST_FILE - 12 - properties.len() - body.len()) / chunks;
    let others = chunk(b"DATA", &vec![0; (room - 8) / 2 * 2]).repeat(chunks);
    group(b"FORM", b"ILBM", &[properties, others, body].concat())
}

/// The lines of a picture in the longest files, beside those in a file of its own.
fn long_files() -> bool {
    heading("200 lines of 320 by 200, 5 planes", "16 MiB", "own file");
    let picture = KINDS[3].picture(SMALL, 1, 0);
    [("1,000,000 chunks before the BODY", 1_000_000), ("4 chunks before the BODY", 4)]
        .iter()
        .map(|(what, chunks)| {
            let file = behind(&picture, *chunks);
            within(what, grown(what, lines(&file), lines(&picture.file)), OF_ITS_OWN_FILE)
        })
        .fold(true, |all, one| all & one)
}

fn table(file: &[u8], pictures: usize) -> Timed<'_> {
    let mut table = room(pictures);
    timed_alone(move || assert_eq!(fill(black_box(file), &mut table), Ok(pictures)))
}

/// The table of very many pictures, beside the check and beside half of them.
fn many() -> bool {
    let (sharing, chunks) = SHARING;
    let (shared, twice) = (pictures_sharing(sharing, chunks), pictures_sharing(2 * sharing, chunks));
    let (empty, half) = (forms(GROUPS), forms(GROUPS / 2));
    let check = |file| timed_alone(move || florinhado::check(black_box(file)).unwrap());
    heading("the table of pictures beside the check", "table", "check");
    grown("20,000 sharing a PROP of 60,000 chunks", table(&shared, sharing), check(&shared));
    grown("1,398,100 empty FORMs", table(&empty, GROUPS), check(&empty));
    heading("twice the pictures", "whole", "half");
    let ratio = grown("40,000 sharing / 20,000", table(&twice, 2 * sharing), table(&shared, sharing));
    let good = within("twice the pictures that share", ratio, TWICE);
    let ratio = grown("1,398,100 empty FORMs / half", table(&empty, GROUPS), table(&half, GROUPS / 2));
    good & within("twice the empty FORMs", ratio, TWICE)
}

/// Prints the times; whether none is far beyond its limit.
pub fn within_limits() -> bool {
    let good = [sheets(), long_files(), many()];
    good == [true; 3]
}
