//! Properties over generated files, and how often each number is answered.

use second::generate::{self, Query};
use second::random::Random;
use second::{body_colour_frame, body_colour_line, body_frame, body_line, body_shape_frame, body_shape_line};
use second::{check, clean_copy, data, fill_table, frame, listing_text, pack, palette, properties};
use second::{colour_frame, colour_line, count_pictures, header_fields, palette_triples, triples};
use second::{picture_rows, record, records, scan_line, shape_frame, shape_line, write_picture};
use second::{Colouring, Frame, Kind, Lent, Origin, Refused};
use std::collections::BTreeMap;

/// A number from the environment, or the usual one.
fn setting(name: &str, usual: u64) -> u64 {
    std::env::var(name).map_or(usual, |word| word.parse().expect("a number"))
}

fn seed() -> u64 {
    setting("SEED", 1985)
}

fn files() -> usize {
    setting("FILES", 20_000) as usize
}

/// How often each number was answered; 0 stands for success.
#[derive(Default)]
struct Tally(BTreeMap<u32, usize>);

impl Tally {
    fn add<T>(&mut self, answer: &Result<T, Refused>) {
        let number = answer.as_ref().err().map_or(0, |refused| refused.number);
        *self.0.entry(number).or_default() += 1;
    }

    fn needs(&self, numbers: impl IntoIterator<Item = u32>) {
        println!("seed {}: {:?}", seed(), self.0);
        for number in numbers {
            assert!(self.0.contains_key(&number), "{number} never answered, seed {}", seed());
        }
    }
}

/// Calls `each` with every generated file and the numbers that follow it.
fn for_files(mut each: impl FnMut(&[u8], &mut Random)) {
    let mut random = Random::new(seed());
    for _ in 0..files() {
        let file = generate::file(&mut random);
        each(&file, &mut random.clone());
    }
}

#[test]
fn structure_numbers() {
    let mut tally = Tally::default();
    let mut long = 0;
    for_files(|file, _| {
        let answer = check(file);
        tally.add(&answer);
        long += usize::from(file.len() >= 4096);
    });
    tally.needs(0..=12);
    assert!(tally.0[&0] > files() / 5 && long < files() / 10, "{long} long files");
}

#[test]
fn refusals_have_a_place_at_a_header() {
    for_files(|file, _| {
        if let Err(refused) = check(file) {
            let early = matches!(refused.number, 1 | 2);
            assert!(if early { refused.place == 0 } else { refused.place < file.len() });
            assert_eq!(records(file), Err(refused));
            assert_eq!(properties(file, 0), Err(refused));
            assert_eq!(palette(file, 0, b"").err(), Some(refused));
            assert_eq!(clean_copy(file, 0), Err(refused));
        }
    });
}

#[test]
fn listings_agree() {
    let mut tally = Tally::default();
    for_files(|file, random| {
        let Ok(all) = records(file) else { return };
        assert_eq!(all.len(), check(file).unwrap().chunks);
        let number = random.below(all.len() + 1);
        let one = record(file, number);
        assert_eq!(one.ok(), all.get(number).copied());
        tally.add(&one);
        tally.add(&data(file, number));
        let mut table = vec![all[0]; random.between(all.len() - 1, all.len() + 1)];
        let filled = fill_table(file, &mut table);
        tally.add(&filled);
        assert!(filled.is_err() || table[..all.len()] == all);
        let lines = listing_text(file).iter().filter(|byte| **byte == b'\n').count();
        assert!(file.len() > 65_536 || lines == 6 + 6 * all.len());
    });
    tally.needs([0, 13, 14, 15]);
}

#[test]
fn clean_copies_are_accepted() {
    for_files(|file, _| {
        let Ok(told) = check(file) else { return };
        let copy = clean_copy(file, told.end).unwrap();
        assert_eq!(clean_copy(file, told.end - 1).unwrap_err().number, 32);
        let again = check(&copy).unwrap();
        assert_eq!((again.chunks, again.end, again.trailing), (told.chunks, told.end, 0));
        assert_eq!(records(&copy), records(file));
        assert_eq!(clean_copy(&copy, told.end), Ok(copy.clone()));
        for one in records(file).unwrap().iter().filter(|one| !one.kind.is_group()) {
            assert_eq!(data(&copy, one.number), data(file, one.number));
            assert!(one.size % 2 == 0 || copy[one.place + 8 + one.size] == 0);
        }
        assert_eq!(properties(&copy, 0), properties(file, 0));
    });
}

#[test]
fn picture_numbers() {
    let (mut tally, mut shapes) = (Tally::default(), Tally::default());
    for_files(|file, random| {
        let Query { picture, start, row, frame: lent, .. } = generate::query(random, file);
        let told = properties(file, picture);
        assert_eq!(palette(file, picture, b"rgb").err(), told.as_ref().err().copied());
        tally.add(&told);
        let line = scan_line(file, picture, start, row.colours);
        tally.add(&line);
        let shaped = shape_line(file, picture, start, row);
        shapes.add(&shaped);
        assert!(shaped.is_err() || Ok(shaped.unwrap().pixels) == line);
        assert!(line.is_err() || line.unwrap().colours.len() == row.colours);
        let whole = frame(file, picture, lent.colours);
        tally.add(&whole);
        let shaped = shape_frame(file, picture, lent);
        shapes.add(&shaped);
        assert!(shaped.is_err() || Ok(shaped.unwrap().pixels) == whole);
    });
    tally.needs([0].into_iter().chain(20..=29).chain(41..=43));
    shapes.needs([0].into_iter().chain(20..=29).chain(41..=44));
}

#[test]
fn colour_numbers() {
    let (mut lines, mut frames, mut palettes) = (Tally::default(), Tally::default(), Tally::default());
    for_files(|file, random| {
        let asked = generate::query(random, file);
        let default = generate::default_palette(random);
        lines.add(&colour_line(file, asked.picture, asked.start, &default, asked.colour_row));
        frames.add(&colour_frame(file, asked.picture, &default, asked.colour_frame));
        let room = generate::triples_room(random);
        palettes.add(&triples(file, asked.picture, &default, room));
    });
    lines.needs([0].into_iter().chain(20..=29).chain([41, 42, 43, 46]));
    frames.needs([0].into_iter().chain(20..=28).chain([41, 42, 43, 46]));
    palettes.needs([0].into_iter().chain(20..=24).chain([32, 41, 42, 43]));
}

/// The table has an answer for each picture, and with the BODY what the calls by number give.
#[test]
fn tables_agree() {
    let mut shown = 0;
    for_files(|file, _| {
        let rows = picture_rows(file);
        assert_eq!(rows.as_ref().map(Vec::len).map_err(|refused| *refused), count_pictures(file));
        for (number, row) in rows.iter().flatten().enumerate() {
            let told = properties(file, number);
            assert_eq!(row.answer, told.as_ref().map_or_else(|refused| refused.number, |_| 0));
            let Ok(told) = told else { continue };
            let header = header_fields(&file[row.properties[0].value.clone().unwrap()]).unwrap();
            assert_eq!(header, told.header);
            assert_eq!((&row.properties[1], &row.body), (&told.colour_map, &told.body));
            let Some(body) = &row.body else { continue };
            let size = usize::from(header.width) * usize::from(header.height);
            let whole = body_frame(&file[body.clone()], &header.layout(), header.height, size);
            assert_eq!(whole, frame(file, number, size));
            shown += usize::from(whole.is_ok());
        }
    });
    assert!(shown > files() / 20, "{shown} frames shown");
}

#[test]
fn body_numbers() {
    let mut random = Random::new(seed());
    let (mut lines, mut frames, mut headers) = (Tally::default(), Tally::default(), Tally::default());
    let (mut shape_lines, mut shape_frames) = (Tally::default(), Tally::default());
    for _ in 0..files() {
        let input = generate::body_input(&mut random);
        let generate::BodyInput { body, layout, transparent, height, start, row, frame, .. } = &input;
        lines.add(&body_line(body, layout, *start, row.colours));
        frames.add(&body_frame(body, layout, *height, frame.colours));
        shape_lines.add(&body_shape_line(body, layout, *transparent, *start, *row));
        shape_frames.add(&body_shape_frame(body, layout, *transparent, *height, *frame));
        headers.add(&header_fields(&generate::header_input(&mut random)));
    }
    lines.needs([0, 24, 26, 27, 28, 29, 41, 42, 43]);
    frames.needs([0, 24, 26, 27, 28, 41, 42, 43]);
    shape_lines.needs([0, 24, 26, 27, 28, 29, 41, 42, 43, 44]);
    shape_frames.needs([0, 24, 26, 27, 28, 41, 42, 43, 44]);
    headers.needs([0, 23]);
}

#[test]
fn body_colour_numbers() {
    let mut random = Random::new(seed());
    let (mut lines, mut frames, mut palettes) = (Tally::default(), Tally::default(), Tally::default());
    for _ in 0..files() {
        let input = generate::body_input(&mut random);
        let generate::BodyInput { body, layout, height, start, view_modes, palette, .. } = &input;
        let by = Colouring { view_modes: *view_modes, palette };
        lines.add(&body_colour_line(body, layout, &by, *start, input.colour_row));
        frames.add(&body_colour_frame(body, layout, &by, *height, input.colour_frame));
        let (planes, room) = (generate::triples_mode(&mut random).0, generate::triples_room(&mut random));
        palettes.add(&palette_triples(&by, planes, room));
    }
    lines.needs([0, 24, 26, 27, 28, 29, 41, 42, 43, 46]);
    frames.needs([0, 24, 26, 27, 28, 41, 42, 43, 46]);
    palettes.needs([0, 32]);
}

/// How colours are made, by the planes and the bits 11 and 7 of CAMG.
type Mode = (u8, bool, bool);

/// A frame in colours is its scan lines in turn, and every mode is met with numbers of every kind.
#[test]
fn colours_are_varied() {
    let mut met = BTreeMap::<Mode, [usize; 4]>::new();
    for_files(|file, random| {
        let picture = generate::query(random, file).picture;
        let default = generate::default_palette(random);
        let Ok(told) = properties(file, picture) else { return };
        let (width, height) = (usize::from(told.header.width), usize::from(told.header.height));
        let Ok(whole) = colour_frame(file, picture, &default, 3 * width * height) else { return };
        let numbers = frame(file, picture, width * height).unwrap().colours;
        let mut place = 0;
        for pixels in whole.colours.chunks(3 * width) {
            let line = colour_line(file, picture, place, &default, 3 * width).unwrap();
            assert_eq!(line.colours, pixels);
            place = line.next;
        }
        let modes = told.view_modes.value.unwrap_or(0);
        let planes = told.header.planes;
        let kinds = met.entry((planes, modes & 0x800 != 0, modes & 0x80 != 0)).or_default();
        for (kind, count) in kinds.iter_mut().enumerate() {
            let high = |number: &u8| usize::from(number >> planes.saturating_sub(2)) == kind;
            *count += usize::from(numbers.iter().any(high));
        }
    });
    println!("seed {}: planes, bit 11, bit 7, with the high bits 0 to 3: {met:?}", seed());
    let held = [6, 8].into_iter().flat_map(|planes| [false, true].map(|half| (planes, true, half)));
    let others = (2..=8).flat_map(|planes| [false, true].map(|half| (planes, false, half)));
    for mode in held.chain(others) {
        let least = met.get(&mode).map_or(0, |kinds| *kinds.iter().min().unwrap());
        assert!(least > files() / 1000, "{mode:?} {least} times");
    }
}

/// A frame's shape is that of its scan lines in turn, and every case of it is met.
#[test]
fn shapes_are_varied() {
    let mut met = BTreeMap::<_, usize>::new();
    for_files(|file, random| {
        let picture = generate::query(random, file).picture;
        let Ok(header) = properties(file, picture).map(|told| told.header) else { return };
        let (width, height) = (usize::from(header.width), usize::from(header.height));
        let lent = |pixels| Lent { colours: pixels, shape: pixels };
        let Ok(whole) = shape_frame(file, picture, lent(width * height)) else { return };
        let mut place = 0;
        for shape in whole.shape.chunks(width) {
            let line = shape_line(file, picture, place, lent(width)).unwrap();
            assert_eq!(line.shape, shape);
            place = line.pixels.next;
        }
        let over = header.masking == 2 && header.transparent_color > 255;
        let (hidden, shown) = (whole.shape.contains(&0), whole.shape.contains(&1));
        assert!(!hidden || header.masking == 1 || header.masking == 2 && !over);
        *met.entry((header.masking, over, hidden, shown)).or_default() += 1;
    });
    println!("seed {}: masking, over 255, hidden, shown: {met:?}", seed());
    let often = |case| met.get(&case).copied().unwrap_or(0) > files() / 100;
    let cases = [(0, false, false, true), (1, false, true, true), (2, false, true, true)];
    assert!(cases.into_iter().all(often), "hidden and shown");
    assert!(often((2, false, false, true)) && often((2, true, false, true)), "a colour that isn't there");
    let rare = [(1, false, false, true), (1, false, true, false), (2, false, true, false)];
    assert!(rare.iter().all(|case| met.contains_key(case)), "all hidden, all shown");
}

/// A frame is its scan lines in turn.
#[test]
fn frames_are_scan_lines() {
    let mut read = 0;
    for_files(|file, random| {
        let picture = generate::query(random, file).picture;
        let Ok(told) = properties(file, picture) else { return };
        let Some(body) = told.body else { return };
        let (width, height) = (usize::from(told.header.width), usize::from(told.header.height));
        let whole = frame(file, picture, width * height);
        let (mut colours, mut place) = (Vec::new(), 0);
        for _ in 0..height {
            match scan_line(file, picture, place, width) {
                Err(refused) => return assert_eq!(whole, Err(refused)),
                Ok(line) => {
                    place = line.next;
                    colours.extend(line.colours);
                }
            }
        }
        assert_eq!(whole, Ok(Frame { colours, leftover: body.len() - place }));
        read += 1;
    });
    assert!(read > files() / 20, "{read} frames read");
}

#[test]
fn packed_rows_read_back() {
    let mut random = Random::new(seed());
    let mut tally = Tally::default();
    for _ in 0..files() {
        let input = generate::row_input(&mut random);
        let answer = pack(&input.row, input.room);
        tally.add(&answer);
        let Ok(packed) = answer else { continue };
        assert!(packed.len() <= input.row.len() + input.row.len().div_ceil(128));
        assert_eq!(unpacked(&packed), input.row);
    }
    tally.needs([0, 31, 32]);
}

/// Expands sound ByteRun1 data, for the test alone.
fn unpacked(mut packed: &[u8]) -> Vec<u8> {
    let mut row = Vec::new();
    while let [code, rest @ ..] = packed {
        let code = usize::from(*code);
        if code < 128 {
            row.extend(&rest[..code + 1]);
            packed = &rest[code + 1..];
        } else {
            row.extend(std::iter::repeat_n(rest[0], 257 - code));
            packed = &rest[1..];
        }
    }
    row
}

#[test]
fn written_pictures_read_back() {
    let mut random = Random::new(seed());
    let mut tally = Tally::default();
    for _ in 0..files() {
        let input = generate::writer_input(&mut random);
        let answer = write_picture(&input.fields, &input.palette, &input.frame, &input.shape, input.room);
        tally.add(&answer);
        let Ok(file) = answer else { continue };
        assert_eq!(check(&file).unwrap().end, file.len());
        assert_eq!(clean_copy(&file, file.len()), Ok(file.clone()));
        let (header, given) = (properties(&file, 0).unwrap().header, input.fields);
        assert_eq!(
            (header.width, header.height, header.x, header.y),
            (given.width, given.height, given.x, given.y)
        );
        assert_eq!(
            (header.planes, header.masking, header.compression),
            (given.planes, given.masking, given.compression)
        );
        assert_eq!((header.pad1, header.transparent_color), (0, given.transparent_color));
        assert_eq!((header.x_aspect, header.y_aspect), (given.x_aspect, given.y_aspect));
        assert_eq!((header.page_width, header.page_height), (given.page_width, given.page_height));
        assert_eq!(palette(&file, 0, b""), Ok(&input.palette[..]));
        let read = frame(&file, 0, input.frame.len()).unwrap();
        assert_eq!((read.colours, read.leftover), (input.frame, 0));
        if given.masking == 1 {
            let lent = Lent { colours: input.shape.len(), shape: input.shape.len() };
            assert_eq!(shape_frame(&file, 0, lent).unwrap().shape, input.shape);
        }
    }
    let huge = generate::oversize_writer_input(&mut random);
    tally.add(&write_picture(&huge.fields, &huge.palette, &huge.frame, &huge.shape, huge.room));
    tally.needs([0, 32, 33, 34, 35, 45]);
}

#[test]
fn same_seed_same_files() {
    let make = |seed| generate::file(&mut Random::new(seed));
    assert!((0..200).all(|seed| make(seed) == make(seed)));
}

/// Generated pictures cover every plane count, mask, compression and origin.
#[test]
fn pictures_are_varied() {
    let mut planes = [0; 9];
    let mut kinds = std::collections::HashSet::new();
    let mut levels = [0; 18];
    for_files(|file, random| {
        let Ok(all) = records(file) else { return };
        for one in &all {
            levels[one.level] += 1;
            kinds.insert(format!("{:?}", one.kind));
        }
        let picture = generate::query(random, file).picture;
        let Ok(told) = properties(file, picture) else { return };
        planes[usize::from(told.header.planes)] += 1;
        kinds.insert(format!(
            "header {}, map {}",
            origin(told.header_origin),
            origin(told.colour_map.origin)
        ));
        kinds.insert(format!("mask {} packed {}", told.header.masking, told.header.compression));
        let inside = all.iter().any(|one| one.kind == Kind::Form && one.level > 10);
        kinds.insert(format!("deep {inside}"));
    });
    println!("seed {}: planes {planes:?}, levels {levels:?}, {kinds:?}", seed());
    assert!(planes.iter().all(|count| *count > 0) && levels[1..].iter().all(|count| *count > 0));
    assert!(kinds.len() >= 6 + 6 + 8 + 2, "{kinds:?}");
}

fn origin(origin: Origin) -> &'static str {
    match origin {
        Origin::Own => "own",
        Origin::Shared(_) => "shared",
        Origin::Absent => "absent",
    }
}
