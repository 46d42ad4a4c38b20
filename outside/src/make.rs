//! Pictures that the library writes for other programs to read.

use crate::pbm::Pbm;
use crate::picture::by_library;
use crate::rule::OTHERS;
use florinhado::Header;
use second::random::Random;
use std::fs;
use std::path::Path;

/// Widths around the bounds of a byte and of a word, and wider ones.
const WIDTHS: [u16; 12] = [1, 7, 8, 9, 15, 16, 17, 33, 100, 319, 640, 1999];

/// Those of brushes.
const NARROW: [u16; 6] = [1, 8, 15, 17, 33, 319];

/// One picture as a file.
fn written(fields: &Header, palette: &[u8], frame: &[u8]) -> Vec<u8> {
    masked(fields, palette, frame, &[])
}

/// The same with a shape for its mask plane.
fn masked(fields: &Header, palette: &[u8], frame: &[u8], shape: &[u8]) -> Vec<u8> {
    let mut file = vec![0; 900 + 4 * frame.len() * usize::from(fields.planes)];
    let length = florinhado::write_with_shape(fields, palette, frame, shape, &mut file);
    file.truncate(length.expect("a picture that can be written"));
    file
}

/// Runs of many lengths on the even lines, and noise on the others.
fn frame(random: &mut Random, fields: &Header) -> Vec<u8> {
    let colours = 1 << fields.planes;
    let mut frame = Vec::new();
    for y in 0..fields.height {
        let end = frame.len() + usize::from(fields.width);
        while frame.len() < end {
            let run = if y % 2 == 0 { random.between(1, 300) } else { 1 };
            let next = end.min(frame.len() + run);
            frame.resize(next, random.below(colours) as u8);
        }
    }
    frame
}

fn fields(width: u16, planes: u8, compression: u8) -> Header {
    Header {
        width,
        height: 1 + width % 5,
        masking: if width.is_multiple_of(3) { 2 } else { 0 },
        transparent: 1,
        planes,
        compression,
        x_aspect: 10,
        y_aspect: 11,
        page_width: 320,
        page_height: 200,
        ..Header::default()
    }
}

/// A picture of each width, plane count and compression, with its pixels.
pub fn pictures(folder: &Path) -> Result<String, String> {
    let mut random = Random::new(85);
    let mut count = 0;
    for planes in 1..=8 {
        for compression in 0..2 {
            for width in WIDTHS {
                let given = fields(width, planes, compression);
                let palette = random.bytes(3 << planes);
                let frame = frame(&mut random, &given);
                let name =
                    format!("planes{planes}_{}_{width}", ["plain", "packed"][usize::from(compression)]);
                save(folder, &name, &written(&given, &palette, &frame))?;
                count += 1;
            }
        }
    }
    Ok(format!("{count} pictures written\n"))
}

/// A picture of some widths and each plane count and compression, with a mask plane and with a transparent
/// colour, and which of its pixels show.
pub fn brushes(folder: &Path) -> Result<String, String> {
    let mut random = Random::new(1985);
    let mut count = 0;
    for planes in 1..=8 {
        for compression in 0..2 {
            for width in NARROW {
                for masking in 1..=2 {
                    let given = Header { masking, transparent: 1, ..fields(width, planes, compression) };
                    let name = format!("masking{masking}_planes{planes}_{compression}_{width}");
                    save_brush(folder, &name, &given, &mut random)?;
                    count += 1;
                }
            }
        }
    }
    Ok(format!("{count} brushes written\n"))
}

fn save_brush(folder: &Path, name: &str, given: &Header, random: &mut Random) -> Result<(), String> {
    let palette = random.bytes(3 << given.planes);
    let colours = frame(random, given);
    let bits = frame(random, &Header { planes: 1, ..*given });
    let (shape, bits) = match given.masking {
        1 => (&bits[..], bits.clone()),
        _ => (&[][..], colours.iter().map(|colour| u8::from(*colour != 1)).collect()),
    };
    save(folder, name, &masked(given, &palette, &colours, shape))?;
    let known = Pbm { width: given.width.into(), bits };
    put(folder, &format!("{name}.pbm"), &known.bytes())
}

/// Ways to colours, with the planes, the bits of CAMG and the palette's colours.
const MODES: [(&str, u8, u32, usize); 4] =
    [("held6", 6, 0x800, 16), ("held8", 8, 0x800, 64), ("both6", 6, 0x880, 16), ("half", 6, 0x80, 32)];

/// A picture of each way, some widths and each compression, with a whole palette.
pub fn colours(folder: &Path) -> Result<String, String> {
    let mut random = Random::new(1992);
    let mut count = 0;
    for (name, planes, modes, entries) in MODES {
        for compression in 0..2 {
            for width in NARROW {
                let given = fields(width, planes, compression);
                let (palette, frame) = (random.bytes(3 * entries), frame(&mut random, &given));
                let file = with_modes(&written(&given, &palette, &frame), modes);
                let packing = ["plain", "packed"][usize::from(compression)];
                save(folder, &format!("{name}_{packing}_{width}"), &file)?;
                count += 1;
            }
        }
    }
    Ok(format!("{count} pictures by hold-and-modify and half-bright written\n"))
}

/// A picture with a CAMG behind its BMHD.
fn with_modes(file: &[u8], modes: u32) -> Vec<u8> {
    const AFTER_BMHD: usize = 40;
    let (before, after) = (&file[8..AFTER_BMHD], &file[AFTER_BMHD..]);
    chunk(b"FORM", &[before, &chunk(b"CAMG", &modes.to_be_bytes()), after].concat())
}

/// The file, and the pixels that the library reads from it; of hold-and-modify also those by the rules of
/// other programs.
fn save(folder: &Path, name: &str, file: &[u8]) -> Result<(), String> {
    let picture = by_library(file);
    put(folder, &format!("{name}.ilbm"), file)?;
    put(folder, &format!("{name}.ppm"), &picture.told()?.bytes())?;
    for rule in OTHERS.iter().filter(|_| picture.held) {
        put(folder, &format!("{name}.{}.ppm", rule.name), &picture.by_rule(rule)?.bytes())?;
    }
    Ok(())
}

fn put(folder: &Path, name: &str, bytes: &[u8]) -> Result<(), String> {
    fs::write(folder.join(name), bytes).map_err(|error| format!("{name}: {error}"))
}

fn chunk(name: &[u8; 4], data: &[u8]) -> Vec<u8> {
    [&name[..], &(data.len() as u32).to_be_bytes(), data].concat()
}

/// Sound files that other programs read in their own way, or not at all: a
/// second CMAP after the BODY, a picture in a CAT, one with a shared palette in a
/// LIST, one with a lasso, and those whose palettes are longer or shorter than
/// their modes have them.
pub fn apart(folder: &Path) -> Result<String, String> {
    let given = fields(16, 2, 0);
    let frame: Vec<u8> = (0..32).map(|n| n % 4).collect();
    let palette = [0, 0, 0, 255, 0, 0, 0, 255, 0, 0, 0, 255];
    let alone = written(&given, &palette, &frame);
    let other = chunk(b"CMAP", &[99; 12]);
    let after = chunk(b"FORM", &[&alone[8..], &other[..]].concat());
    let cat = chunk(b"CAT ", &[&b"ILBM"[..], &alone].concat());
    let bare = written(&given, b"", &frame);
    let shared = chunk(b"PROP", &[&b"ILBM"[..], &chunk(b"CMAP", &palette)].concat());
    let list = chunk(b"LIST", &[&b"ILBM"[..], &shared, &bare].concat());
    let lasso = written(&Header { masking: 3, ..given }, &palette, &frame);
    for (name, file) in [("cmap_after_body", after), ("cat", cat), ("list", list), ("lasso", lasso)] {
        save(folder, name, &file)?;
    }
    palettes_apart(folder)?;
    Ok(String::new())
}

/// All numbers of so many planes in turn, with any palette of so many colours and these bits of CAMG.
const PALETTES: [(&str, u8, usize, u32); 7] = [
    ("palette_of_12_for_16", 4, 12, 0),
    ("no_palette", 4, 0, 0),
    ("held_palette_of_12", 6, 12, 0x800),
    ("half_palette_of_64", 6, 64, 0x80),
    ("half_palette_of_16", 6, 16, 0x80),
    ("half_with_5_planes", 5, 32, 0x80),
    ("half_with_7_planes", 7, 64, 0x80),
];

fn palettes_apart(folder: &Path) -> Result<(), String> {
    let mut random = Random::new(7);
    for (name, planes, entries, modes) in PALETTES {
        let given = Header { height: 1, masking: 0, ..fields(1 << planes, planes, 0) };
        let numbers: Vec<u8> = (0..1 << planes).map(|n: usize| n as u8).collect();
        let palette = random.bytes(3 * entries);
        save(folder, name, &with_modes(&written(&given, &palette, &numbers), modes))?;
    }
    Ok(())
}
