//! `second list` prints the listing of standard input, `second answers` all
//! that is told of it, `second files SEED COUNT FOLDER` writes generated files.

use second::random::Random;
use second::{check, clean_copy, colour_frame, count_pictures, frame, generate, listing_text, palette};
use second::{properties, scan_line, shape_frame, triples, Lent};
use std::io::{Read, Write};

fn main() -> std::io::Result<()> {
    let words: Vec<String> = std::env::args().skip(1).collect();
    let words: Vec<&str> = words.iter().map(String::as_str).collect();
    match words[..] {
        ["list"] => std::io::stdout().write_all(&listing_text(&standard_input()?)),
        ["answers"] => std::io::stdout().write_all(answers(&standard_input()?).as_bytes()),
        ["files", seed, count, folder] => write_files(number(seed), number(count), folder),
        _ => Err(std::io::Error::other("use: second list | answers | files SEED COUNT FOLDER")),
    }
}

fn standard_input() -> std::io::Result<Vec<u8>> {
    let mut input = Vec::new();
    std::io::stdin().read_to_end(&mut input)?;
    Ok(input)
}

fn number(word: &str) -> u64 {
    word.parse().unwrap_or_else(|_| panic!("not a number: {word}"))
}

/// Writes each file under its number; file n is the first one of seed + n.
fn write_files(seed: u64, count: u64, folder: &str) -> std::io::Result<()> {
    std::fs::create_dir_all(folder)?;
    for n in 0..count {
        let file = generate::file(&mut Random::new(seed.wrapping_add(n)));
        std::fs::write(format!("{folder}/{n:06}.iff"), file)?;
    }
    println!("seed {seed}: {count} files in {folder}");
    Ok(())
}

/// Everything told of a file, one answer a line.
fn answers(file: &[u8]) -> String {
    let mut text = format!("check {:?}\n", check(file));
    text += &format!("copy {:?}\n", clean_copy(file, file.len()).map(|copy| sum(&copy)));
    for picture in 0..=count_pictures(file).unwrap_or(0) {
        text += &picture_answers(file, picture);
    }
    text
}

fn picture_answers(file: &[u8], picture: usize) -> String {
    let found = properties(file, picture);
    let mut text = format!("picture {picture}\nproperties {found:?}\n");
    text += &format!("palette {:?}\n", palette(file, picture, b"default").map(sum));
    let Ok(found) = found else { return text };
    let (width, height) = (usize::from(found.header.width), usize::from(found.header.height));
    let mut place = 0;
    for y in 0..height {
        let Ok(line) = scan_line(file, picture, place, width) else { break };
        place = line.next;
        text += &format!("line {y} next {place} sum {:016x}\n", sum(&line.colours));
    }
    let whole = frame(file, picture, width * height);
    text += &format!("frame {:?}\n", whole.map(|whole| (sum(&whole.colours), whole.leftover)));
    let shaped = shape_frame(file, picture, Lent { colours: width * height, shape: width * height });
    text += &format!("shape {:?}\n", shaped.map(|shaped| sum(&shaped.shape)));
    let coloured = colour_frame(file, picture, b"default", 3 * width * height);
    text += &format!("colours {:?}\n", coloured.map(|coloured| sum(&coloured.colours)));
    let entries = triples(file, picture, b"default", 192);
    text + &format!("triples {:?}\n", entries.map(|entries| sum(entries.as_flattened())))
}

/// A 64-bit checksum (FNV-1a).
fn sum(bytes: &[u8]) -> u64 {
    let mix = |sum: u64, byte: &u8| (sum ^ u64::from(*byte)).wrapping_mul(0x0000_0100_0000_01b3);
    bytes.iter().fold(0xcbf2_9ce4_8422_2325, mix)
}
