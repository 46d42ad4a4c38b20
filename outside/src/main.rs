//! `outside read FOLDER` reads the files of other programs, by the library and
//! by the second reader, and compares every pixel with the PPM beside each file,
//! which netpbm made, and which pixels show with the PBM, or all where there is
//! none. A picture of hold-and-modify is compared by netpbm's rule, and its
//! colours with the PPM that Pike made.
//! `outside as PROGRAM FILE` shows a picture by a program's rule, as a PPM.
//! `outside write FOLDER` has the library write pictures, with their pixels beside
//! them as PPM, for other programs to read; `outside brushes FOLDER` has it write
//! some with a mask plane or a transparent colour, with their shapes as PBM;
//! `outside colours FOLDER` some by hold-and-modify and half-bright, with their
//! pixels by each rule; `outside apart FOLDER` files on which readers differ.

mod make;
mod pbm;
mod picture;
mod ppm;
mod rule;

use pbm::Pbm;
use picture::{by_library, by_second, Picture};
use ppm::Ppm;
use rule::{ASK, OTHERS};
use std::fs;
use std::io::Write;
use std::path::{Path, PathBuf};
use std::process::ExitCode;

type Outcome<T> = Result<T, String>;

/// A reader by its name.
type Reader = (&'static str, fn(&[u8]) -> Picture);

fn main() -> ExitCode {
    let words: Vec<String> = std::env::args().skip(1).collect();
    let words: Vec<&str> = words.iter().map(String::as_str).collect();
    let done =
        match words[..] {
            ["read", folder] => read_all(Path::new(folder)),
            ["as", program, file] => show_as(program, Path::new(file)),
            ["write", folder] => make::pictures(Path::new(folder)),
            ["brushes", folder] => make::brushes(Path::new(folder)),
            ["colours", folder] => make::colours(Path::new(folder)),
            ["apart", folder] => make::apart(Path::new(folder)),
            _ => Err("use: outside read | write | brushes | colours | apart FOLDER, or as PROGRAM FILE"
                .to_string()),
        };
    match done {
        Ok(text) => {
            print!("{text}");
            ExitCode::SUCCESS
        }
        Err(text) => {
            eprintln!("{text}");
            ExitCode::FAILURE
        }
    }
}

fn bytes_of(path: &Path) -> Outcome<Vec<u8>> {
    fs::read(path).map_err(|error| format!("{}: {error}", path.display()))
}

/// What was compared.
#[derive(Default)]
struct Counts {
    files: usize,
    shapes: usize,
    held: usize,
    pixels: usize,
}

fn read_all(folder: &Path) -> Outcome<String> {
    let entries = fs::read_dir(folder).map_err(|error| format!("{}: {error}", folder.display()))?;
    let mut paths: Vec<PathBuf> = entries.map(|entry| entry.unwrap().path()).collect();
    paths.retain(|path| path.extension().is_some_and(|end| end == "ilbm" || end == "lbm"));
    paths.sort();
    let mut counts = Counts::default();
    for path in &paths {
        read_one(path, &mut counts).map_err(|text| format!("{}: {text}", path.display()))?;
    }
    let Counts { files, shapes, held, pixels } = counts;
    Ok(format!(
        "{files} files, {shapes} with a shape, {held} by hold-and-modify, {pixels} pixels by each reader, no difference\n"
    ))
}

/// The number that stands beside a file, or 0.
fn number_beside(path: &Path, kind: &str) -> usize {
    let text = fs::read_to_string(path.with_extension(kind)).ok();
    text.map_or(0, |text| text.trim().parse().expect("a number"))
}

/// Compares one file by both readers.
fn read_one(path: &Path, counts: &mut Counts) -> Outcome<()> {
    let file = bytes_of(path)?;
    let beside = |kind| Some(path.with_extension(kind)).filter(|path| path.exists());
    let picture = |kind| beside(kind).map(|path| Ppm::parse(&bytes_of(&path)?)).transpose();
    let (shown, held) = (picture("ppm")?, picture("pike.ppm")?);
    let shape = beside("pbm").map(|path| Pbm::parse(&bytes_of(&path)?)).transpose()?;
    let readers: [Reader; 2] = [("library", by_library), ("second reader", by_second)];
    for (name, read) in readers {
        let picture = read(&file);
        let known = number_beside(path, "refused");
        if picture.refused != known {
            return Err(format!("the {name} gives {}, known is {known}", picture.refused));
        }
        compare(&picture, path, shown.as_ref(), held.as_ref()).map_err(|text| format!("{name}: {text}"))?;
        picture.shaped_as(shape.as_ref()).map_err(|text| format!("{name}: {text}"))?;
    }
    counts.files += 1;
    counts.shapes += usize::from(shape.is_some());
    counts.held += usize::from(held.is_some());
    counts.pixels += shown.map_or(0, |shown| shown.pixels.len() / 3);
    Ok(())
}

/// Compares the colours with what programs show: those of hold-and-modify with netpbm's by its rule, and as
/// they are with Pike's; where the ask has them refused, with the number.
fn compare(picture: &Picture, path: &Path, shown: Option<&Ppm>, held: Option<&Ppm>) -> Outcome<()> {
    let known = number_beside(path, "colours");
    if known != 0 {
        return match picture.colours {
            Err(number) if number == known => Ok(()),
            _ => Err(format!("colours are not refused with {known}")),
        };
    }
    shown.map_or(Ok(()), |shown| picture.shown_as(shown))?;
    if picture.refused == 0 {
        picture.told()?.same_as(&picture.by_rule(&ASK)?)?;
    }
    held.map_or(Ok(()), |held| picture.told()?.same_as(held))
}

fn show_as(program: &str, path: &Path) -> Outcome<String> {
    let rule = OTHERS.into_iter().chain([ASK]).find(|rule| rule.name == program);
    let shown = by_library(&bytes_of(path)?).by_rule(&rule.ok_or("no such program")?)?.bytes();
    std::io::stdout().write_all(&shown).map_err(|error| error.to_string())?;
    Ok(String::new())
}
