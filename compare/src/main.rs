//! `compare [SEED] [FILES]`: every call beside the second reader, on the
//! worked examples, on changed samples, on generated files and on headers with
//! every set of faults. Stops at the first difference.

use compare::fixed::{examples, variations};
use compare::header_faults::HeaderFaults;
use compare::{brushes, dump, modes, worked, Origins, Subject, Tally};
use second::generate;
use second::random::Random;
use std::process::ExitCode;
use std::time::Instant;

const SEED: u64 = 1985;
const FILES: u64 = 120_000;

fn main() -> ExitCode {
    let words: Vec<u64> = std::env::args().skip(1).map(|word| word.parse().expect("a number")).collect();
    let seed = words.first().copied().unwrap_or(SEED);
    let files = words.get(1).copied().unwrap_or(FILES);
    let start = Instant::now();
    let mut tally = Tally::default();
    let (mut origins, mut shapes, mut colours) = (Origins::default(), brushes::none(), modes::none());
    let compared = compare_examples(&mut tally)
        .and_then(|()| compare_worked(&mut tally))
        .and_then(|()| compare_variations(&mut tally))
        .and_then(|()| {
            compare_generated(&mut tally, seed, files, |subject| {
                origins.count(subject);
                brushes::count(&mut shapes, subject);
                modes::count(&mut colours, subject);
            })
        })
        .and_then(|()| HeaderFaults::compare(&mut Random::new(seed)));
    let faults = match compared {
        Ok(faults) => faults,
        Err(text) => {
            println!("{text}");
            return ExitCode::FAILURE;
        }
    };
    println!("seed {seed}, {files} files, no difference, {:.1} s", start.elapsed().as_secs_f64());
    print!("{}{}{}{}{}", tally.text(), origins.text(), shapes.text(), colours.text(), faults.text());
    let rare = [tally.rare(), origins.rare(), shapes.rare(), colours.rare(), faults.rare()].concat();
    if files >= FILES && !rare.is_empty() {
        println!("a hundred times or less: {}", rare.join(", "));
        return ExitCode::FAILURE;
    }
    ExitCode::SUCCESS
}

fn compare_examples(tally: &mut Tally) -> Result<(), String> {
    for example in examples() {
        let told = florinhado::check(&example.file).map_or_else(|told| (told.number, told.place), |_| (0, 0));
        if told != (example.number, example.place) {
            return Err(format!("{}: check gives {told:?}\n{}", example.name, dump(&example.file)));
        }
        compare_file(example.name, &mut Random::new(0), &example.file, tally)?;
    }
    Ok(())
}

/// The examples with more to them than an answer to the check.
fn compare_worked(tally: &mut Tally) -> Result<(), String> {
    worked::compare()?;
    let mut random = Random::new(0);
    worked::files()
        .iter()
        .try_for_each(|file| compare_file("worked example", &mut random, file, tally).map(drop))
}

fn compare_variations(tally: &mut Tally) -> Result<(), String> {
    let mut random = Random::new(0);
    variations().try_for_each(|file| compare_file("changed sample", &mut random, &file, tally).map(drop))
}

/// Each file has a seed of its own, so that it can be had again alone; it is counted afterwards.
fn compare_generated(
    tally: &mut Tally,
    seed: u64,
    files: u64,
    mut count: impl FnMut(&Subject),
) -> Result<(), String> {
    (0..files).map(|number| seed.wrapping_add(number)).try_for_each(|own| {
        let mut random = Random::new(own);
        let file = generate::file(&mut random);
        count(&compare_file(&format!("seed {own}"), &mut random, &file, tally)?);
        Ok(())
    })
}

/// Compares every call on the file, which is given back with what the second reader tells of it.
fn compare_file(what: &str, random: &mut Random, file: &[u8], tally: &mut Tally) -> Result<Subject, String> {
    let subject = Subject::new(random, file);
    let compared = subject.compare(random, tally);
    compared.map_err(|text| format!("{what}: {text}\n{}", dump(file)))?;
    Ok(subject)
}
