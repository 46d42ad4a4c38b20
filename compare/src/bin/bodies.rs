//! `bodies [SEED] [BODIES]`: makes pictures with damaged BODYs until the frame
//! of so many is refused with 26 or 27, and compares frame and scan lines with
//! the second reader: number, place, next place, leftover and every lent byte.

use compare::bodies::{picture, Fault, Faults};
use second::random::Random;
use std::process::ExitCode;
use std::time::Instant;

const SEED: u64 = 1985;
const BODIES: u64 = 100_000;

fn main() -> ExitCode {
    let words: Vec<u64> = std::env::args().skip(1).map(|word| word.parse().expect("a number")).collect();
    let seed = words.first().copied().unwrap_or(SEED);
    let bodies = words.get(1).copied().unwrap_or(BODIES);
    let start = Instant::now();
    let mut faults = Faults::default();
    let mut made = 0;
    while faults.ends.frames + faults.oversteps.frames < bodies {
        let mut random = Random::new(seed.wrapping_add(made));
        let picture = picture(&mut random);
        if let Err(text) = picture.compare(&mut random, &mut faults) {
            println!("seed {seed}, picture {made}: {text}\n{:02x?}", picture.file);
            return ExitCode::FAILURE;
        }
        made += 1;
    }
    let seconds = start.elapsed().as_secs_f64();
    println!("seed {seed}, {made} pictures, {bodies} damaged, no difference, {seconds:.1} s");
    let enough =
        [(26, &faults.ends), (27, &faults.oversteps)].map(|(number, fault)| told(number, fault, bodies));
    if enough == [true, true] {
        return ExitCode::SUCCESS;
    }
    println!("one of 26 and 27 was answered for less than a tenth");
    ExitCode::FAILURE
}

/// Prints what was counted; whether frames were refused so often enough.
fn told(number: u32, fault: &Fault, bodies: u64) -> bool {
    let Fault { frames, lines, places } = fault;
    println!("{number}: {frames} frames, {lines} scan lines, {} places", places.len());
    *frames >= bodies / 10
}
