//! `additions [SEED] [LISTS]`: for each list, a file before and after what a
//! later writer adds to it. Stops at the first difference; fails too if some
//! kind of addition at some kind of boundary never came up.

use compare::additions::compare_list;
use compare::Census;
use second::random::Random;
use std::process::ExitCode;
use std::time::Instant;

const SEED: u64 = 1985;
const LISTS: u64 = 8_000;

fn main() -> ExitCode {
    let words: Vec<u64> = std::env::args().skip(1).map(|word| word.parse().expect("a number")).collect();
    let seed = words.first().copied().unwrap_or(SEED);
    let lists = words.get(1).copied().unwrap_or(LISTS);
    let start = Instant::now();
    let mut census = Census::default();
    if let Err(text) = compare_lists(&mut census, seed, lists) {
        println!("{text}");
        return ExitCode::FAILURE;
    }
    println!("seed {seed}, {lists} lists, no difference, {:.1} s", start.elapsed().as_secs_f64());
    print!("{}", census.text());
    let missing = census.missing();
    if lists >= LISTS && !missing.is_empty() {
        println!("never made: {}", missing.join("; "));
        return ExitCode::FAILURE;
    }
    ExitCode::SUCCESS
}

/// Each list has a seed of its own, so that it can be had again alone.
fn compare_lists(census: &mut Census, seed: u64, lists: u64) -> Result<(), String> {
    (0..lists).map(|number| seed.wrapping_add(number)).try_for_each(|own| {
        compare_list(&mut Random::new(own), census).map_err(|text| format!("seed {own}: {text}"))
    })
}
