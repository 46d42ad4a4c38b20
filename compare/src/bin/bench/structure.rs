//! The check and a record by number, on the largest files.

use crate::timing::{beside, grown, heading, timed};
use compare::large::{forms, leaves, props, shared_from_afar, GROUPS, LEAVES};
use compare::{plain, CALLS};
use std::hint::black_box;

fn check(what: &str, file: &[u8]) {
    let ours = timed(|| florinhado::check(black_box(file)));
    let second = timed(|| second::check(black_box(file)));
    let plain = timed(|| plain::check(black_box(file)));
    beside(&format!("check, {what}"), [ours, second, plain]);
}

/// The last of so many records.
fn record(what: &str, file: &[u8], count: usize) {
    let last = black_box(count - 1);
    let told = plain::record(file, last);
    assert_eq!(told, second::record(file, last));
    let ours = timed(|| florinhado::record(black_box(file), last));
    let second = timed(|| second::record(black_box(file), last));
    let plain = timed(|| plain::record(black_box(file), last));
    beside(&format!("last record, {what}"), [ours, second, plain]);
}

pub fn against_others() {
    heading("microseconds", ["second", "plain"]);
    let files = [
        ("FORM of 2,097,150 chunks", leaves(LEAVES), LEAVES),
        ("CAT of 1,398,100 FORMs", forms(GROUPS), GROUPS),
        ("LIST of 2,000 PROPs", props(2_000), 2_000),
        ("LIST of 4,000 PROPs", props(4_000), 4_000),
    ];
    files.iter().for_each(|(what, file, _)| check(what, file));
    files.iter().for_each(|(what, file, count)| record(what, file, 1 + count));
}

/// Chunks in each of fifteen PROPs.
const IN_EACH: usize = 60_000;

/// The calls on a picture in fifteen LISTs, each with a PROP of many chunks,
/// beside the check of the same file; the greatest ratio.
pub fn through_lists() -> f64 {
    println!("\n{:48} {:>11} {:>11} {:>10}", "picture in 15 LISTs with PROPs", "call", "check", "/ check");
    let file = shared_from_afar(IN_EACH);
    let check = || timed(|| florinhado::check(black_box(&file)));
    let header = timed(|| florinhado::header(black_box(&file), 0));
    let palette = timed(|| florinhado::palette(black_box(&file), 0, b""));
    let frame = timed(|| florinhado::frame(black_box(&file), 0, &mut [0]));
    let ratios = [
        grown("ilbm_header", header, check()),
        grown("ilbm_palette", palette, check()),
        grown("ilbm_frame", frame, check()),
    ];
    ratios.into_iter().fold(0.0, f64::max)
}

/// One of these calls with all the chunks and with half of them.
fn lists_grown() -> f64 {
    let (whole, half) = (shared_from_afar(IN_EACH), shared_from_afar(IN_EACH / 2));
    let header = |file| timed(move || florinhado::header(black_box(file), 0));
    grown("ilbm_header in 15 LISTs with PROPs / half", header(&whole), header(&half))
}

/// Every call on the file of so many chunks and on one of half as many; the
/// greatest ratio.
fn calls(what: &str, build: fn(usize) -> Vec<u8>, count: usize) -> f64 {
    let (whole, half) = (build(count), build(count / 2));
    let ratios = CALLS.iter().map(|call| {
        let run = |file| timed(move || (call.run)(black_box(file)));
        grown(&format!("{}, {count} {what} / half", call.name), run(&whole), run(&half))
    });
    ratios.fold(0.0, f64::max)
}

pub fn growth() -> f64 {
    calls("PROPs (told only)", props, 4_000);
    calls("chunks", leaves, LEAVES).max(calls("FORMs", forms, GROUPS)).max(lists_grown())
}
