//! Times of the plain programs by themselves: `cargo bench --bench plain`.

use compare::plain;
use second::random::Random;
use second::{check, properties, write_picture, Fields};
use std::hint::black_box;
use std::time::Instant;

/// Prints the best of ten runs.
fn time<T>(name: &str, bytes: usize, mut run: impl FnMut() -> T) {
    let mut best = f64::MAX;
    for _ in 0..10 {
        let start = Instant::now();
        black_box(run());
        best = best.min(start.elapsed().as_secs_f64());
    }
    println!("{name}: {:.3} ms, {:.1} MB/s", best * 1e3, bytes as f64 / best / 1e6);
}

fn group(name: &[u8; 4], kind: &[u8; 4], members: &[u8]) -> Vec<u8> {
    let size = (members.len() as u32 + 4).to_be_bytes();
    [&name[..], &size, kind, members].concat()
}

/// A picture with runs and noise in turn.
fn picture(compression: u8) -> (Vec<u8>, usize) {
    let fields = Fields {
        width: 1280,
        height: 1024,
        x: 0,
        y: 0,
        planes: 8,
        masking: 0,
        compression,
        transparent_color: 0,
        x_aspect: 1,
        y_aspect: 1,
        page_width: 1280,
        page_height: 1024,
    };
    let mut random = Random::new(3);
    let mut frame = Vec::new();
    while frame.len() < 1280 * 1024 {
        let count = random.between(1, 200).min(1280 * 1024 - frame.len());
        let byte = random.byte();
        frame.resize(frame.len() + count, byte);
    }
    (write_picture(&fields, &[0; 768], &frame, b"", usize::MAX).unwrap(), frame.len())
}

fn main() {
    let siblings = group(b"FORM", b"ABCD", &b"DATA\0\0\0\0".repeat(2_000_000));
    time("plain check, 2,000,000 empty siblings", siblings.len(), || plain::check(&siblings));
    time("check, 2,000,000 empty siblings", siblings.len(), || check(&siblings));
    let forms = group(b"LIST", b"JJJJ", &group(b"FORM", b"ILBM", &[]).repeat(1_000_000));
    time("plain check, 1,000,000 FORMs", forms.len(), || plain::check(&forms));
    for compression in 0..=1 {
        let (file, pixels) = picture(compression);
        let told = properties(&file, 0).unwrap();
        let body = &file[told.body.clone().unwrap()];
        let mut frame = vec![0; pixels];
        let run = || plain::frame(&told.header, body, &mut frame);
        time(&format!("plain frame, 8 planes, compression {compression}, pixels"), pixels, run);
    }
    let mut random = Random::new(5);
    let noise: Vec<u8> = (0..8192).map(|_| random.byte()).collect();
    let runs: Vec<u8> = (0..8192).map(|n| (n / 37) as u8).collect();
    let mut out = vec![0; 8192 + 64];
    time("plain pack, 8,192 bytes of noise", 8192, || plain::pack(&noise, &mut out));
    time("plain pack, 8,192 bytes of runs", 8192, || plain::pack(&runs, &mut out));
}
