//! The plain programs of the benchmarks give what the second reader gives.

use compare::fixed::{examples, variations};
use compare::large::{leaves, props};
use compare::listings::{fill, Table};
use compare::plain;
use second::generate;
use second::random::Random;
use second::Colouring;

const SEED: u64 = 1985;
const FILES: usize = 20_000;

fn generated() -> impl Iterator<Item = Vec<u8>> {
    let mut random = Random::new(SEED);
    (0..FILES).map(move |_| generate::file(&mut random))
}

fn same_structure(file: &[u8]) {
    let answer = second::check(file);
    assert_eq!(plain::check(file), answer);
    let last = answer.map_or(0, |accepted| accepted.chunks - 1);
    for number in [last, last + 1] {
        assert_eq!(plain::record(file, number), second::record(file, number));
    }
}

#[test]
fn structure() {
    examples().iter().for_each(|example| same_structure(&example.file));
    variations().for_each(|file| same_structure(&file));
    generated().for_each(|file| same_structure(&file));
}

#[test]
fn large_files() {
    let mut twice = props(100_000);
    let last = twice.len() - 12;
    twice.copy_within(20..24, last + 8);
    [leaves(200_000), props(100_000), twice].iter().for_each(|file| same_structure(file));
}

/// The table that the library fills, which is compared with the second reader's elsewhere.
#[test]
fn tables() {
    for file in generated() {
        let Ok(accepted) = second::check(&file) else { continue };
        let [mut table, mut known] = [0, 0].map(|_| Table::new(accepted.chunks));
        assert_eq!(plain::fill(&file, &mut table), accepted.chunks);
        assert_eq!(fill(&file, &mut known), 0);
        assert!(table == known);
    }
}

#[test]
fn frames() {
    let mut read = 0;
    for file in generated() {
        for picture in 0.. {
            let Ok(told) = second::properties(&file, picture) else { break };
            let Some(body) = told.body.map(|range| &file[range]) else { continue };
            let pixels = usize::from(told.header.width) * usize::from(told.header.height);
            let known = second::frame(&file, picture, pixels);
            for decode in [plain::frame, plain::frame_by_table] {
                let mut frame = vec![0; pixels];
                let leftover = decode(&told.header, body, &mut frame);
                assert_eq!(leftover.map(|leftover| second::Frame { colours: frame, leftover }), known);
            }
            read += usize::from(known.is_ok());
        }
    }
    assert!(read > FILES / 20, "{read} frames read");
}

#[test]
fn colours() {
    let mut read = 0;
    let mut random = Random::new(SEED);
    for file in generated() {
        for picture in 0.. {
            let Ok(told) = second::properties(&file, picture) else { break };
            let Some(body) = told.body.map(|range| &file[range]) else { continue };
            let default = generate::default_palette(&mut random);
            let pixels = usize::from(told.header.width) * usize::from(told.header.height);
            let known = second::colour_frame(&file, picture, &default, 3 * pixels);
            if known.as_ref().is_err_and(|refused| refused.number == 46) {
                continue;
            }
            let palette = told.colour_map.value.map_or(&default[..], |range| &file[range]);
            let by = Colouring { view_modes: told.view_modes.value.unwrap_or(0), palette };
            let mut frame = vec![9; 3 * pixels];
            let leftover = plain::colours_by_table(&told.header, &by, body, &mut frame);
            assert_eq!(leftover.map(|leftover| second::Frame { colours: frame, leftover }), known);
            let Ok(known) = known else { continue };
            let numbers = second::frame(&file, picture, pixels).unwrap().colours;
            let mut frame = vec![9; 3 * pixels];
            plain::colours(&told.header, &by, &numbers, &mut frame);
            assert_eq!(frame, known.colours);
            read += 1;
        }
    }
    assert!(read > FILES / 20, "{read} frames read");
}

#[test]
fn packed_rows() {
    let mut random = Random::new(SEED);
    for _ in 0..FILES {
        let input = generate::row_input(&mut random);
        let Ok(packed) = second::pack(&input.row, usize::MAX) else { continue };
        let mut out = vec![0; packed.len()];
        assert_eq!(plain::pack(&input.row, &mut out[1..]), None);
        assert_eq!(plain::pack(&input.row, &mut out), Some(packed.len()));
        assert_eq!(out, packed);
    }
}

#[test]
fn written_pictures() {
    let mut random = Random::new(SEED);
    for _ in 0..FILES {
        let mut input = generate::writer_input(&mut random);
        input.fields.compression = 1;
        input.fields.masking &= 2;
        let known = second::write_picture(&input.fields, &input.palette, &input.frame, b"", usize::MAX);
        let Ok(file) = known else { continue };
        let mut out = vec![0; file.len()];
        assert_eq!(plain::write(&input.fields, &input.palette, &input.frame, &mut out[1..]), None);
        assert_eq!(plain::write(&input.fields, &input.palette, &input.frame, &mut out), Some(file.len()));
        assert_eq!(out, file);
    }
}
