//! `big [PROPS]`: the largest and deepest files through every call, the widest
//! pictures read, and the largest written, on a thread with the stack that a
//! call may take. `run_big.sh` runs it with a small stack for the rest.

use compare::chunks::{group, with_modes};
use compare::large::{accepted, filled_up, forms, leaves, nested, pictures_sharing, props, shared_from_afar};
use compare::large::{GROUPS, LEAVES, LEVELS, SHARING};
use compare::write::written;
use compare::{Subject, Tally};
use second::generate::WriterInput;
use second::random::Random;
use second::{Accepted, Fields, Refused, LONGEST_FILE};
use std::process::ExitCode;
use std::time::Instant;

/// PROPs in the LIST, unless the command line says otherwise.
const PROPS: usize = 5_000;

/// The stack that any call may take.
const STACK: usize = 128 * 1024;

struct Case {
    name: &'static str,
    file: Vec<u8>,
    known: Result<Accepted, Refused>,
}

fn refused(number: u32, place: usize) -> Result<Accepted, Refused> {
    Err(Refused { number, place })
}

/// A FORM that ends where the file may end: the last chunk has 4 bytes.
fn full_form() -> Case {
    let mut file = filled_up(leaves(LEAVES));
    let size = |n: usize| (n as u32).to_be_bytes();
    file[4..8].copy_from_slice(&size(LONGEST_FILE - 8));
    file[LONGEST_FILE - 8..LONGEST_FILE - 4].copy_from_slice(&size(4));
    Case { name: "FORM of as many chunks as fit", file, known: Ok(accepted(1 + LEAVES, LONGEST_FILE)) }
}

fn full_cat() -> Case {
    let known = Ok(accepted(1 + GROUPS, 12 + 12 * GROUPS));
    Case { name: "CAT of as many FORMs as fit", file: filled_up(forms(GROUPS)), known }
}

fn list_of_props(count: usize) -> Case {
    let known = Ok(accepted(1 + count, 12 + 12 * count));
    Case { name: "LIST of PROPs of different types", file: filled_up(props(count)), known }
}

/// The last PROP has the type of the first.
fn second_prop(count: usize) -> Case {
    let mut file = props(count);
    let last = file.len() - 12;
    file.copy_within(20..24, last + 8);
    Case { name: "the same, the last of the first's type", file, known: refused(12, last) }
}

/// Sixteen groups, the innermost full of chunks.
fn deepest() -> Case {
    let count = (LONGEST_FILE - 12 * LEVELS) / 8;
    let file = nested(LEVELS, &leaves(count)[12..]);
    let known = Ok(accepted(LEVELS + count, file.len()));
    Case { name: "16 nested groups, the innermost full", file: filled_up(file), known }
}

/// A CAT of as many chains of groups down to level 16 as fit.
fn deep_members() -> Case {
    let chain = nested(LEVELS - 1, &[]);
    let count = (LONGEST_FILE - 12) / chain.len();
    let file = group(b"CAT ", b"JJJJ", &chain.repeat(count));
    let known = Ok(accepted(1 + (LEVELS - 1) * count, file.len()));
    Case { name: "CAT of members nested down to level 16", file: filled_up(file), known }
}

/// A picture that has its header of the fifteenth LIST outward.
fn far_header() -> Case {
    let file = shared_from_afar(60_000);
    let known = Ok(accepted((LEVELS - 1) * 60_003 + 3, file.len()));
    Case { name: "15 nested LISTs, each with a PROP of 60,000 chunks", file: filled_up(file), known }
}

/// As many pictures with a BODY as fit; the CAT has as many without one.
fn full_list() -> Case {
    let file = pictures_sharing(SHARING, 0);
    let known = Ok(accepted(4 + 2 * SHARING, file.len()));
    Case { name: "LIST of as many pictures as fit", file: filled_up(file), known }
}

/// Pictures that have their headers of a PROP which takes long to go through.
fn many_sharing() -> Case {
    let file = pictures_sharing(20_000, 60_000);
    let known = Ok(accepted(60_004 + 2 * 20_000, file.len()));
    Case { name: "20,000 pictures sharing a PROP of 60,000 chunks", file: filled_up(file), known }
}

fn too_deep() -> Case {
    Case {
        name: "17 nested groups",
        file: filled_up(nested(LEVELS + 1, &[])),
        known: refused(9, 12 * LEVELS),
    }
}

fn too_long() -> Case {
    let mut file = filled_up(leaves(LEAVES));
    file.push(0);
    Case { name: "one byte too many", file, known: refused(1, 0) }
}

/// A picture of the greatest width, as the second writer writes it.
fn widest_picture(masking: u8, compression: u8) -> Case {
    let WriterInput { fields, palette, frame, shape, room } = widest(200, masking, compression, true);
    let file = second::write_picture(&fields, &palette, &frame, &shape, room);
    let file = file.expect("a picture that can be written");
    let known = Ok(accepted(4, file.len()));
    let name = if masking == 1 { "the same with a mask plane" } else { "picture of 65,535 by 200, 8 planes" };
    Case { name, file: filled_up(file), known }
}

/// The same by hold-and-modify: a CAMG behind the header.
fn held_picture(compression: u8) -> Case {
    let file = with_modes(&widest_picture(2, compression).file, 0x800);
    let known = Ok(accepted(5, file.len()));
    Case { name: "the same by hold-and-modify", file: filled_up(file), known }
}

fn run(case: &Case) -> Result<(), String> {
    let mut random = Random::new(case.file.len() as u64);
    let told = second::check(&case.file);
    if told != case.known {
        return Err(format!("known is {:?}, the second reader gives {told:?}", case.known));
    }
    Subject::large(&mut random, &case.file).compare(&mut random, &mut Tally::default())
}

/// A picture of the greatest width and 256 colours, noise or one colour; with masking 1 the shape is of
/// the same.
fn widest(height: u16, masking: u8, compression: u8, noise: bool) -> WriterInput {
    let mut random = Random::new(7);
    let pixels = 65_535 * usize::from(height);
    let frame: Vec<u8> = (0..pixels).map(|_| if noise { random.byte() } else { 200 }).collect();
    let shape =
        if masking == 1 { frame.iter().rev().map(|colour| colour >> 7).collect() } else { Vec::new() };
    let fields = Fields {
        width: 65_535,
        height,
        x: -1,
        y: 1,
        planes: 8,
        masking,
        compression,
        transparent_color: 255,
        x_aspect: 1,
        y_aspect: 1,
        page_width: 320,
        page_height: -200,
    };
    WriterInput { fields, palette: vec![9; 768], frame, shape, room: LONGEST_FILE }
}

/// Height, masking, compression and noise of the largest pictures, each known to be written, or to be 35.
const WRITTEN: [(u16, u8, u8, bool, usize); 9] = [
    (255, 2, 0, true, 0),
    (256, 2, 0, true, 35),
    (253, 2, 1, true, 0),
    (255, 2, 1, true, 35),
    (256, 2, 1, false, 0),
    (227, 1, 0, true, 0),
    (228, 1, 0, true, 35),
    (225, 1, 1, true, 0),
    (227, 1, 1, true, 35),
];

fn write_pictures() -> Result<(), String> {
    for (height, masking, compression, noise, known) in WRITTEN {
        write_picture(widest(height, masking, compression, noise), known)?;
    }
    let mut wrong = widest(228, 1, 0, true);
    *wrong.shape.last_mut().expect("a shape") = 2;
    write_picture(wrong, 45)
}

fn write_picture(input: WriterInput, known: usize) -> Result<(), String> {
    let start = Instant::now();
    let Fields { height, masking, compression, .. } = input.fields;
    let name = format!("picture of 65,535 by {height}, masking {masking}, compression {compression}");
    let answer = written(&input, &mut Random::new(1)).map_err(|text| format!("{name}: {text}"))?;
    if answer != known {
        return Err(format!("{name}: {answer}, known is {known}"));
    }
    println!("{name}: {answer}, as known, {:.1} s", start.elapsed().as_secs_f64());
    Ok(())
}

fn run_all(count: usize) -> ExitCode {
    let cases: [&dyn Fn() -> Case; 17] = [
        &full_form,
        &full_cat,
        &|| list_of_props(count),
        &|| second_prop(count),
        &deepest,
        &deep_members,
        &far_header,
        &full_list,
        &many_sharing,
        &too_deep,
        &too_long,
        &|| widest_picture(2, 0),
        &|| widest_picture(2, 1),
        &|| widest_picture(1, 0),
        &|| widest_picture(1, 1),
        &|| held_picture(0),
        &|| held_picture(1),
    ];
    for case in cases {
        let case = case();
        let start = Instant::now();
        if let Err(text) = run(&case) {
            println!("{}: {text}", case.name);
            return ExitCode::FAILURE;
        }
        let bytes = case.file.len();
        println!("{}: {bytes} bytes, as known, {:.1} s", case.name, start.elapsed().as_secs_f64());
    }
    if let Err(text) = write_pictures() {
        println!("{text}");
        return ExitCode::FAILURE;
    }
    ExitCode::SUCCESS
}

fn main() -> ExitCode {
    let count = std::env::args().nth(1).map_or(PROPS, |word| word.parse().expect("a number"));
    let thread = std::thread::Builder::new().stack_size(STACK).spawn(move || run_all(count));
    thread.expect("a thread").join().expect("an answer")
}
