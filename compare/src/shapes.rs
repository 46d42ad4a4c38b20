//! Files of very many chunks, and the time that a program takes, for measuring growth.

#[repr(C)]
struct Time {
    seconds: i64,
    nanoseconds: i64,
}

extern "C" {
    fn clock_gettime(clock: i32, time: *mut Time) -> i32;
}

const PROCESS_CLOCK: i32 = 2;

/// The seconds that this process has been running for, without those in which others ran.
pub fn now() -> f64 {
    let mut time = Time { seconds: 0, nanoseconds: 0 };
    unsafe { clock_gettime(PROCESS_CLOCK, &mut time) };
    time.seconds as f64 + time.nanoseconds as f64 / 1e9
}

fn header(name: &[u8; 4], size: usize, file: &mut Vec<u8>) {
    file.extend_from_slice(name);
    file.extend_from_slice(&(size as u32).to_be_bytes());
}

/// A FORM of empty chunks.
pub fn form(chunks: usize) -> Vec<u8> {
    let mut file = Vec::new();
    header(b"FORM", 4 + 8 * chunks, &mut file);
    file.extend_from_slice(b"ILBM");
    for _ in 0..chunks {
        header(b"TEST", 0, &mut file);
    }
    file
}

/// A CAT of empty FORMs.
pub fn cat(forms: usize) -> Vec<u8> {
    let mut file = Vec::new();
    header(b"CAT ", 4 + 12 * forms, &mut file);
    file.extend_from_slice(b"ILBM");
    for _ in 0..forms {
        header(b"FORM", 4, &mut file);
        file.extend_from_slice(b"ILBM");
    }
    file
}

/// A CAT of FORMs, each with 14 more inside each other and an empty chunk in the innermost: every chunk closes 15 groups.
pub fn deep(forms: usize) -> Vec<u8> {
    let mut file = Vec::new();
    header(b"CAT ", 4 + forms * (15 * 12 + 8), &mut file);
    file.extend_from_slice(b"ILBM");
    for _ in 0..forms {
        for level in 0..15 {
            header(b"FORM", 4 + (14 - level) * 12 + 8, &mut file);
            file.extend_from_slice(b"ILBM");
        }
        header(b"TEST", 0, &mut file);
    }
    file
}

pub type Make = fn(usize) -> Vec<u8>;
pub type Count = fn(usize) -> usize;

/// What each shape is called, how it is made, the most members that fit, and how many chunks so many members make.
pub const SHAPES: [(&str, Make, usize, Count); 3] = [
    ("FORM of empty chunks", form, 2_097_150, |n| n + 1),
    ("CAT of FORMs", cat, 1_398_100, |n| n + 1),
    ("FORMs 15 deep", deep, 89_240, |n| 16 * n + 1),
];
