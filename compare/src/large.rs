//! The largest and deepest files, with the answers that are known of them.

use crate::chunks::{chunk, group, header, Fields};
use second::{Accepted, LONGEST_FILE};

/// As many empty chunks as fit into a FORM of the longest file.
pub const LEAVES: usize = (LONGEST_FILE - 12) / 8;

/// As many groups without members as fit into a group of the longest file.
pub const GROUPS: usize = (LONGEST_FILE - 12) / 12;

/// Levels that groups may have.
pub const LEVELS: usize = 16;

/// The fields of the smallest picture.
const ONE_PIXEL: Fields = Fields { width: 1, height: 1, planes: 1, masking: 0, compression: 0 };

/// A FORM of so many chunks without data.
pub fn leaves(count: usize) -> Vec<u8> {
    group(b"FORM", b"TEST", &header(b"DATA", 0).repeat(count))
}

/// A CAT of so many FORMs without members.
pub fn forms(count: usize) -> Vec<u8> {
    group(b"CAT ", b"JJJJ", &group(b"FORM", b"ILBM", &[]).repeat(count))
}

/// A LIST of so many PROPs of different types.
pub fn props(count: usize) -> Vec<u8> {
    let members: Vec<u8> = types().take(count).flat_map(|kind| group(b"PROP", &kind, &[])).collect();
    group(b"LIST", b"JJJJ", &members)
}

/// Types for a FORM or PROP, each once.
fn types() -> impl Iterator<Item = [u8; 4]> {
    const LETTERS: &[u8; 36] = b"ABCDEFGHIJKLMNOPQRSTUVWXYZ0123456789";
    let kind = |n: usize| [n / 46_656, n / 1_296 % 36, n / 36 % 36, n % 36].map(|digit| LETTERS[digit]);
    let free = |kind: &[u8; 4]| second::Name(*kind).is_form_type();
    (0..36 * 46_656).map(kind).filter(free)
}

/// So many groups, each in the one before it, around these members of the
/// innermost: a FORM. The others are LIST, CAT and FORM in turn.
pub fn nested(levels: usize, members: &[u8]) -> Vec<u8> {
    let innermost = group(b"FORM", b"DEEP", members);
    (1..levels).fold(innermost, |inner, level| group([b"LIST", b"CAT ", b"FORM"][level % 3], b"DEEP", &inner))
}

/// LISTs in each other, as many as have room for a picture inside, each with a
/// PROP ILBM of so many chunks. The outermost PROP alone has the BMHD, and each
/// a CMAP before the others.
pub fn shared_from_afar(chunks: usize) -> Vec<u8> {
    (1..LEVELS).rev().fold(picture_of_one_pixel(), |inner, level| {
        let bmhd = if level == 1 { ONE_PIXEL.bmhd() } else { Vec::new() };
        let map = chunk(b"CMAP", &[level as u8; 3]);
        let others = header(b"DATA", 0).repeat(chunks);
        let prop = group(b"PROP", b"ILBM", &[bmhd, map, others].concat());
        group(b"LIST", b"JJJJ", &[prop, inner].concat())
    })
}

/// A LIST of so many pictures of one pixel that share the BMHD and CMAP of a PROP with so many other chunks.
pub fn pictures_sharing(pictures: usize, chunks: usize) -> Vec<u8> {
    let others = header(b"DATA", 0).repeat(chunks);
    let prop = group(b"PROP", b"ILBM", &[ONE_PIXEL.bmhd(), chunk(b"CMAP", &[1; 3]), others].concat());
    group(b"LIST", b"ILBM", &[prop, picture_of_one_pixel().repeat(pictures)].concat())
}

/// As many pictures as fit under such a PROP without other chunks.
pub const SHARING: usize = (LONGEST_FILE - 12 - 12 - 28 - 12) / 22;

/// A picture without a header.
fn picture_of_one_pixel() -> Vec<u8> {
    group(b"FORM", b"ILBM", &chunk(b"BODY", &[0x80, 0]))
}

/// The file with as many bytes after its end as a file may have at most.
pub fn filled_up(mut file: Vec<u8>) -> Vec<u8> {
    file.resize(LONGEST_FILE, 0);
    file
}

/// What is known of an accepted file of the greatest length.
pub fn accepted(chunks: usize, end: usize) -> Accepted {
    Accepted { chunks, end, trailing: LONGEST_FILE - end }
}
