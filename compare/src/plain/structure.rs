//! The check, and the record of a number, each in one walk without a tree.

use second::{Accepted, Kind, Name, Record, Refused, LONGEST_FILE};
use std::collections::HashSet;

/// The chunk whose members are being walked.
#[derive(Clone, Copy)]
struct Group {
    name: [u8; 4],
    level: u32,
    end: usize,
}

/// A header that was passed.
#[derive(Clone, Copy)]
struct Header {
    name: [u8; 4],
    level: u32,
    place: usize,
    size: usize,
}

/// The same answer as the check of the second reader.
pub fn check(file: &[u8]) -> Result<Accepted, Refused> {
    if file.len() > LONGEST_FILE {
        return Err(Refused { number: 1, place: 0 });
    }
    let Some(name) = four_at(file, 0) else {
        return Err(Refused { number: 2, place: 0 });
    };
    if is_version(name) {
        return Err(Refused { number: 3, place: 0 });
    }
    if !matches!(&name, b"FORM" | b"LIST" | b"CAT ") {
        return Err(Refused { number: 2, place: 0 });
    }
    let size = header(file, 0, file.len(), 1, |_| true).map_err(|number| Refused { number, place: 0 })?;
    let mut chunks = 1;
    walk(file, Group { name, level: 1, end: 8 + size }, 12, &mut chunks)?;
    let end = 8 + size + (size & 1);
    Ok(Accepted { chunks, end, trailing: file.len() - end })
}

/// Walks the members of a group from `place`, counting chunks.
fn walk(file: &[u8], group: Group, mut place: usize, chunks: &mut usize) -> Result<(), Refused> {
    let mut props_over = false;
    let mut types = None;
    while place < group.end {
        let level = group.level + 1;
        let allow = |name| allowed(group.name, name, props_over);
        let refuse = |number| Refused { number, place };
        let size = header(file, place, group.end, level, allow).map_err(refuse)?;
        let name = [file[place], file[place + 1], file[place + 2], file[place + 3]];
        *chunks += 1;
        if is_group(name) {
            if &name == b"PROP" {
                if !types.get_or_insert_with(HashSet::new).insert(four_at(file, place + 8)) {
                    return Err(refuse(12));
                }
            } else {
                props_over = true;
            }
            walk(file, Group { name, level, end: place + 8 + size }, place + 12, chunks)?;
        }
        place += 8 + size + (size & 1);
    }
    Ok(())
}

/// The same answer as its record of a number; the walk to it is the check too.
pub fn record(file: &[u8], number: usize) -> Result<Record, Refused> {
    let mut chunks = 0;
    let mut found = None;
    see_file(file, &mut |header| {
        if chunks == number {
            found = Some(header);
        }
        chunks += 1;
    })?;
    let Header { name, level, place, size } = found.ok_or(Refused { number: 14, place: 0 })?;
    let kind = kind_of(name);
    let name = if is_group(name) { four_at(file, place + 8).unwrap_or(name) } else { name };
    Ok(Record { number, level: level as usize, kind, name: Name(name), place, size })
}

/// The same walk, which shows each header: the check is faster by itself.
fn see_file(file: &[u8], see: &mut impl FnMut(Header)) -> Result<(), Refused> {
    if file.len() > LONGEST_FILE {
        return Err(Refused { number: 1, place: 0 });
    }
    let Some(name) = four_at(file, 0) else {
        return Err(Refused { number: 2, place: 0 });
    };
    if is_version(name) {
        return Err(Refused { number: 3, place: 0 });
    }
    if !matches!(&name, b"FORM" | b"LIST" | b"CAT ") {
        return Err(Refused { number: 2, place: 0 });
    }
    let size = header(file, 0, file.len(), 1, |_| true).map_err(|number| Refused { number, place: 0 })?;
    see(Header { name, level: 1, place: 0, size });
    see_members(file, Group { name, level: 1, end: 8 + size }, 12, see)
}

/// Walks the members of a group from `place`.
fn see_members(
    file: &[u8],
    group: Group,
    mut place: usize,
    see: &mut impl FnMut(Header),
) -> Result<(), Refused> {
    let mut props_over = false;
    let mut types = None;
    while place < group.end {
        let level = group.level + 1;
        let allow = |name| allowed(group.name, name, props_over);
        let refuse = |number| Refused { number, place };
        let size = header(file, place, group.end, level, allow).map_err(refuse)?;
        let name = [file[place], file[place + 1], file[place + 2], file[place + 3]];
        see(Header { name, level, place, size });
        if is_group(name) {
            if &name == b"PROP" {
                if !types.get_or_insert_with(HashSet::new).insert(four_at(file, place + 8)) {
                    return Err(refuse(12));
                }
            } else {
                props_over = true;
            }
            see_members(file, Group { name, level, end: place + 8 + size }, place + 12, see)?;
        }
        place += 8 + size + (size & 1);
    }
    Ok(())
}

/// Checks 4 to 11 at one header; the size, or the number of the refusal.
#[inline]
fn header(
    file: &[u8],
    place: usize,
    end: usize,
    level: u32,
    allow: impl Fn([u8; 4]) -> bool,
) -> Result<usize, u32> {
    if end - place < 8 {
        return Err(4);
    }
    let bytes = &file[place..place + 8];
    let name = [bytes[0], bytes[1], bytes[2], bytes[3]];
    if !is_well_formed(name) {
        return Err(5);
    }
    if is_version(name) {
        return Err(3);
    }
    if &name == b"JJJJ" || !allow(name) {
        return Err(6);
    }
    let size = u32::from_be_bytes([bytes[4], bytes[5], bytes[6], bytes[7]]) as usize;
    if size > end - place - 8 {
        return Err(7);
    }
    if size & 1 == 1 && place + 8 + size == end {
        return Err(8);
    }
    if is_group(name) {
        group_type(file, place, size, level, name)?;
    }
    Ok(size)
}

/// Checks 9 to 11.
fn group_type(file: &[u8], place: usize, size: usize, level: u32, name: [u8; 4]) -> Result<(), u32> {
    if level == 17 {
        return Err(9);
    }
    if size < 4 {
        return Err(10);
    }
    let kind = four_at(file, place + 8).ok_or(10u32)?;
    let free = matches!(&name, b"LIST" | b"CAT ");
    if !is_well_formed(kind) || (!free && !is_form_type(kind)) {
        return Err(11);
    }
    Ok(())
}

fn four_at(file: &[u8], place: usize) -> Option<[u8; 4]> {
    file.get(place..place + 4)?.try_into().ok()
}

fn is_group(name: [u8; 4]) -> bool {
    matches!(&name, b"FORM" | b"LIST" | b"CAT " | b"PROP")
}

fn kind_of(name: [u8; 4]) -> Kind {
    match &name {
        b"FORM" => Kind::Form,
        b"LIST" => Kind::List,
        b"CAT " => Kind::Cat,
        b"PROP" => Kind::Prop,
        b"    " => Kind::Filler,
        _ => Kind::Local,
    }
}

fn is_version(name: [u8; 4]) -> bool {
    matches!(
        &name,
        [b'F', b'O', b'R', b'1'..=b'9'] | [b'L', b'I', b'S', b'1'..=b'9'] | [b'C', b'A', b'T', b'1'..=b'9']
    )
}

fn is_well_formed(name: [u8; 4]) -> bool {
    let mut spaces = false;
    for byte in name {
        if !(0x20..=0x7e).contains(&byte) || (spaces && byte != b' ') {
            return false;
        }
        spaces = byte == b' ';
    }
    true
}

/// Whether a well-formed name may be the type of a FORM or PROP.
fn is_form_type(name: [u8; 4]) -> bool {
    let letters = name.iter().all(|byte| byte.is_ascii_uppercase() || byte.is_ascii_digit() || *byte == b' ');
    letters && name[0] != b' ' && !is_group(name) && &name != b"JJJJ" && !is_version(name)
}

fn allowed(group: [u8; 4], name: [u8; 4], props_over: bool) -> bool {
    match (&group, &name) {
        (_, b"    ") => true,
        (b"LIST", b"PROP") => !props_over,
        (_, b"PROP") => false,
        (b"PROP", _) => !is_group(name),
        (b"LIST" | b"CAT ", _) => is_group(name),
        _ => true,
    }
}
