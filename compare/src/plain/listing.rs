//! The table of records of a sound file, in a walk that checks nothing.

use crate::listings::Table;

fn word(file: &[u8], at: usize) -> u32 {
    u32::from_be_bytes(file[at..at + 4].try_into().unwrap())
}

fn kind(name: u32) -> u8 {
    match &name.to_be_bytes() {
        b"FORM" => 1,
        b"LIST" => 2,
        b"CAT " => 3,
        b"PROP" => 4,
        b"    " => 6,
        _ => 5,
    }
}

/// Fills the table and gives the number of chunks, header by header with the ends of the open groups on a stack.
pub fn fill(file: &[u8], table: &mut Table) -> usize {
    let mut ends: Vec<usize> = Vec::new();
    let mut at = 0;
    let mut number = 0;
    loop {
        let name = word(file, at);
        let size = word(file, at + 4) as usize;
        let kind = kind(name);
        let group = kind < 5;
        table.numbers[number] = number;
        table.levels[number] = ends.len() + 1;
        table.kinds[number] = kind;
        table.names[number] = if group { word(file, at + 8) } else { name };
        table.places[number] = at;
        table.sizes[number] = size;
        number += 1;
        if group {
            ends.push(at + 8 + size);
            at += 12;
        } else {
            at += 8 + size + size % 2;
        }
        while ends.last() == Some(&at) {
            ends.pop();
        }
        if ends.is_empty() {
            return number;
        }
    }
}
