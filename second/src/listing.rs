//! Records of an accepted file in file order, and the listing program's text.

use crate::answer::Refused;
use crate::name::Name;
use crate::tree::{Chunk, Kind, Tree};
use std::io::Write;

/// Number of bytes that the listing program reads at most.
const LONGEST_INPUT: usize = 65_536;

/// One chunk as the listing tells it.
#[derive(Clone, Copy, Debug, PartialEq, Eq)]
pub struct Record {
    pub number: usize,
    pub level: usize,
    pub kind: Kind,
    pub name: Name,
    pub place: usize,
    pub size: usize,
}

/// All records of the file.
pub fn records(file: &[u8]) -> Result<Vec<Record>, Refused> {
    let tree = Tree::read(file)?;
    let mut found = Vec::with_capacity(tree.chunks);
    collect(&tree.outermost, &mut found);
    Ok(found)
}

fn collect(chunk: &Chunk, found: &mut Vec<Record>) {
    found.push(Record {
        number: found.len(),
        level: chunk.level,
        kind: chunk.kind,
        name: chunk.name,
        place: chunk.place,
        size: chunk.size,
    });
    for member in &chunk.members {
        collect(member, found);
    }
}

/// The record with this number, or 14.
pub fn record(file: &[u8], number: usize) -> Result<Record, Refused> {
    records(file)?.get(number).copied().ok_or(Refused::plain(14))
}

/// Fills a table with the records in order and returns how many there are,
/// or 13 if the table is too short.
pub fn fill_table(file: &[u8], table: &mut [Record]) -> Result<usize, Refused> {
    let found = records(file)?;
    if table.len() < found.len() {
        return Err(Refused::plain(13));
    }
    table[..found.len()].copy_from_slice(&found);
    Ok(found.len())
}

/// The data of the local or filler chunk with this number, or 14, or 15.
pub fn data(file: &[u8], number: usize) -> Result<&[u8], Refused> {
    let record = record(file, number)?;
    if record.kind.is_group() {
        return Err(Refused::plain(15));
    }
    let start = record.place + 8;
    Ok(&file[start..start + record.size])
}

/// The number of FORMs of type ILBM at any depth.
pub fn count_pictures(file: &[u8]) -> Result<usize, Refused> {
    let is_picture = |record: &&Record| record.kind == Kind::Form && record.name == Name::ILBM;
    Ok(records(file)?.iter().filter(is_picture).count())
}

/// What the listing program prints for this standard input.
pub fn listing_text(input: &[u8]) -> Vec<u8> {
    let told = if input.len() > LONGEST_INPUT { Err(Refused::plain(40)) } else { Tree::read(input) };
    let mut text = Vec::new();
    match told {
        Err(refused) => line_pair(&mut text, refused.number, refused.place),
        Ok(tree) => accepted_text(&mut text, input, &tree),
    }
    text
}

fn line_pair(text: &mut Vec<u8>, answer: u32, place: usize) {
    write!(text, "answer={answer}\nplace={place}\n").unwrap();
}

fn accepted_text(text: &mut Vec<u8>, file: &[u8], tree: &Tree) {
    line_pair(text, 0, 0);
    let pictures = count_pictures(file).unwrap();
    write!(
        text,
        "chunks={}\nend={}\ntrailing={}\npictures={pictures}\n",
        tree.chunks,
        tree.outermost.end(),
        tree.trailing
    )
    .unwrap();
    for record in records(file).unwrap() {
        record_text(text, &record);
    }
}

fn record_text(text: &mut Vec<u8>, record: &Record) {
    let kind = kind_text(record.kind);
    write!(text, "chunk={}\nlevel={}\nkind={kind}\nname=", record.number, record.level).unwrap();
    text.extend_from_slice(&record.name.0);
    write!(text, "\nat={}\nsize={}\n", record.place, record.size).unwrap();
}

fn kind_text(kind: Kind) -> &'static str {
    match kind {
        Kind::Form => "FORM",
        Kind::List => "LIST",
        Kind::Cat => "CAT",
        Kind::Prop => "PROP",
        Kind::Local => "LOCAL",
        Kind::Filler => "FILLER",
    }
}
