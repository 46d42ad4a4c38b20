//! The chunk tree and the order of the structure checks, 1 to 12.

use crate::answer::{Accepted, Refused};
use crate::name::Name;
use std::collections::HashSet;

/// Number of bytes that a file may have at most.
pub const LONGEST_FILE: usize = 16_777_216;

/// Level of a group that lies one level too deep.
const TOO_DEEP: usize = 17;

/// Bytes of a name and a size.
const HEADER: usize = 8;

#[derive(Clone, Copy, Debug, PartialEq, Eq, Hash)]
pub enum Kind {
    Form,
    List,
    Cat,
    Prop,
    Local,
    Filler,
}

impl Kind {
    /// The kind that a well-formed chunk name stands for.
    pub fn of(name: Name) -> Kind {
        match name {
            Name::FORM => Kind::Form,
            Name::LIST => Kind::List,
            Name::CAT => Kind::Cat,
            Name::PROP => Kind::Prop,
            Name::FILLER => Kind::Filler,
            _ => Kind::Local,
        }
    }

    /// FORM, LIST, CAT and PROP hold chunks.
    pub fn is_group(self) -> bool {
        !matches!(self, Kind::Local | Kind::Filler)
    }

    /// FORM, LIST and CAT: the groups that end a LIST's run of PROPs.
    fn ends_props(self) -> bool {
        matches!(self, Kind::Form | Kind::List | Kind::Cat)
    }
}

/// One chunk with its members. `name` is the type, for a group.
#[derive(Clone, Debug, PartialEq, Eq)]
pub struct Chunk {
    pub level: usize,
    pub kind: Kind,
    pub name: Name,
    pub place: usize,
    pub size: usize,
    pub members: Vec<Chunk>,
}

impl Chunk {
    /// Where the data begins.
    pub fn data_start(&self) -> usize {
        self.place + HEADER
    }

    /// Where the data ends; the pad byte, if any, stands here.
    pub fn data_end(&self) -> usize {
        self.data_start() + self.size
    }

    /// Where the chunk ends, pad byte included.
    pub fn end(&self) -> usize {
        self.data_end() + self.size % 2
    }
}

/// The tree of an accepted file.
#[derive(Clone, Debug, PartialEq, Eq)]
pub struct Tree {
    pub outermost: Chunk,
    pub chunks: usize,
    pub trailing: usize,
}

/// What a group has met so far among its members.
struct Surroundings {
    group: Kind,
    level: usize,
    end: usize,
    props_over: bool,
    prop_types: HashSet<Name>,
}

impl Surroundings {
    fn of(group: &Chunk) -> Surroundings {
        Surroundings {
            group: group.kind,
            level: group.level,
            end: group.data_end(),
            props_over: false,
            prop_types: HashSet::new(),
        }
    }

    /// Whether a chunk of this kind may stand next in the group.
    fn allow(&self, kind: Kind) -> bool {
        match (self.group, kind) {
            (_, Kind::Filler) => true,
            (Kind::Form, _) => kind != Kind::Prop,
            (Kind::List, Kind::Prop) => !self.props_over,
            (Kind::List | Kind::Cat, _) => kind.ends_props(),
            _ => kind == Kind::Local,
        }
    }
}

impl Tree {
    /// Reads the whole file, or refuses with the first of 1 to 12.
    pub fn read(file: &[u8]) -> Result<Tree, Refused> {
        if file.len() > LONGEST_FILE {
            return Err(Refused::plain(1));
        }
        check_outermost_name(file)?;
        let mut outermost = read_header(file, 0, file.len(), 1, |_| true)?;
        let chunks = 1 + read_members(file, &mut outermost)?;
        let trailing = file.len() - outermost.end();
        Ok(Tree { outermost, chunks, trailing })
    }
}

/// Accepts or refuses a file by its structure.
pub fn check(file: &[u8]) -> Result<Accepted, Refused> {
    let tree = Tree::read(file)?;
    Ok(Accepted { chunks: tree.chunks, end: tree.outermost.end(), trailing: tree.trailing })
}

/// The checks made for the outermost chunk only.
fn check_outermost_name(file: &[u8]) -> Result<(), Refused> {
    if file.len() < 4 {
        return Err(Refused::plain(2));
    }
    let name = Name::at(file, 0);
    if name.is_version() {
        return Err(Refused::plain(3));
    }
    if ![Name::FORM, Name::LIST, Name::CAT].contains(&name) {
        return Err(Refused::plain(2));
    }
    Ok(())
}

/// Reads the header at `place`, making checks 4 to 11 in their order.
fn read_header(
    file: &[u8],
    place: usize,
    end: usize,
    level: usize,
    allow: impl Fn(Kind) -> bool,
) -> Result<Chunk, Refused> {
    let refuse = |number| Err(Refused::at(number, place));
    if end - place < HEADER {
        return refuse(4);
    }
    let name = Name::at(file, place);
    if !name.is_well_formed() {
        return refuse(5);
    }
    if name.is_version() {
        return refuse(3);
    }
    let kind = Kind::of(name);
    if name == Name::JJJJ || !allow(kind) {
        return refuse(6);
    }
    let size = size_at(file, place + 4);
    let room = end - place - HEADER;
    if size > room {
        return refuse(7);
    }
    if size % 2 == 1 && size == room {
        return refuse(8);
    }
    let mut chunk = Chunk { level, kind, name, place, size, members: Vec::new() };
    if kind.is_group() {
        chunk.name = read_type(file, &chunk)?;
    }
    Ok(chunk)
}

/// Reads a group's type, making checks 9 to 11.
fn read_type(file: &[u8], group: &Chunk) -> Result<Name, Refused> {
    let refuse = |number| Err(Refused::at(number, group.place));
    if group.level >= TOO_DEEP {
        return refuse(9);
    }
    if group.size < 4 {
        return refuse(10);
    }
    let name = Name::at(file, group.data_start());
    let allowed = match group.kind {
        Kind::Form | Kind::Prop => name.is_form_type(),
        _ => name.is_well_formed(),
    };
    if !allowed {
        return refuse(11);
    }
    Ok(name)
}

/// Reads the members of a group, each with its own members before the next.
/// Returns the number of chunks inside the group.
fn read_members(file: &[u8], group: &mut Chunk) -> Result<usize, Refused> {
    let mut seen = Surroundings::of(group);
    let mut place = group.data_start() + 4;
    let mut chunks = 0;
    while place < seen.end {
        let mut chunk = read_header(file, place, seen.end, seen.level + 1, |kind| seen.allow(kind))?;
        if chunk.kind == Kind::Prop && !seen.prop_types.insert(chunk.name) {
            return Err(Refused::at(12, place));
        }
        seen.props_over |= chunk.kind.ends_props();
        chunks += 1;
        if chunk.kind.is_group() {
            chunks += read_members(file, &mut chunk)?;
        }
        place = chunk.end();
        group.members.push(chunk);
    }
    Ok(chunks)
}

/// The big-endian 32-bit size at `place`.
fn size_at(file: &[u8], place: usize) -> usize {
    file[place..place + 4].iter().fold(0, |size, byte| size << 8 | usize::from(*byte))
}
